// A plain check of LRAT proofs by the rules of docs/FORMATS.md, on one thread, to hold the program's own check against (tools/check_speed).
//
//     lrat FORMULA PROOF [read]
//
// puts out what the program does, `$ verified`, `$ bad step N` or `$ no empty clause`; with a third word it only reads both texts. Texts are taken as they should be: what isn't in the grammar
// isn't looked for. Literals lie in one list, clauses are found by a table of ids, and a hint costs the literals of its clause.
#include <algorithm>
#include <cstdint>
#include <cstdio>
#include <cstdlib>
#include <unordered_map>
#include <vector>

using u32 = std::uint32_t;
using u64 = std::uint64_t;
using i64 = std::int64_t;

struct Text {
    std::vector<char> bytes;
    size_t at = 0;

    explicit Text(const char *name) {
        FILE *file = std::fopen(name, "rb");
        if (!file) {
            std::fprintf(stderr, "can't read %s\n", name);
            std::exit(2);
        }
        std::fseek(file, 0, SEEK_END);
        bytes.resize(static_cast<size_t>(std::ftell(file)));
        std::rewind(file);
        if (std::fread(bytes.data(), 1, bytes.size(), file) != bytes.size()) std::exit(2);
        std::fclose(file);
    }
    bool ended() const { return at >= bytes.size(); }
    char now() const { return bytes[at]; }
    void line() {
        while (!ended() && now() != '\n') at++;
        if (!ended()) at++;
    }
    void blanks() {
        while (!ended() && (now() == ' ' || now() == '\t' || now() == '\r' || now() == '\n')) at++;
    }
    // the next thing that isn't a blank or a comment, or the end
    bool next() {
        for (;;) {
            blanks();
            if (ended()) return false;
            if (now() != 'c') return true;
            line();
        }
    }
    i64 number() {
        blanks();
        bool negative = !ended() && now() == '-';
        if (negative) at++;
        i64 value = 0;
        while (!ended() && now() >= '0' && now() <= '9') value = value * 10 + (bytes[at++] - '0');
        return negative ? -value : value;
    }
};

// Clauses in one list of literals: the one with number k ends where ends[k] says.
struct Clauses {
    std::vector<u32> literals;
    std::vector<u64> ends{0};

    void close() { ends.push_back(literals.size()); }
    size_t count() const { return ends.size() - 1; }
    const u32 *begin(size_t k) const { return literals.data() + ends[k]; }
    const u32 *end(size_t k) const { return literals.data() + ends[k + 1]; }
};

struct Line {
    u64 id;
    bool deletes;
    u64 hints_from, hints_to;
    size_t clause;
};

static u32 code(i64 literal) { return literal > 0 ? static_cast<u32>(2 * literal) : static_cast<u32>(-2 * literal + 1); }

int main(int count, char **words) {
    if (count < 3) return 2;
    Clauses clauses;
    std::vector<Line> lines;
    std::vector<i64> hints;
    u32 most = 0;
    bool empty = false;
    size_t given = 0;
    {
        Text text(words[1]);
        text.next();
        text.at += 5; // p cnf
        text.number();
        text.number();
        while (text.next()) {
            size_t from = clauses.literals.size();
            for (i64 literal = text.number(); literal != 0; literal = text.number()) {
                clauses.literals.push_back(code(literal));
                most = std::max(most, code(literal));
            }
            empty |= clauses.literals.size() == from;
            clauses.close();
        }
        given = clauses.count();
    }
    {
        Text text(words[2]);
        while (text.next()) {
            Line line{};
            line.id = static_cast<u64>(text.number());
            text.blanks();
            if (!text.ended() && text.now() == 'd') {
                text.at++;
                line.deletes = true;
            } else {
                size_t from = clauses.literals.size();
                for (i64 literal = text.number(); literal != 0; literal = text.number()) {
                    clauses.literals.push_back(code(literal));
                    most = std::max(most, code(literal));
                }
                empty |= clauses.literals.size() == from;
                line.clause = clauses.count();
                clauses.close();
            }
            line.hints_from = hints.size();
            for (i64 hint = text.number(); hint != 0; hint = text.number()) hints.push_back(hint);
            line.hints_to = hints.size();
            lines.push_back(line);
        }
    }
    if (count > 3) {
        std::printf("%zu clauses, %zu lines\n", given, lines.size());
        return 0;
    }
    // the number of the clause of each live id, and one more
    u64 small = 4 * (given + lines.size()) + 1;
    std::vector<u32> table(small, 0);
    std::unordered_map<u64, u32> far;
    auto put = [&](u64 id, u32 clause) {
        if (id < small) table[id] = clause;
        else far[id] = clause;
    };
    for (size_t k = 0; k < given; k++) put(k + 1, static_cast<u32>(k + 1));
    std::vector<char> truth(most + 2, 0);
    std::vector<u32> trues;
    u64 newest = given;
    for (size_t n = 0; n < lines.size(); n++) {
        const Line &line = lines[n];
        if (line.deletes) {
            for (u64 h = line.hints_from; h < line.hints_to; h++) put(static_cast<u64>(hints[h]), 0);
            continue;
        }
        bool shown = false;
        for (const u32 *l = clauses.begin(line.clause); l != clauses.end(line.clause) && !shown; l++) {
            if (truth[*l]) shown = true;
            if (!truth[*l ^ 1]) {
                truth[*l ^ 1] = 1;
                trues.push_back(*l ^ 1);
            }
        }
        for (u64 h = line.hints_from; h < line.hints_to && !shown; h++) {
            u64 id = static_cast<u64>(hints[h]);
            u32 clause = 0;
            if (hints[h] > 0) {
                if (id < small) clause = table[id];
                else if (auto found = far.find(id); found != far.end()) clause = found->second;
            }
            if (!clause) break;
            u32 open = 0;
            size_t opens = 0;
            for (const u32 *l = clauses.begin(clause - 1); l != clauses.end(clause - 1); l++)
                if (!truth[*l ^ 1] && (opens == 0 || *l != open)) {
                    open = *l;
                    if (++opens == 2) break;
                }
            if (opens == 0) shown = true;
            else if (opens == 1 && !truth[open]) {
                truth[open] = 1;
                trues.push_back(open);
            }
        }
        for (u32 l : trues) truth[l] = 0;
        trues.clear();
        if (!shown || line.id <= newest) {
            std::printf("$ bad step %zu\n", n + 1);
            return 7;
        }
        put(line.id, static_cast<u32>(line.clause + 1));
        newest = line.id;
    }
    std::puts(empty ? "$ verified" : "$ no empty clause");
    return empty ? 0 : 7;
}
