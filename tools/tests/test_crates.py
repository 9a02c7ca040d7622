"""What is told of the crates: which stand on one, which names have two meanings, and where want of memory is made by hand."""
import shutil, unittest

from base import ROOT, Case, write

RUN = """ghost use Rattle.low.specs.Words.{IsRead};
ghost use Rattle.top.specs.Words.{IsDone};

pub fn run(a: u64) -> u64
    ensures done { IsDone a }
    ensures read { IsRead a }
{
    a
}
"""

REFUSES = """use low::Memory;

/// Memory, or Err(Memory).
pub enum Stop {
    Wrong,
    Memory,
}

impl From<Memory> for Stop {
    ghost from_gives = { λ _ e. e ≡ Memory };

    fn from(_refused: Memory) -> Stop {
        Stop::Memory
    }
}

fn one(a: u64) -> Result<u64, Memory>
    ensures { result ≡ Err Memory → a ≡ 0 }
{
    let b = a.checked_add(1).ok_or(Memory)?;
    match two(b) {
        Ok(c) => Ok(c),
        Err(Stop::Memory) => Err(Memory),
        Err(Stop::Wrong) => Err(Memory),
    }
}

fn two(a: u64) -> Result<u64, Stop> {
    let Err(Memory) = one(a) else {
        return Err(Stop::Memory);
    };
    match one(a) {
        Err(Memory) => Err(Stop::Memory),
        _ => Err(Stop::Wrong),
    }
}
"""


class Crates(Case):
    def twice(self, low, top):
        """What tools/names_twice says of definitions of two crates; the contract of `run` speaks of both."""
        write(f"{self.folder}/crates.txt", "low:\ntop: low\n")
        write(f"{self.folder}/crates/low/specs/Words.antt", low)
        write(f"{self.folder}/crates/top/specs/Words.antt", top)
        write(f"{self.folder}/crates/top/src/top.rt", RUN)
        return self.call(f"{ROOT}/tools/names_twice", "--call", "top/src/top.rt:run", self.folder)

    def test_a_name_with_two_meanings_that_both_stand_in_the_contract_is_listed(self):
        read = "abbrev pub IsRead : N\nIsRead = same\n"
        status, out, _ = self.twice(read + "abbrev pub same : N\nsame = one\n", "abbrev pub IsDone : N\nIsDone = same\nabbrev pub same : N\nsame = two\n")
        self.assertEqual((status, out.split("\n")[0]), (1, "same: low/Words*, top/Words*"))
        status, out, _ = self.twice(read + "abbrev pub same : N\nsame = one\n", "abbrev pub IsDone : N\nIsDone = other\nabbrev pub other : N\nother = two\n")
        self.assertEqual((status, out.split("\n")[0][:8]), (0, "0 names "))

    def test_want_of_memory_that_is_made_by_hand_is_listed(self):
        for crate in ("top", "top_tests"):
            write(f"{self.folder}/crates/{crate}/src/top.rt", REFUSES)
        places = {f"crates/top/src/top.rt:{line}" for line in (20, 24, 30)}
        status, out, _ = self.call(f"{ROOT}/tools/sealed", self.folder)
        lines = out.split("\n")
        self.assertEqual((status, {line.split(": ")[0] for line in lines[:3]}, lines[3:]), (0, places, ["   3 top", "3 made by hand", ""]))

    def test_which_crates_stand_on_one(self):
        tool = shutil.copy(f"{ROOT}/tools/stands_on", write(f"{self.folder}/tools/stands_on", ""))
        write(f"{self.folder}/crates.txt", "# crates\nbase:\nword: base kit\nrun may_wait=2: word\napart: base\nrun_tests: run apart\n")
        self.assertEqual(self.call(tool, "word")[:2], (0, "run\nrun_tests\n"))
        self.assertEqual(self.call(tool, "base")[1], "word\nrun\napart\nrun_tests\n")
        self.assertEqual(self.call(tool, "--below", "run")[:2], (0, "base\nword\n"))
        self.assertIn("has no none", self.call(tool, "none")[2])
        self.assertIn("\nep_cli\n", self.call(f"{ROOT}/tools/stands_on", "ep_base")[1])


if __name__ == "__main__":
    unittest.main()
