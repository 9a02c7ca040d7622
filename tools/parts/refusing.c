// Refuses one request for memory, or for a thread, of the program that it is loaded into: that of the number in REFUSED. At its end it says how many there were.
typedef __SIZE_TYPE__ size_t;
void *dlsym(void *, const char *);
char *getenv(const char *);
unsigned long strtoul(const char *, char **, int);
long write(int, const void *, size_t);
int *__errno_location(void);

#define NEXT ((void *)-1L)
#define NO_MEMORY 12
#define NO_THREAD 11

static unsigned long asked, refused;

__attribute__((constructor)) static void begin(void) {
    const char *number = getenv("REFUSED");
    asked = 0;
    refused = number ? strtoul(number, 0, 10) : 0;
}

static int is_refused(void) {
    if (__atomic_add_fetch(&asked, 1, __ATOMIC_RELAXED) != refused) return 0;
    *__errno_location() = NO_MEMORY;
    return 1;
}

void *malloc(size_t size) {
    static void *(*next)(size_t);
    if (!next) next = (void *(*)(size_t))dlsym(NEXT, "malloc");
    return is_refused() ? 0 : next(size);
}

void *realloc(void *old, size_t size) {
    static void *(*next)(void *, size_t);
    if (!next) next = (void *(*)(void *, size_t))dlsym(NEXT, "realloc");
    return is_refused() ? 0 : next(old, size);
}

int pthread_create(void *thread, const void *how, void *(*begins)(void *), void *with) {
    static int (*next)(void *, const void *, void *(*)(void *), void *);
    if (!next) next = (int (*)(void *, const void *, void *(*)(void *), void *))dlsym(NEXT, "pthread_create");
    return is_refused() ? NO_THREAD : next(thread, how, begins, with);
}

static void tell(void) {
    char digits[24];
    int first = sizeof digits - 1;
    digits[first] = '\n';
    for (unsigned long rest = asked; rest || first == sizeof digits - 1; rest /= 10) digits[--first] = '0' + rest % 10;
    write(2, digits + first, sizeof digits - first);
}

// A program with threads ends by _exit, which runs nothing of this file by itself.
__attribute__((noreturn)) void _exit(int status) {
    void (*next)(int) = (void (*)(int))dlsym(NEXT, "_exit");
    tell();
    next(status);
    __builtin_unreachable();
}

__attribute__((destructor)) static void end(void) { tell(); }
