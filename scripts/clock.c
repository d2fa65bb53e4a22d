// Loaded before the C library: the clock tells the seconds since 1970 that CLOCK lists, one at each reading, and the last of
// them again and again. Where a word is no number the reading fails. Where KEYS_FAIL is set, a read of the keys fails that
// would tell their end. No header is needed to compile it.
#ifdef __x86_64__
#define READ 0
#else
#define READ 63
#endif

struct timespec {
    long seconds, nanoseconds;
};

extern char *getenv(const char *);
extern long syscall(long, ...);
extern long strtol(const char *, char **, int);
extern int *__errno_location(void);

static char *next;

__attribute__((constructor)) static void begin(void) { next = getenv("CLOCK"); }

int clock_gettime(int clock, struct timespec *into) {
    (void)clock;
    char *end;
    into->seconds = strtol(next, &end, 10);
    into->nanoseconds = 0;
    int is_number = end != next;
    while (*end && *end != ',') end++;
    if (*end) next = end + 1;
    if (!is_number) *__errno_location() = 5;
    return is_number ? 0 : -1;
}

long read(int file, void *into, unsigned long size) {
    long count = syscall(READ, file, into, size);
    if (file == 0 && count == 0 && size > 0 && getenv("KEYS_FAIL")) {
        *__errno_location() = 5;
        return -1;
    }
    return count;
}
