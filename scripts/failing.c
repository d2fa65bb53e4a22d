// Loaded before the C library: makes one call of the program's own fail. FAILING names the kind (memory, read, write,
// notes, clock, file, short-read and short-write, which move one byte, or interrupted, where a signal interrupts any of them),
// FAIL_AT the number of the call, from 1, and FAIL_TELL a file that gets the number of calls, and the numbers of those that
// found no file. A file's calls are those that look for it, open, read, write, sync, rename and remove it and give its rights.
// Calls from elsewhere than the program's own code are not counted, nor those on files below /proc, without which it goes on.
// CALLS names a file that gets a file's calls, a line each. SWAP names a file: what is called so, with .other behind it, takes
// its place when it is opened for the first time, behind the look for it.
#define _GNU_SOURCE
#include <errno.h>
#include <fcntl.h>
#include <link.h>
#include <stdarg.h>
#include <stdint.h>
#include <stdio.h>
#include <stdlib.h>
#include <string.h>
#include <sys/stat.h>
#include <sys/syscall.h>
#include <time.h>
#include <unistd.h>

extern void *__libc_malloc(size_t);
extern void *__libc_realloc(void *, size_t);

static const char *kind = "";
static unsigned long fail_at, count, absent[256], absent_count;
static uintptr_t first, last;

static int take_program(struct dl_phdr_info *info, size_t size, void *data) {
    (void)size, (void)data;
    first = UINTPTR_MAX;
    for (int i = 0; i < info->dlpi_phnum; i++) {
        const ElfW(Phdr) *part = &info->dlpi_phdr[i];
        if (part->p_type != PT_LOAD) continue;
        uintptr_t start = info->dlpi_addr + part->p_vaddr;
        if (start < first) first = start;
        if (start + part->p_memsz > last) last = start + part->p_memsz;
    }
    return 1;
}

__attribute__((constructor)) static void begin(void) {
    if (getenv("FAILING")) kind = getenv("FAILING");
    if (getenv("FAIL_AT")) fail_at = strtoul(getenv("FAIL_AT"), 0, 10);
    dl_iterate_phdr(take_program, 0);
}

__attribute__((destructor)) static void tell(void) {
    const char *name = getenv("FAIL_TELL");
    if (!name) return;
    FILE *told = fopen(name, "w");
    if (!told) return;
    fprintf(told, "%lu", count);
    for (unsigned long i = 0; i < absent_count; i++) fprintf(told, " %lu", absent[i]);
    fclose(told);
}

static int is_own(void *from) { return (uintptr_t)from >= first && (uintptr_t)from < last; }

static int fails(const char *what, void *from) {
    if (strcmp(kind, what) || !is_own(from)) return 0;
    return ++count == fail_at;
}

static int found(int result, void *from) {
    if (result < 0 && errno == ENOENT && !strcmp(kind, "file") && is_own(from) && absent_count < 256) absent[absent_count++] = count;
    return result;
}

#define CALLER __builtin_return_address(0)

// what is open of /proc
static int system_file = -1;

static char calls[1 << 16];
static size_t calls_end;

static void note(void *from, const char *form, ...) {
    if (!getenv("CALLS") || !is_own(from)) return;
    va_list more;
    va_start(more, form);
    size_t room = sizeof calls - calls_end;
    int length = vsnprintf(calls + calls_end, room, form, more);
    if (length > 0 && (size_t)length < room) calls_end += length;
    va_end(more);
}

__attribute__((destructor)) static void tell_calls(void) {
    if (!getenv("CALLS")) return;
    FILE *told = fopen(getenv("CALLS"), "w");
    if (!told) return;
    fwrite(calls, 1, calls_end, told);
    fclose(told);
}

static void swap(const char *path, void *from) {
    static int is_done;
    const char *name = getenv("SWAP");
    char other[256];
    if (!name || is_done || !is_own(from) || strcmp(path, name)) return;
    is_done = 1;
    snprintf(other, sizeof other, "%s.other", name);
    syscall(SYS_rename, other, path);
}

void *malloc(size_t size) {
    if (fails("memory", CALLER)) return errno = ENOMEM, (void *)0;
    return __libc_malloc(size);
}

void *realloc(void *old, size_t size) {
    if (fails("memory", CALLER)) return errno = ENOMEM, (void *)0;
    return __libc_realloc(old, size);
}

ssize_t read(int file, void *into, size_t size) {
    if (file != system_file && fails(file == 0 ? "read" : "file", CALLER)) return errno = EIO, -1;
    if (fails("interrupted", CALLER)) return errno = EINTR, -1;
    if (size > 1 && fails("short-read", CALLER)) size = 1;
    return syscall(SYS_read, file, into, size);
}

static ssize_t put(int file, const void *from, size_t size, void *caller) {
    if (file == 1 && fails("write", caller)) return errno = EIO, -1;
    if (file == 2 && fails("notes", caller)) return errno = EIO, -1;
    if (file > 2 && fails("file", caller)) return errno = ENOSPC, -1;
    if (fails("interrupted", caller)) return errno = EINTR, -1;
    if (file > 2) note(caller, "write %zu\n", size);
    if (size > 1 && fails("short-write", caller)) size = 1;
    return syscall(SYS_write, file, from, size);
}

ssize_t write(int file, const void *from, size_t size) { return put(file, from, size, CALLER); }

ssize_t __write(int file, const void *from, size_t size) { return put(file, from, size, CALLER); }

int clock_gettime(clockid_t clock, struct timespec *into) {
    if (fails("clock", CALLER)) return errno = EIO, -1;
    return (int)syscall(SYS_clock_gettime, clock, into);
}

int open(const char *path, int how, ...) {
    va_list more;
    va_start(more, how);
    int mode = how & O_CREAT ? va_arg(more, int) : 0;
    va_end(more);
    if (!strncmp(path, "/proc/", 6)) return system_file = (int)syscall(SYS_openat, AT_FDCWD, path, how, mode);
    if (fails("file", CALLER)) return errno = EIO, -1;
    if (fails("interrupted", CALLER)) return errno = EINTR, -1;
    swap(path, CALLER);
    note(CALLER, how & O_EXCL ? "make %s %o\n" : "open %s\n", path, mode);
    return found((int)syscall(SYS_openat, AT_FDCWD, path, how, mode), CALLER);
}

int close(int file) {
    if (file == system_file) system_file = -1;
    return (int)syscall(SYS_close, file);
}

int statx(int folder, const char *restrict path, int how, unsigned wanted, struct statx *restrict into) {
    if (fails("file", CALLER)) return errno = EIO, -1;
    if (fails("interrupted", CALLER)) return errno = EINTR, -1;
    return found((int)syscall(SYS_statx, folder, path, how, wanted, into), CALLER);
}

int fchown(int file, uid_t owner, gid_t group) {
    if (fails("file", CALLER)) return errno = EIO, -1;
    if (fails("interrupted", CALLER)) return errno = EINTR, -1;
    note(CALLER, "own %d %d\n", (int)owner, (int)group);
    return (int)syscall(SYS_fchown, file, owner, group);
}

int fchmod(int file, mode_t mode) {
    if (fails("file", CALLER)) return errno = EIO, -1;
    if (fails("interrupted", CALLER)) return errno = EINTR, -1;
    note(CALLER, "rights %o\n", mode);
    return (int)syscall(SYS_fchmod, file, mode);
}

int fsync(int file) {
    if (fails("file", CALLER)) return errno = EIO, -1;
    if (fails("interrupted", CALLER)) return errno = EINTR, -1;
    note(CALLER, "sync\n");
    return (int)syscall(SYS_fsync, file);
}

int rename(const char *from, const char *to) {
    if (fails("file", CALLER)) return errno = EIO, -1;
    if (fails("interrupted", CALLER)) return errno = EINTR, -1;
    note(CALLER, "rename %s %s\n", from, to);
    return (int)syscall(SYS_rename, from, to);
}

int unlink(const char *path) {
    if (fails("file", CALLER)) return errno = EIO, -1;
    if (fails("interrupted", CALLER)) return errno = EINTR, -1;
    note(CALLER, "remove %s\n", path);
    return (int)syscall(SYS_unlink, path);
}
