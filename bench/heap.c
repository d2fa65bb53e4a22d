/* Loaded before the C library: it counts the bytes that a program asked for and did not give back. Where the program first
   writes to standard output it tells on standard error how many are held, and at the end the most that ever were. */
#define _GNU_SOURCE
#include <dlfcn.h>
#include <stdio.h>
#include <stdlib.h>
#include <string.h>
#include <unistd.h>

/* What stands before each block: its bytes. The size keeps what follows aligned. */
struct head {
    size_t bytes;
    size_t unused;
};

static size_t held, most;
static void *(*next_malloc)(size_t);
static void (*next_free)(void *);
static ssize_t (*next_write)(int, const void *, size_t);
static int is_told;

static void tell(const char *name, size_t bytes)
{
    char line[64];
    int length = snprintf(line, sizeof line, "%s %zu\n", name, bytes);
    if (write(2, line, (size_t)length) != length)
        _exit(1);
}

ssize_t write(int stream, const void *bytes, size_t length)
{
    if (!next_write)
        next_write = dlsym(RTLD_NEXT, "write");
    if (stream == 1 && !is_told) {
        is_told = 1;
        tell("held", held);
    }
    return next_write(stream, bytes, length);
}

ssize_t __write(int stream, const void *bytes, size_t length)
{
    return write(stream, bytes, length);
}

void *malloc(size_t bytes)
{
    if (!next_malloc) {
        next_malloc = dlsym(RTLD_NEXT, "malloc");
        next_free = dlsym(RTLD_NEXT, "free");
    }
    struct head *block = next_malloc(sizeof *block + bytes);
    if (!block)
        return NULL;
    block->bytes = bytes;
    held += bytes;
    if (held > most)
        most = held;
    return block + 1;
}

void free(void *room)
{
    if (!room)
        return;
    struct head *block = (struct head *)room - 1;
    held -= block->bytes;
    next_free(block);
}

void *calloc(size_t count, size_t bytes)
{
    void *room = malloc(count * bytes);
    if (room)
        memset(room, 0, count * bytes);
    return room;
}

void *realloc(void *room, size_t bytes)
{
    void *moved = malloc(bytes);
    if (room && moved) {
        size_t old = ((struct head *)room - 1)->bytes;
        memcpy(moved, room, old < bytes ? old : bytes);
        free(room);
    }
    return moved;
}

__attribute__((destructor)) static void end(void)
{
    tell("most", most);
}
