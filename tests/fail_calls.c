/* Loaded before the C library: reads give 7 bytes at most and writes take 5, and some calls of one kind fail. FAIL says which, as
   "KIND FIRST MANY ERROR TOLD": from the call FIRST of this kind on, counted from 1, so many fail with this errno, and a byte on
   the descriptor TOLD says that they came. Kinds are letters: i is a read of standard input, r one of another file, w a write, o
   an open, s a stat. Each call goes on to the system itself, past the C library. */
#define _GNU_SOURCE
#include <errno.h>
#include <fcntl.h>
#include <stdarg.h>
#include <stdio.h>
#include <stdlib.h>
#include <sys/stat.h>
#include <sys/syscall.h>
#include <unistd.h>

#define MOST_READ 7
#define MOST_WRITTEN 5

static char kind;
static int error, told;
static long first, many, calls;

__attribute__((constructor)) static void begin(void) {
    const char *fail = getenv("FAIL");
    if (!fail || sscanf(fail, "%c %ld %ld %d %d", &kind, &first, &many, &error, &told) != 5)
        _exit(126);
}

static int fails(char its) {
    if (its != kind || ++calls < first || calls - first >= many)
        return 0;
    if (calls == first && syscall(SYS_write, told, "!", 1) != 1)
        _exit(126);
    errno = error;
    return 1;
}

static size_t least(size_t some, size_t most) { return some < most ? some : most; }

ssize_t read(int file, void *bytes, size_t size) {
    return fails(file == STDIN_FILENO ? 'i' : 'r') ? -1 : syscall(SYS_read, file, bytes, least(size, MOST_READ));
}

ssize_t write(int file, const void *bytes, size_t size) {
    return fails('w') ? -1 : syscall(SYS_write, file, bytes, least(size, MOST_WRITTEN));
}

int open(const char *path, int flags, ...) {
    va_list more;
    va_start(more, flags);
    mode_t mode = flags & (O_CREAT | O_TMPFILE) ? va_arg(more, mode_t) : 0;
    va_end(more);
    return fails('o') ? -1 : syscall(SYS_openat, AT_FDCWD, path, flags, mode);
}

int statx(int folder, const char *path, int flags, unsigned mask, struct statx *found) {
    return fails('s') ? -1 : syscall(SYS_statx, folder, path, flags, mask, found);
}
