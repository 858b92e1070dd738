/* Loaded before the C library: the call of malloc or realloc whose number REFUSE gives is refused, and told by a `!` on the file
   descriptor 3. Calls are counted from 1, from when this is loaded; where none is refused, how many there were is told in
   digits when the program ends. */
#include <errno.h>
#include <stdio.h>
#include <stdlib.h>
#include <unistd.h>

void *__libc_malloc(size_t size);
void *__libc_realloc(void *old, size_t size);

static long long refused, calls;

__attribute__((constructor)) static void begin(void) {
    const char *number = getenv("REFUSE");
    refused = number ? atoll(number) : 0;
    calls = 0;
}

static int is_refused(void) {
    if (++calls != refused)
        return 0;
    if (write(3, "!", 1) != 1)
        _exit(126);
    errno = ENOMEM;
    return 1;
}

void *malloc(size_t size) { return is_refused() ? NULL : __libc_malloc(size); }

void *realloc(void *old, size_t size) { return is_refused() ? NULL : __libc_realloc(old, size); }

__attribute__((destructor)) static void end(void) {
    char digits[24];
    int size = snprintf(digits, sizeof digits, "%lld", calls);
    if ((refused == 0 || calls < refused) && write(3, digits, size) != size)
        _exit(126);
}
