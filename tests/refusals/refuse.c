/* Refuses one allocation of a process: a shim that is preloaded. REFUSE is the number of the malloc or realloc that
   fails, counted from 1; where it is met, the file that REFUSED names is made. */
#include <fcntl.h>
#include <stddef.h>
#include <stdlib.h>
#include <unistd.h>

extern void *__libc_malloc(size_t size);
extern void *__libc_realloc(void *block, size_t size);

static long left = -1;

static int is_refused(void)
{
    if (left < 0) {
        const char *number = getenv("REFUSE");
        left = number ? strtol(number, NULL, 10) : 0;
    }
    if (left == 0 || --left > 0)
        return 0;
    const char *mark = getenv("REFUSED");
    int file = mark ? open(mark, O_CREAT | O_WRONLY, 0600) : -1;
    if (file >= 0)
        close(file);
    return 1;
}

void *malloc(size_t size)
{
    return is_refused() ? NULL : __libc_malloc(size);
}

void *realloc(void *block, size_t size)
{
    return is_refused() ? NULL : __libc_realloc(block, size);
}
