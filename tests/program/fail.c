/* Has one call of a device fail, or each write and read move one byte: a shim that is preloaded. FAIL is the number, counted from
   1, of the call of open, lseek, read or write that fails, alone; the calls after it go on. ERROR is its errno. Where SHORT is set,
   a read or write moves at most so many bytes; where NONE is, no write to the standard output takes a byte; where STAY is, a file
   that gets another name is told so and keeps its own. The file that CALLS names gets a line for each call: its kind, its device (0 to 2
   for the standard streams, else 3), and `failed` or `done`. */
#include <errno.h>
#include <fcntl.h>
#include <stdarg.h>
#include <stdlib.h>
#include <string.h>
#include <sys/syscall.h>
#include <unistd.h>

static long made = 0;
static int calls = -1;

static long setting(const char *name)
{
    const char *text = getenv(name);
    return text ? strtol(text, NULL, 10) : 0;
}

static void tell(const char *kind, int device, int is_failed)
{
    char line[64];
    if (calls < 0) {
        const char *name = getenv("CALLS");
        calls = name ? (int)syscall(SYS_openat, AT_FDCWD, name, O_CREAT | O_WRONLY | O_TRUNC, 0600) : 1000;
    }
    strcpy(line, kind);
    strcat(line, device == 0 ? " 0 " : device == 1 ? " 1 " : device == 2 ? " 2 " : " 3 ");
    strcat(line, is_failed ? "failed\n" : "done\n");
    syscall(SYS_write, calls, line, strlen(line));
}

static int fails(const char *kind, int device)
{
    int is_failed = ++made == setting("FAIL");
    tell(kind, device, is_failed);
    if (is_failed)
        errno = (int)setting("ERROR");
    return is_failed;
}

static size_t cut(size_t count)
{
    size_t most = (size_t)setting("SHORT");
    return most && count > most ? most : count;
}

int open(const char *path, int flags, ...)
{
    va_list rest;
    int mode;
    va_start(rest, flags);
    mode = va_arg(rest, int);
    va_end(rest);
    return fails("open", 3) ? -1 : (int)syscall(SYS_openat, AT_FDCWD, path, flags, mode);
}

off_t lseek(int file, off_t to, int whence)
{
    return fails("lseek", file) ? -1 : (off_t)syscall(SYS_lseek, file, to, whence);
}

ssize_t read(int file, void *into, size_t count)
{
    return fails("read", file) ? -1 : (ssize_t)syscall(SYS_read, file, into, cut(count));
}

ssize_t write(int file, const void *from, size_t count)
{
    if (file == 1 && getenv("NONE"))
        count = 0;
    return fails("write", file) ? -1 : (ssize_t)syscall(SYS_write, file, from, cut(count));
}

int fsync(int file)
{
    return fails("fsync", file) ? -1 : (int)syscall(SYS_fsync, file);
}

int rename(const char *from, const char *to)
{
    if (fails("rename", 3))
        return -1;
    return getenv("STAY") ? 0 : (int)syscall(SYS_renameat, AT_FDCWD, from, AT_FDCWD, to);
}
