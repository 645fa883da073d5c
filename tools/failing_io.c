/* For tools/fail_io: the calls `open`, `read` and `write`, of which one fails, or does less than it could.
 *
 * They stand before the C library's when the program is run with LD_PRELOAD. FAIL_CALL is the name of a call and FAIL_AT the
 * number, from 1, of the one of this name that fails; with FAIL_ON set each later one does so too. FAIL_HOW is the number of the
 * error that it tells, or 0: then it does its work, but a read gives the last byte with the next read, and a write leaves the
 * last byte. Each read gives, and each write takes, at most MOST bytes, or as many as there are where it is 0. LOG names a file
 * that gets a line `CALL NAME BYTES` for each call, where NAME is a file's name, or 1 or 2 for the outputs, and BYTES what came
 * of it, -1 where it failed.
 */
#define _GNU_SOURCE
#include <errno.h>
#include <fcntl.h>
#include <stdarg.h>
#include <stdio.h>
#include <stdlib.h>
#include <string.h>
#include <sys/syscall.h>
#include <unistd.h>

enum { OPENED = 64, LONGEST = 4096 };

static char names[OPENED][LONGEST];
static unsigned long made[3];
static int log_file = -1;

static unsigned long number_of(const char *name)
{
    const char *text = getenv(name);
    return text ? strtoul(text, NULL, 10) : 0;
}

/* Whether this call, which is counted in `count`, is one that fails. */
static int is_struck(const char *call, unsigned long *count)
{
    const char *struck = getenv("FAIL_CALL");
    unsigned long at = number_of("FAIL_AT");

    ++*count;
    if (!struck || strcmp(struck, call) != 0 || at == 0)
        return 0;
    return *count == at || (*count > at && getenv("FAIL_ON"));
}

/* Whether a call that is struck fails, rather than does less than it could. */
static int tells_error(void)
{
    errno = (int)number_of("FAIL_HOW");
    return errno != 0;
}

static void tell(const char *call, const char *name, long bytes)
{
    static char line[LONGEST + 64];
    int kept = errno;
    int length = snprintf(line, sizeof line, "%s %s %ld\n", call, name, bytes);

    if (log_file < 0 && getenv("LOG"))
        log_file = (int)syscall(SYS_openat, AT_FDCWD, getenv("LOG"), O_WRONLY | O_CREAT | O_APPEND | O_CLOEXEC, 0600);
    if (log_file >= 0)
        syscall(SYS_write, log_file, line, (size_t)length);
    errno = kept;
}

static const char *name_of(int file)
{
    static char number[16];

    if (file >= 0 && file < OPENED && names[file][0])
        return names[file];
    snprintf(number, sizeof number, "%d", file);
    return number;
}

static size_t at_most(size_t count)
{
    size_t most = number_of("MOST");
    return most && count > most ? most : count;
}

int open(const char *name, int flags, ...)
{
    va_list more;
    mode_t mode = 0;
    int file = -1;

    va_start(more, flags);
    if (flags & O_CREAT)
        mode = va_arg(more, mode_t);
    va_end(more);
    if (!is_struck("open", &made[0]) || !tells_error())
        file = (int)syscall(SYS_openat, AT_FDCWD, name, flags, mode);
    if (file >= 0 && file < OPENED)
        snprintf(names[file], LONGEST, "%s", name);
    tell("open", name, file < 0 ? -1 : 0);
    return file;
}

ssize_t read(int file, void *into, size_t count)
{
    int struck = is_struck("read", &made[1]);
    ssize_t got = -1;

    if (!struck || !tells_error())
        got = syscall(SYS_read, file, into, at_most(count));
    if (struck && got > 1) {
        got--;
        lseek(file, -1, SEEK_CUR);
    }
    tell("read", name_of(file), got);
    return got;
}

ssize_t write(int file, const void *from, size_t count)
{
    int struck = is_struck("write", &made[2]);
    ssize_t took = -1;

    count = at_most(count);
    if (!struck || !tells_error())
        took = syscall(SYS_write, file, from, struck && count > 1 ? count - 1 : count);
    tell("write", name_of(file), took);
    return took;
}

ssize_t __write(int file, const void *from, size_t count)
{
    return write(file, from, count);
}
