/* Faults for the runs of the built programs: loaded before the C library, it takes the place of open, read and write.
 * Each number is of an environment variable; where it is not set there is no such fault.
 *   INTERRUPTS     a signal interrupts each call so many times before it is made
 *   OPEN_FAILS     the opening of this number and every later one fail with EIO; the first is 1
 *   READ_SIZE      a read takes at most so many bytes
 *   READ_FAILS     the read of this number and every later one fail with EIO; the first is 1
 *   WRITE_SIZE     a write takes at most so many bytes
 *   WRITE_FAILS    the write of this number and every later one to standard output fail with EIO; the first is 1
 *   NONBLOCKING    if it is not 0, a read of standard input does not wait for bytes
 */
#define _GNU_SOURCE
#include <errno.h>
#include <fcntl.h>
#include <stdlib.h>
#include <sys/syscall.h>
#include <unistd.h>

static unsigned long setting(const char *name)
{
    const char *value = getenv(name);
    return value ? strtoul(value, NULL, 10) : 0;
}

static int fails(int error)
{
    errno = error;
    return -1;
}

/* whether the call is interrupted this time */
static int is_interrupted(void)
{
    static unsigned long interrupts;
    if (interrupts < setting("INTERRUPTS")) {
        interrupts++;
        return 1;
    }
    interrupts = 0;
    return 0;
}

static size_t at_most(const char *name, size_t count)
{
    size_t most = setting(name);
    return most && most < count ? most : count;
}

/* whether the call of this number fails */
static int is_failing(const char *name, unsigned long number)
{
    unsigned long first = setting(name);
    return first && first <= number;
}

__attribute__((constructor)) static void begin(void)
{
    if (setting("NONBLOCKING"))
        fcntl(STDIN_FILENO, F_SETFL, fcntl(STDIN_FILENO, F_GETFL) | O_NONBLOCK);
}

int open(const char *path, int flags, ...)
{
    static unsigned long opens;
    if (is_interrupted())
        return fails(EINTR);
    if (is_failing("OPEN_FAILS", ++opens))
        return fails(EIO);
    return syscall(SYS_open, path, flags, 0);
}

ssize_t read(int fd, void *buffer, size_t count)
{
    static unsigned long reads;
    if (is_interrupted())
        return fails(EINTR);
    if (is_failing("READ_FAILS", ++reads))
        return fails(EIO);
    return syscall(SYS_read, fd, buffer, at_most("READ_SIZE", count));
}

ssize_t write(int fd, const void *bytes, size_t count)
{
    static unsigned long writes;
    if (is_interrupted())
        return fails(EINTR);
    if (fd == STDOUT_FILENO && is_failing("WRITE_FAILS", ++writes))
        return fails(EIO);
    return syscall(SYS_write, fd, bytes, at_most("WRITE_SIZE", count));
}
