/* Loaded into takrun before the C library (LD_PRELOAD): system calls that answer as the system may, and seldom does.
 *
 * ODD says what is odd, ODD_FILE of which file. At the end the count of odd answers goes into the file that ODD_COUNT names, so that a test
 * knows that there were some.
 */
#include <errno.h>
#include <fcntl.h>
#include <signal.h>
#include <stdio.h>
#include <stdlib.h>
#include <string.h>
#include <sys/stat.h>
#include <sys/syscall.h>
#include <sys/time.h>
#include <unistd.h>

enum { FEW = 7 };

static unsigned long odd, writes, reads;

static int is(const char *mode)
{
    const char *asked = getenv("ODD");

    return asked != NULL && strcmp(asked, mode) == 0;
}

static ssize_t fails(int error)
{
    odd++;
    errno = error;
    return -1;
}

static size_t at_most_few(size_t count)
{
    if (count <= FEW)
        return count;
    odd++;
    return FEW;
}

ssize_t write(int fd, const void *bytes, size_t count)
{
    writes++;
    if (is("short writes"))
        count = at_most_few(count);
    if (is("interrupted writes") && writes % 2 == 1)
        return fails(EINTR);
    if (is("interrupted short writes")) {
        if (writes % 3 != 0)
            return fails(EINTR);
        count = at_most_few(count);
    }
    if (is("second write fails") && writes == 2)
        return fails(EIO);
    if (is("second write would block") && writes == 2)
        return fails(EAGAIN);
    return syscall(SYS_write, fd, bytes, count);
}

/* Whether the descriptor is open on the file that ODD_FILE names. */
static int on_file(int fd)
{
    const char *path = getenv("ODD_FILE");
    struct stat named, open_one;

    return path != NULL && stat(path, &named) == 0 && fstat(fd, &open_one) == 0 && named.st_dev == open_one.st_dev &&
           named.st_ino == open_one.st_ino;
}

ssize_t read(int fd, void *bytes, size_t count)
{
    reads++;
    if (is("short reads"))
        count = at_most_few(count);
    if (is("interrupted reads") && reads % 2 == 1)
        return fails(EINTR);
    if (is("interrupted short reads")) {
        if (reads % 3 != 0)
            return fails(EINTR);
        count = at_most_few(count);
    }
    if (is("failing reads") && on_file(fd) && lseek(fd, 0, SEEK_CUR) > 0)
        return fails(EIO);
    return syscall(SYS_read, fd, bytes, count);
}

static void on_alarm(int number)
{
    (void)number;
    odd++;
}

/* Without SA_RESTART a call that waits is interrupted. */
__attribute__((constructor)) static void begin(void)
{
    struct sigaction action = {.sa_handler = on_alarm};
    struct itimerval each_millisecond = {{0, 1000}, {0, 1000}};

    if (is("alarms")) {
        sigaction(SIGALRM, &action, NULL);
        setitimer(ITIMER_REAL, &each_millisecond, NULL);
    }
}

__attribute__((destructor)) static void end(void)
{
    const char *path = getenv("ODD_COUNT");
    char line[32];
    int length = snprintf(line, sizeof line, "%lu\n", odd);
    int fd = path == NULL ? -1 : open(path, O_WRONLY | O_CREAT | O_TRUNC, 0644);

    if (fd >= 0 && syscall(SYS_write, fd, line, (size_t)length) != length)
        abort();
}
