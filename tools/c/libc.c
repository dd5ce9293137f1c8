/* What picolibc asks of a machine. stdout and stderr are the console, stdin is at its end, and exit ends the run with its status in x10.
   There are no files, processes and clocks: what asks for them is refused. */
#include <errno.h>
#include <fcntl.h>
#include <stdio.h>
#include <stdlib.h>
#include <sys/stat.h>
#include <sys/time.h>
#include <sys/times.h>
#include <unistd.h>
#include "console.h"

static int put(char character, FILE *file)
{
    (void)file;
    put_char(character);
    return (unsigned char)character;
}

static int get(FILE *file)
{
    (void)file;
    return _FDEV_EOF;
}

static FILE output = FDEV_SETUP_STREAM(put, NULL, NULL, _FDEV_SETUP_WRITE);
static FILE input = FDEV_SETUP_STREAM(NULL, get, NULL, _FDEV_SETUP_READ);

FILE *const stdin = &input;
FILE *const stdout = &output;
FILE *const stderr = &output;

/* start.s comes here when main has returned. */
void nova_end(int status);

void nova_end(int status)
{
    exit(status);
}

void _exit(int status)
{
    register int x10 __asm__("x10") = status;

    for (;;)
        __asm__ volatile("ebreak" : : "r"(x10));
}

static int refuse(int error)
{
    errno = error;
    return -1;
}

ssize_t write(int file, const void *bytes, size_t count)
{
    if (file != STDOUT_FILENO && file != STDERR_FILENO)
        return refuse(EBADF);
    for (size_t i = 0; i < count; i++)
        put_char(((const char *)bytes)[i]);
    return (ssize_t)count;
}

ssize_t read(int file, void *bytes, size_t count)
{
    (void)bytes;
    (void)count;
    return file == STDIN_FILENO ? 0 : refuse(EBADF);
}

int open(const char *name, int how, ...)
{
    (void)name;
    (void)how;
    return refuse(ENOENT);
}

int close(int file)
{
    (void)file;
    return refuse(EBADF);
}

off_t lseek(int file, off_t offset, int whence)
{
    (void)offset;
    (void)whence;
    return refuse(file >= STDIN_FILENO && file <= STDERR_FILENO ? ESPIPE : EBADF);
}

int unlink(const char *name)
{
    (void)name;
    return refuse(ENOENT);
}

int gettimeofday(struct timeval *time, void *zone)
{
    (void)time;
    (void)zone;
    return refuse(ENOSYS);
}

clock_t times(struct tms *parts)
{
    (void)parts;
    return (clock_t)refuse(ENOSYS);
}

pid_t getpid(void)
{
    return 1;
}

/* A signal that the program sends itself, as by abort, ends it: its number and 128 are in x10. */
int kill(pid_t process, int signal)
{
    if (process != 1)
        return refuse(ESRCH);
    _exit(128 + signal);
}
