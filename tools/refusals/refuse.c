// Refuses calls of a program to the C library, one by its number. It is preloaded: LD_PRELOAD names it as a shared object.
//
// REFUSE is `KIND NUMBER`, with KIND one of memory, thread, open, move, read, write: the call of this kind and number, from 1, fails, and no
// other. SHORT, if it is set, lets each read and write have one byte. COUNTED names a file to which the numbers of calls are written
// when the program ends, one of each kind.
#define _GNU_SOURCE
#include <dlfcn.h>
#include <errno.h>
#include <fcntl.h>
#include <pthread.h>
#include <stdarg.h>
#include <stdatomic.h>
#include <stddef.h>
#include <stdio.h>
#include <stdlib.h>
#include <string.h>
#include <sys/syscall.h>
#include <unistd.h>

enum kind { MEMORY, THREAD, OPEN, MOVE, READ, WRITE, KINDS };

static const char *const names[KINDS] = {"memory", "thread", "open", "move", "read", "write"};
static atomic_ulong made[KINDS];
static atomic_int begun;
static unsigned long refused[KINDS];
static size_t most = -1;

// The library's own calls before the program begins are not the program's.
__attribute__((constructor)) static void begin(void) {
  const char *it = getenv("REFUSE");
  for (int kind = 0; it && kind < KINDS; kind++) {
    size_t length = strlen(names[kind]);
    if (!strncmp(it, names[kind], length) && it[length] == ' ') refused[kind] = strtoul(it + length, NULL, 10);
  }
  if (getenv("SHORT")) most = 1;
  begun = 1;
}

static int is_refused(enum kind kind) { return begun && atomic_fetch_add(&made[kind], 1) + 1 == refused[kind]; }

static size_t at_most(size_t size) { return size < most ? size : most; }

#define REAL(name) ((__typeof__(&name))dlsym(RTLD_NEXT, #name))

extern void *__libc_malloc(size_t), *__libc_calloc(size_t, size_t), *__libc_realloc(void *, size_t);

static void *no_memory(void) {
  errno = ENOMEM;
  return NULL;
}

void *malloc(size_t size) { return is_refused(MEMORY) ? no_memory() : __libc_malloc(size); }

void *calloc(size_t count, size_t size) { return is_refused(MEMORY) ? no_memory() : __libc_calloc(count, size); }

void *realloc(void *at, size_t size) { return is_refused(MEMORY) ? no_memory() : __libc_realloc(at, size); }

int pthread_create(pthread_t *thread, const pthread_attr_t *how, void *(*start)(void *), void *with) {
  return is_refused(THREAD) ? EAGAIN : REAL(pthread_create)(thread, how, start, with);
}

static int failed(void) {
  errno = EIO;
  return -1;
}

int open(const char *name, int flags, ...) {
  va_list more;
  va_start(more, flags);
  int mode = flags & O_CREAT ? va_arg(more, int) : 0;
  va_end(more);
  return is_refused(OPEN) ? failed() : (int)syscall(SYS_openat, AT_FDCWD, name, flags, mode);
}

off_t lseek(int file, off_t at, int from) { return is_refused(MOVE) ? failed() : syscall(SYS_lseek, file, at, from); }

ssize_t read(int file, void *to, size_t size) { return is_refused(READ) ? failed() : syscall(SYS_read, file, to, at_most(size)); }

// What goes to standard error is the line of the program's end, and is never refused.
ssize_t write(int file, const void *from, size_t size) {
  if (file == 2) return syscall(SYS_write, file, from, size);
  return is_refused(WRITE) ? failed() : syscall(SYS_write, file, from, at_most(size));
}

void _exit(int status) {
  const char *name = getenv("COUNTED");
  if (name) {
    char line[32 * KINDS];
    int length = 0;
    for (int kind = 0; kind < KINDS; kind++) length += sprintf(line + length, "%s %lu\n", names[kind], made[kind]);
    int file = syscall(SYS_openat, AT_FDCWD, name, O_WRONLY | O_CREAT | O_TRUNC, 0600);
    syscall(SYS_write, file, line, length);
  }
  syscall(SYS_exit_group, status);
  __builtin_unreachable();
}
