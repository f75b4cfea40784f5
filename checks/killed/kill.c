// Counts the moments at which a program's calls change files: before each call that makes, renames, removes or syncs a file or writes,
// and half-way in each write of several bytes. At the moment whose number, from 1, stands in KILL the program is killed; how many there
// were stands in the file named by MOMENTS. Built as a shared library and put before the C library by LD_PRELOAD.
#define _GNU_SOURCE
#include <dlfcn.h>
#include <fcntl.h>
#include <signal.h>
#include <stdarg.h>
#include <stdatomic.h>
#include <stdlib.h>
#include <sys/mman.h>
#include <unistd.h>

static long wanted;
static _Atomic long none, *moments = &none;

__attribute__((constructor)) static void begin(void) {
  const char *number = getenv("KILL"), *name = getenv("MOMENTS");
  int file = name ? open(name, O_RDWR | O_CREAT | O_TRUNC, 0600) : -1;
  if (file < 0 || ftruncate(file, sizeof *moments)) abort();
  moments = mmap(NULL, sizeof *moments, PROT_READ | PROT_WRITE, MAP_SHARED, file, 0);
  if (moments == MAP_FAILED) abort();
  *moments = 0;
  close(file);
  if (number) wanted = atol(number);
}

static int is_moment(void) { return ++*moments == wanted; }

static void die(void) {
  kill(getpid(), SIGKILL);
  for (;;) pause();
}

#define NEXT(name) ((__typeof__(&name))dlsym(RTLD_NEXT, #name))

int open(const char *path, int flags, ...) {
  va_list more;
  va_start(more, flags);
  mode_t mode = va_arg(more, mode_t);
  va_end(more);
  if (flags & O_CREAT && is_moment()) die();
  return NEXT(open)(path, flags, mode);
}

int openat(int folder, const char *path, int flags, ...) {
  va_list more;
  va_start(more, flags);
  mode_t mode = va_arg(more, mode_t);
  va_end(more);
  if (flags & O_CREAT && is_moment()) die();
  return NEXT(openat)(folder, path, flags, mode);
}

ssize_t write(int file, const void *bytes, size_t count) {
  if (is_moment()) die();
  if (count > 1 && is_moment()) {
    NEXT(write)(file, bytes, count / 2);
    die();
  }
  return NEXT(write)(file, bytes, count);
}

int rename(const char *from, const char *to) {
  if (is_moment()) die();
  return NEXT(rename)(from, to);
}

int unlink(const char *path) {
  if (is_moment()) die();
  return NEXT(unlink)(path);
}

int fsync(int file) {
  if (is_moment()) die();
  return NEXT(fsync)(file);
}

int fdatasync(int file) {
  if (is_moment()) die();
  return NEXT(fdatasync)(file);
}
