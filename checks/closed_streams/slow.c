// Lets each sync of a file take 40 ms more, and makes the file MARK where a file is opened as descriptor 0, 1 or 2 that
// is not /dev/null. Built as a shared library and put before the C library by LD_PRELOAD.
#define _GNU_SOURCE
#include <dlfcn.h>
#include <fcntl.h>
#include <stdarg.h>
#include <stdlib.h>
#include <string.h>
#include <sys/types.h>
#include <unistd.h>

#define NEXT(name) ((__typeof__(&name))dlsym(RTLD_NEXT, #name))

static int judge(int file, const char *path) {
  if (file >= 0 && file <= 2 && strcmp(path, "/dev/null")) creat(getenv("MARK"), 0600);
  return file;
}

int openat(int folder, const char *path, int flags, ...) {
  va_list words;
  va_start(words, flags);
  mode_t mode = va_arg(words, mode_t);
  va_end(words);
  return judge(NEXT(openat)(folder, path, flags, mode), path);
}

int open(const char *path, int flags, ...) {
  va_list words;
  va_start(words, flags);
  mode_t mode = va_arg(words, mode_t);
  va_end(words);
  return judge(NEXT(open)(path, flags, mode), path);
}

static void wait(void) {
  if (getenv("SLOW")) usleep(40000);
}

int fsync(int file) {
  wait();
  return NEXT(fsync)(file);
}

int fdatasync(int file) {
  wait();
  return NEXT(fdatasync)(file);
}
