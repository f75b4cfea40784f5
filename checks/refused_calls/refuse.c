// Answers an error in place of calls that change files. Of the calls CALL (write, fsync, rename, openat or unlink) on
// what lies below the folder WITHIN, the one whose number, from 1, stands in AT answers the error ERROR, and so do as
// many calls CALL behind it as MORE says. With SHORT set the one at AT is no error: it is a write of the first 5 bytes.
// The file MARK is made at the first one. Calls of all threads are counted together. Built as a shared library and put
// before the C library by LD_PRELOAD.
#define _GNU_SOURCE
#include <dlfcn.h>
#include <errno.h>
#include <fcntl.h>
#include <stdarg.h>
#include <stdatomic.h>
#include <stdio.h>
#include <stdlib.h>
#include <string.h>
#include <sys/types.h>
#include <unistd.h>

#define NEXT(name) ((__typeof__(&name))dlsym(RTLD_NEXT, #name))

enum How { Done, Refused, Short };

static const char *call, *within;
static long at, more;
static int error, is_short;
static atomic_long calls;

__attribute__((constructor)) static void read_words(void) {
  call = getenv("CALL");
  within = getenv("WITHIN");
  if (!call || !within) abort();
  at = atol(getenv("AT"));
  more = atol(getenv("MORE"));
  error = atoi(getenv("ERROR"));
  is_short = getenv("SHORT") != NULL;
}

// The program finds its files through the descriptor of the folder that it opened.
static const char *through(const char *path, char *room, size_t size) {
  int file, end = 0;
  char link[64];
  if (sscanf(path, "/proc/self/fd/%d%n", &file, &end) != 1 || path[end] != '/') return path;
  snprintf(link, sizeof link, "/proc/self/fd/%d", file);
  ssize_t length = readlink(link, room, size - 1);
  if (length < 0) return path;
  snprintf(room + length, size - length, "%s", path + end);
  return room;
}

static enum How how(const char *name, const char *said) {
  char room[8192];
  const char *path = through(said, room, sizeof room);
  if (strcmp(name, call) || strncmp(path, within, strlen(within))) return Done;
  long number = ++calls;
  if (number < at || number > at + more) return Done;
  if (number == at) close(NEXT(openat)(AT_FDCWD, getenv("MARK"), O_CREAT | O_WRONLY, 0600));
  if (number == at && is_short) return Short;
  errno = error;
  return Refused;
}

static enum How how_file(const char *name, int file) {
  char link[64], path[4096];
  snprintf(link, sizeof link, "/proc/self/fd/%d", file);
  ssize_t length = readlink(link, path, sizeof path - 1);
  path[length < 0 ? 0 : length] = 0;
  return how(name, path);
}

int openat(int folder, const char *path, int flags, ...) {
  va_list words;
  va_start(words, flags);
  mode_t mode = va_arg(words, mode_t);
  va_end(words);
  return how("openat", path) ? -1 : NEXT(openat)(folder, path, flags, mode);
}

int open(const char *path, int flags, ...) {
  va_list words;
  va_start(words, flags);
  mode_t mode = va_arg(words, mode_t);
  va_end(words);
  return how("openat", path) ? -1 : NEXT(open)(path, flags, mode);
}

ssize_t write(int file, const void *bytes, size_t count) {
  enum How it = how_file("write", file);
  if (it == Refused) return -1;
  return NEXT(write)(file, bytes, it == Short && count > 5 ? 5 : count);
}

int fsync(int file) { return how_file("fsync", file) ? -1 : NEXT(fsync)(file); }

int fdatasync(int file) { return how_file("fsync", file) ? -1 : NEXT(fdatasync)(file); }

int rename(const char *from, const char *to) { return how("rename", from) ? -1 : NEXT(rename)(from, to); }

int unlink(const char *path) { return how("unlink", path) ? -1 : NEXT(unlink)(path); }
