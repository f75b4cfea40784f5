// Refuses the request for memory whose number, from 1, stands in REFUSE, and with LATER set each one after it too, and makes the file
// named by REFUSED at the first. A thread is a request too, since its stack is memory. Requests of all threads are counted together.
// Built as a shared library and put before the C library by LD_PRELOAD.
#define _GNU_SOURCE
#include <dlfcn.h>
#include <errno.h>
#include <fcntl.h>
#include <pthread.h>
#include <stdatomic.h>
#include <stdlib.h>
#include <unistd.h>

static atomic_long requests;
static long refused_one;
static int later_too;

__attribute__((constructor)) static void read_words(void) {
  const char *number = getenv("REFUSE");
  refused_one = number ? atol(number) : 0;
  later_too = getenv("LATER") != NULL;
}

static int is_refused(void) {
  if (refused_one == 0) return 0;
  long number = atomic_fetch_add(&requests, 1) + 1;
  if (number < refused_one || (number > refused_one && !later_too)) return 0;
  const char *mark = getenv("REFUSED");
  if (number == refused_one && mark) close(open(mark, O_CREAT | O_WRONLY, 0600));
  errno = ENOMEM;
  return 1;
}

void *malloc(size_t size) {
  static void *(*next)(size_t);
  if (!next) next = (void *(*)(size_t))dlsym(RTLD_NEXT, "malloc");
  return is_refused() ? NULL : next(size);
}

void *realloc(void *old, size_t size) {
  static void *(*next)(void *, size_t);
  if (!next) next = (void *(*)(void *, size_t))dlsym(RTLD_NEXT, "realloc");
  return is_refused() ? NULL : next(old, size);
}

void *aligned_alloc(size_t align, size_t size) {
  static void *(*next)(size_t, size_t);
  if (!next) next = (void *(*)(size_t, size_t))dlsym(RTLD_NEXT, "aligned_alloc");
  return is_refused() ? NULL : next(align, size);
}

int posix_memalign(void **out, size_t align, size_t size) {
  static int (*next)(void **, size_t, size_t);
  if (!next) next = (int (*)(void **, size_t, size_t))dlsym(RTLD_NEXT, "posix_memalign");
  return is_refused() ? ENOMEM : next(out, align, size);
}

int pthread_create(pthread_t *thread, const pthread_attr_t *how, void *(*work)(void *), void *with) {
  static int (*next)(pthread_t *, const pthread_attr_t *, void *(*)(void *), void *);
  if (!next) next = (int (*)(pthread_t *, const pthread_attr_t *, void *(*)(void *), void *))dlsym(RTLD_NEXT, "pthread_create");
  return is_refused() ? EAGAIN : next(thread, how, work, with);
}
