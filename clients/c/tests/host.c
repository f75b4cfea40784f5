/* What a host does beside its calls: host FOLDER. Signals that interrupt them, threads that come
   and go on small stacks or are cancelled, forks, children that are waited for, several databases
   at once, many openings. An alarm ends this program where a call hangs. */
#define _GNU_SOURCE
#include <dirent.h>
#include <errno.h>
#include <limits.h>
#include <pthread.h>
#include <signal.h>
#include <stdatomic.h>
#include <sys/syscall.h>
#include <sys/time.h>
#include <sys/wait.h>
#include <unistd.h>

#include "check.h"

enum { THREADS = 6, DATABASES = 5, KEYS = 200 };

static const char *folder;
static tiswenor_t *db;
static atomic_bool over;
static atomic_long signals, calls;

static tiswenor_t *opened_as(const char *name, int channels, int workers) {
  char path[PATH_MAX];
  snprintf(path, sizeof path, "%s/%s", folder, name);
  return opened(path, channels, workers);
}

static void fill(tiswenor_t *it, const char *value) {
  char *error = NULL;
  tiswenor_writebatch_t *batch = tiswenor_writebatch_create();
  for (int i = 0; i < KEYS; i++) {
    char key[16];
    tiswenor_writebatch_put(batch, key, (size_t)sprintf(key, "%05d", i), value, strlen(value));
  }
  tiswenor_write(it, NULL, batch, &error);
  DONE(error);
  tiswenor_writebatch_destroy(batch);
}

static void is_full(tiswenor_t *it, const char *value) {
  char *error = NULL;
  int count = 0;
  tiswenor_iterator_t *iterator = tiswenor_create_iterator(it, NULL);
  for (tiswenor_iter_seek_to_first(iterator); tiswenor_iter_valid(iterator); count++) {
    size_t length;
    const char *found = tiswenor_iter_value(iterator, &length);
    CHECK(length == strlen(value) && !memcmp(found, value, length));
    tiswenor_iter_next(iterator);
  }
  tiswenor_iter_get_error(iterator, &error);
  DONE(error);
  tiswenor_iter_destroy(iterator);
  CHECK(count == KEYS);
}

static void start(pthread_t *thread, void *(*run)(void *), void *state) {
  CHECK(!pthread_create(thread, NULL, run, state));
}

static void count_signal(int number) {
  (void)number;
  signals++;
}

static void count_folder(void) {
  char *error = NULL;
  tiswenor_folder_t found;
  tiswenor_folder(db, &found, &error);
  DONE(error);
  CHECK(found.manifests == 1 && found.others == 2 && found.bytes > found.table_bytes);
}

static void *call_all(void *state) {
  while (!over) {
    char *error = NULL;
    has(db, NULL, "00007", "value");
    is_full(db, "value");
    put(db, "00007", "value");
    count_folder();
    tiswenor_collect(db, &error);
    DONE(error);
    calls += 5;
  }
  return state;
}

/* Signals at any place, in each thread, whose handler does not let a call of the system go on. */
static void signals_interrupt(void) {
  struct sigaction action = {0}, usual = {0};
  struct itimerval often = {{0, 300}, {0, 300}}, never = {{0, 0}, {0, 0}};
  pthread_t threads[THREADS];
  action.sa_handler = count_signal;
  usual.sa_handler = SIG_DFL;
  db = opened_as("signals", 3, 2);
  fill(db, "value");
  sigaction(SIGUSR1, &action, NULL);
  sigaction(SIGPROF, &action, NULL);
  setitimer(ITIMER_PROF, &often, NULL);
  over = 0;
  for (int i = 0; i < THREADS; i++) start(&threads[i], call_all, NULL);
  for (int i = 0; i < 4000; i++) {
    pthread_kill(threads[i % THREADS], SIGUSR1);
    usleep(200);
  }
  over = 1;
  for (int i = 0; i < THREADS; i++) pthread_join(threads[i], NULL);
  setitimer(ITIMER_PROF, &never, NULL);
  tiswenor_close(db);
  sigaction(SIGPROF, &usual, NULL);
  CHECK(signals > 1000 && calls > 0);
}

static void *get_one(void *state) {
  has(db, NULL, "00007", "value");
  return state;
}

static void threads_come_and_go(void) {
  pthread_attr_t small;
  CHECK(!pthread_attr_init(&small));
  CHECK(!pthread_attr_setstacksize(&small, (size_t)PTHREAD_STACK_MIN + 16384));
  db = opened_as("threads", 2, 1);
  fill(db, "value");
  for (int round = 0; round < 30; round++) {
    pthread_t threads[THREADS];
    for (int i = 0; i < THREADS; i++) CHECK(!pthread_create(&threads[i], &small, get_one, NULL));
    for (int i = 0; i < THREADS; i++) CHECK(!pthread_join(threads[i], NULL));
  }
  pthread_attr_destroy(&small);
  tiswenor_close(db);
}

static int entries(const char *path) {
  int count = 0;
  DIR *all = opendir(path);
  CHECK(all);
  while (readdir(all)) count++;
  closedir(all);
  return count;
}

static void *call_for_ever(void *state) {
  for (;;) {
    has(db, NULL, "00007", "value");
    count_folder();
    pthread_testcancel();
  }
  return state;
}

/* No channel, and no descriptor, is lost where a thread is cancelled in a call. */
static void threads_are_cancelled(void) {
  int descriptors = entries("/proc/self/fd");
  db = opened_as("cancelled", 1, 1);
  fill(db, "value");
  for (int round = 0; round < 20; round++) {
    pthread_t thread;
    start(&thread, call_for_ever, NULL);
    usleep(500);
    CHECK(!pthread_cancel(thread) && !pthread_join(thread, NULL));
    is_full(db, "value");
  }
  tiswenor_close(db);
  CHECK(entries("/proc/self/fd") == descriptors);
}

static void in_a_forked_process(void) {
  char *error = NULL;
  size_t length;
  alarm(60);
  CHECK(!tiswenor_get(db, NULL, "00007", 5, &length, &error));
  FAILED(error, tiswenor_closed);
  tiswenor_put(db, NULL, "00007", 5, "", 0, &error);
  FAILED(error, tiswenor_closed);
  tiswenor_folder(db, &(tiswenor_folder_t){0}, &error);
  FAILED(error, tiswenor_closed);
  tiswenor_close(db);
  _exit(0);
}

/* Forks in the middle of other threads' calls: theirs go on here, and there the database is closed.
 */
static void host_forks(void) {
  pthread_t threads[THREADS];
  db = opened_as("forks", 3, 1);
  fill(db, "value");
  over = 0;
  for (int i = 0; i < THREADS; i++) start(&threads[i], call_all, NULL);
  for (int round = 0; round < 20; round++) {
    int status;
    pid_t child = fork();
    if (!child) in_a_forked_process();
    CHECK(waitpid(child, &status, 0) == child && status == 0);
  }
  over = 1;
  for (int i = 0; i < THREADS; i++) pthread_join(threads[i], NULL);
  is_full(db, "value");
  tiswenor_close(db);
}

static tiswenor_t *several[DATABASES];

static void *call_several(void *state) {
  while (!over) {
    for (int i = 0; i < DATABASES; i++) {
      char value[16];
      sprintf(value, "%d", i);
      has(several[i], NULL, "00007", value);
      is_full(several[i], value);
    }
  }
  return state;
}

/* Databases side by side, of which some are closed and opened while others are read. */
static void several_at_once(void) {
  pthread_t threads[THREADS];
  for (int i = 0; i < DATABASES; i++) {
    char name[16];
    sprintf(name, "%d", i);
    several[i] = opened_as(name, 2, 1);
    fill(several[i], name);
  }
  over = 0;
  for (int i = 0; i < THREADS; i++) start(&threads[i], call_several, NULL);
  for (int round = 0; round < 10; round++) {
    tiswenor_t *other = opened_as("other", 4, 1);
    fill(other, "other");
    is_full(other, "other");
    tiswenor_close(other);
  }
  over = 1;
  for (int i = 0; i < THREADS; i++) pthread_join(threads[i], NULL);
  for (int i = 0; i < DATABASES; i++) tiswenor_close(several[i]);
}

static void *get_often(void *state) {
  for (int i = 0; i < 100; i++) has(db, NULL, "00007", "value");
  return state;
}

/* A host that waits for its children waits for its own, and is told of no other one. */
static void host_waits(void) {
  struct sigaction action = {0}, usual = {0};
  pthread_t thread;
  int own = (int)syscall(SYS_pidfd_open, getpid(), 0), status;
  if (own < 0) return; /* the system waits for children alone: a server is one there */
  close(own);
  action.sa_handler = count_signal;
  usual.sa_handler = SIG_DFL;
  sigaction(SIGCHLD, &action, NULL);
  signals = 0;
  alarm(60);
  db = opened_as("waits", 2, 1);
  fill(db, "value");
  start(&thread, get_often, NULL);
  CHECK(wait(NULL) < 0 && errno == ECHILD);
  CHECK(signals == 0);
  pid_t child = fork();
  if (!child) _exit(7);
  do status = 0;
  while (wait(&status) < 0 && errno == EINTR);
  CHECK(WIFEXITED(status) && WEXITSTATUS(status) == 7);
  CHECK(wait(NULL) < 0 && errno == ECHILD);
  pthread_join(thread, NULL);
  tiswenor_close(db);
  CHECK(signals == 1);
  alarm(300);
  sigaction(SIGCHLD, &usual, NULL);
}

/* How many lines /proc/self/maps has. */
static int mappings(void) {
  int count = 0, byte;
  FILE *file = fopen("/proc/self/maps", "r");
  CHECK(file);
  while ((byte = fgetc(file)) != EOF) count += byte == '\n';
  fclose(file);
  return count;
}

/* Openings that are done, or refused, leave nothing. */
static void all_is_given_back(void) {
  char path[PATH_MAX];
  tiswenor_options_t *refused = tiswenor_options_create();
  snprintf(path, sizeof path, "%s/%s", folder, "again");
  tiswenor_options_set_error_if_exists(refused, 1);
  tiswenor_options_set_channels(refused, 20);
  int threads = 0, descriptors = 0, maps = 0;
  for (int i = 0; i < 40; i++) {
    char *error = NULL;
    if (i == 10) {
      threads = entries("/proc/self/task");
      descriptors = entries("/proc/self/fd");
      maps = mappings();
    }
    db = opened(path, 20, 3);
    put(db, "a", "b");
    count_folder();
    tiswenor_close(db);
    CHECK(!tiswenor_open(refused, path, &error));
    FAILED(error, tiswenor_is_there);
  }
  tiswenor_options_destroy(refused);
  CHECK(entries("/proc/self/task") == threads);
  CHECK(entries("/proc/self/fd") == descriptors);
  CHECK(mappings() < maps + 40);
}

int main(int argc, char **argv) {
  CHECK(argc == 2);
  folder = argv[1];
  alarm(300);
  threads_come_and_go();
  threads_are_cancelled();
  host_forks();
  host_waits();
  several_at_once();
  all_is_given_back();
  signals_interrupt();
  printf("host: ok (signals %ld, calls beside them %ld)\n", signals, calls);
}
