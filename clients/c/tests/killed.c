/* A server that is killed, a host that is killed, a host that forks: killed FOLDER PIDFILE. The
   server (TISWENOR_SERVER) is one that writes its number into PIDFILE as it starts. No call may
   hang: an alarm ends this program. */
#define _GNU_SOURCE
#include <dirent.h>
#include <pthread.h>
#include <signal.h>
#include <sys/wait.h>
#include <time.h>
#include <unistd.h>

#include "check.h"

enum { THREADS = 8 };

static const char *pidfile;
static tiswenor_t *db;

static pid_t server(void) {
  int number = 0;
  FILE *file = fopen(pidfile, "r");
  CHECK(file && fscanf(file, "%d", &number) == 1);
  fclose(file);
  return number;
}

static void each_call_answers(int number) {
  char *error = NULL, *value;
  size_t length = 1, klen = 1;
  const char *key = "a";
  CHECK(!tiswenor_get(db, NULL, "a", 1, &length, &error));
  FAILED(error, number);
  tiswenor_put(db, NULL, "a", 1, "2", 1, &error);
  FAILED(error, number);
  tiswenor_delete(db, NULL, "a", 1, &error);
  FAILED(error, number);
  tiswenor_get_many(db, NULL, 1, &key, &klen, &value, &length, &error);
  CHECK(!value);
  FAILED(error, number);
  CHECK(!tiswenor_create_snapshot(db, &error));
  FAILED(error, number);
  tiswenor_compact(db, &error);
  FAILED(error, number);
  tiswenor_collect(db, &error);
  FAILED(error, number);
  tiswenor_statistics_t statistics;
  tiswenor_statistics(db, &statistics, &error);
  FAILED(error, number);
  CHECK(!tiswenor_property_value(db, "leveldb.stats"));
  tiswenor_iterator_t *iterator = tiswenor_create_iterator(db, NULL);
  tiswenor_iter_seek_to_first(iterator);
  CHECK(!tiswenor_iter_valid(iterator));
  tiswenor_iter_get_error(iterator, &error);
  FAILED(error, number);
  tiswenor_iter_destroy(iterator);
}

static void killed_between_calls(const char *folder) {
  char *error = NULL;
  db = opened(folder, 3, 1);
  put(db, "a", "1");
  tiswenor_iterator_t *iterator = tiswenor_create_iterator(db, NULL);
  const tiswenor_snapshot_t *snapshot = tiswenor_create_snapshot(db, &error);
  DONE(error);
  kill(server(), SIGKILL);
  CHECK(!tiswenor_create_snapshot(db, &error));
  CHECK(strstr(error, "255 Ended: the server was ended by signal 9"));
  each_call_answers(tiswenor_ended);
  tiswenor_iter_seek_to_first(iterator);
  CHECK(!tiswenor_iter_valid(iterator));
  tiswenor_iter_get_error(iterator, &error);
  FAILED(error, tiswenor_ended);
  tiswenor_iter_destroy(iterator);
  tiswenor_release_snapshot(db, snapshot);
  tiswenor_close(db);
  db = opened(folder, 3, 1);
  has(db, NULL, "a", "1");
  tiswenor_close(db);
}

static void *read_until_ended(void *state) {
  char *error = NULL;
  while (!error) {
    size_t length;
    tiswenor_free(tiswenor_get(db, NULL, "long", 4, &length, &error));
  }
  FAILED(error, tiswenor_ended);
  return state;
}

static void killed_in_calls(const char *folder, int channels) {
  char *error = NULL, *value = calloc(1, 1 << 20);
  pthread_t threads[THREADS];
  db = opened(folder, channels, 1);
  tiswenor_put(db, NULL, "long", 4, value, 1 << 20, &error);
  DONE(error);
  free(value);
  for (int i = 0; i < THREADS; i++)
    CHECK(!pthread_create(&threads[i], NULL, read_until_ended, NULL));
  usleep(50000);
  kill(server(), SIGKILL);
  for (int i = 0; i < THREADS; i++) pthread_join(threads[i], NULL);
  tiswenor_close(db);
}

/* A host that has no use for its children's ends. */
static void killed_where_children_are_ignored(const char *folder) {
  signal(SIGCHLD, SIG_IGN);
  db = opened(folder, 2, 1);
  kill(server(), SIGKILL);
  each_call_answers(tiswenor_ended);
  tiswenor_close(db);
  signal(SIGCHLD, SIG_DFL);
}

static tiswenor_t *opened_once_free(const char *folder) {
  tiswenor_t *free_db = NULL;
  for (int i = 0; i < 10000 && !free_db; i++) {
    char *error = NULL;
    free_db = tiswenor_open(NULL, folder, &error);
    if (!free_db) {
      FAILED(error, tiswenor_locked);
      usleep(1000);
    }
  }
  CHECK(free_db);
  return free_db;
}

/* What the host had been answered is there. */
static void host_is_killed(const char *folder) {
  int ends[2];
  CHECK(!pipe(ends));
  pid_t host = fork();
  if (!host) {
    db = opened(folder, 2, 2);
    for (unsigned number = 0;; number++) {
      char key[16];
      sprintf(key, "h%08u", number);
      put(db, key, "value");
      if (write(ends[1], &number, sizeof number) != sizeof number) _exit(1);
    }
  }
  unsigned last = 0;
  for (int i = 0; i < 100; i++) CHECK(read(ends[0], &last, sizeof last) == sizeof last);
  kill(host, SIGKILL);
  close(ends[1]);
  while (read(ends[0], &last, sizeof last) == sizeof last) {
  }
  close(ends[0]);
  waitpid(host, NULL, 0);
  db = opened_once_free(folder);
  for (unsigned number = 0; number <= last; number++) {
    char key[16];
    sprintf(key, "h%08u", number);
    has(db, NULL, key, "value");
  }
  tiswenor_close(db);
}

static void host_forks(const char *folder) {
  int ends[2];
  db = opened(folder, 2, 1);
  put(db, "a", "1");
  CHECK(!pipe(ends));
  pid_t child = fork();
  if (!child) {
    char byte;
    close(ends[1]);
    each_call_answers(tiswenor_closed);
    tiswenor_close(db);
    CHECK(read(ends[0], &byte, 1) == 0); /* it lives while the database is closed */
    _exit(0);
  }
  has(db, NULL, "a", "1");
  tiswenor_close(db);
  tiswenor_close(opened(folder, 2, 1));
  close(ends[0]);
  close(ends[1]);
  int status;
  CHECK(waitpid(child, &status, 0) == child && status == 0);
}

static int descriptors(void) {
  int count = 0;
  DIR *all = opendir("/proc/self/fd");
  while (readdir(all)) count++;
  closedir(all);
  return count;
}

static void descriptors_are_given_back(const char *folder) {
  int before = descriptors();
  tiswenor_options_t *options = tiswenor_options_create();
  for (int i = 0; i < 5; i++) {
    char *error = NULL;
    tiswenor_close(opened(folder, 4, 1));
    tiswenor_options_set_error_if_exists(options, 1);
    CHECK(!tiswenor_open(options, folder, &error));
    FAILED(error, tiswenor_is_there);
    tiswenor_options_set_server(options, "/nowhere/lsm_server");
    CHECK(!tiswenor_open(options, folder, &error));
    FAILED(error, tiswenor_no_server);
    tiswenor_options_set_server(options, "true");
    CHECK(!tiswenor_open(options, folder, &error));
    FAILED(error, tiswenor_ended);
    tiswenor_options_set_server(options, NULL);
  }
  tiswenor_options_destroy(options);
  CHECK(descriptors() == before);
}

int main(int argc, char **argv) {
  CHECK(argc == 3);
  const char *folder = argv[1];
  pidfile = argv[2];
  alarm(300);
  killed_between_calls(folder);
  for (int channels = 1; channels < 10; channels += 3) killed_in_calls(folder, channels);
  killed_where_children_are_ignored(folder);
  host_is_killed(folder);
  host_forks(folder);
  descriptors_are_given_back(folder);
  puts("killed: ok");
}
