/* Eight threads on three channels: storm FOLDER SECONDS. Each thread writes keys of its own, and
   reads what it wrote: by get, get_many, iterators and snapshots. One more compacts and collects.
 */
#define _GNU_SOURCE
#include <pthread.h>
#include <stdatomic.h>
#include <time.h>
#include <unistd.h>

#include "check.h"

enum { THREADS = 8, CHANNELS = 3, KEYS = 50, ABSENT = -1 };

static tiswenor_t *db;
static double seconds;
static atomic_bool over;
static atomic_long writes, gets, many_gets, scans, snapshot_reads, compactions;

struct worker {
  int number;
  unsigned drawn;
  int has[KEYS]; /* the round that wrote the value, or ABSENT */
};

static unsigned draw(struct worker *worker, unsigned below) {
  worker->drawn = worker->drawn * 1103515245u + 12345u;
  return (worker->drawn >> 16) % below;
}

static size_t key_of(const struct worker *worker, int key, char *text) {
  return (size_t)sprintf(text, "thread %d key %03d", worker->number, key);
}

static size_t value_of(int round, char *text) {
  int length = sprintf(text, "%d:", round);
  memset(text + length, 'v', (size_t)(round % 40));
  return (size_t)(length + round % 40);
}

static int is_value(int round, const char *value, size_t length) {
  char wanted[80];
  return value_of(round, wanted) == length && !memcmp(wanted, value, length);
}

static void write_some(struct worker *worker, int round) {
  char *error = NULL, key[32], value[80];
  tiswenor_writebatch_t *batch = tiswenor_writebatch_create();
  for (int i = 0; i < 20; i++) {
    int at = (int)draw(worker, KEYS);
    size_t klen = key_of(worker, at, key);
    if (draw(worker, 4) == 0) {
      tiswenor_writebatch_delete(batch, key, klen);
      worker->has[at] = ABSENT;
    } else {
      tiswenor_writebatch_put(batch, key, klen, value, value_of(round, value));
      worker->has[at] = round;
    }
  }
  tiswenor_write(db, NULL, batch, &error);
  DONE(error);
  tiswenor_writebatch_destroy(batch);
  writes++;
}

static void get_one(struct worker *worker) {
  char *error = NULL, key[32];
  size_t length;
  int at = (int)draw(worker, KEYS);
  size_t klen = key_of(worker, at, key);
  char *value = tiswenor_get(db, NULL, key, klen, &length, &error);
  DONE(error);
  CHECK(!value == (worker->has[at] == ABSENT));
  if (value) CHECK(is_value(worker->has[at], value, length));
  tiswenor_free(value);
  gets++;
}

static void get_all(struct worker *worker, const tiswenor_readoptions_t *options, const int *has) {
  char *error = NULL, text[KEYS][32], *values[KEYS];
  const char *keys[KEYS];
  size_t keylens[KEYS], lengths[KEYS];
  for (int i = 0; i < KEYS; i++) {
    keylens[i] = key_of(worker, i, text[i]);
    keys[i] = text[i];
  }
  tiswenor_get_many(db, options, KEYS, keys, keylens, values, lengths, &error);
  DONE(error);
  for (int i = 0; i < KEYS; i++) {
    CHECK(!values[i] == (has[i] == ABSENT));
    if (values[i]) CHECK(is_value(has[i], values[i], lengths[i]));
    tiswenor_free(values[i]);
  }
  many_gets++;
}

static void scan(struct worker *worker, const tiswenor_readoptions_t *options, const int *has) {
  char *error = NULL, key[32];
  tiswenor_iterator_t *iterator = tiswenor_create_iterator(db, options);
  tiswenor_iter_seek(iterator, key, key_of(worker, 0, key) - 3);
  for (int i = 0; i < KEYS; i++) {
    if (has[i] == ABSENT) continue;
    size_t klen, vlen;
    CHECK(tiswenor_iter_valid(iterator));
    const char *k = tiswenor_iter_key(iterator, &klen), *v = tiswenor_iter_value(iterator, &vlen);
    CHECK(klen == key_of(worker, i, key) && !memcmp(k, key, klen) && is_value(has[i], v, vlen));
    tiswenor_iter_next(iterator);
  }
  tiswenor_iter_get_error(iterator, &error);
  DONE(error);
  tiswenor_iter_destroy(iterator);
  scans++;
}

static void read_then(struct worker *worker, int round) {
  char *error = NULL;
  int had[KEYS];
  memcpy(had, worker->has, sizeof had);
  const tiswenor_snapshot_t *snapshot = tiswenor_create_snapshot(db, &error);
  DONE(error);
  tiswenor_readoptions_t *then = tiswenor_readoptions_create();
  tiswenor_readoptions_set_snapshot(then, snapshot);
  write_some(worker, round);
  get_all(worker, then, had);
  scan(worker, then, had);
  tiswenor_readoptions_destroy(then);
  tiswenor_release_snapshot(db, snapshot);
  snapshot_reads++;
}

static void *work(void *state) {
  struct worker *worker = state;
  for (int i = 0; i < KEYS; i++) worker->has[i] = ABSENT;
  for (int round = 0; !over; round++) {
    switch (draw(worker, 20)) {
      case 0:
      case 1:
        write_some(worker, round);
        break;
      case 2:
        read_then(worker, round);
        break;
      case 3:
      case 4:
        get_all(worker, NULL, worker->has);
        break;
      case 5:
      case 6:
        scan(worker, NULL, worker->has);
        break;
      default:
        get_one(worker);
    }
  }
  return NULL;
}

static void *compact(void *state) {
  while (!over) {
    char *error = NULL;
    tiswenor_compact(db, &error);
    DONE(error);
    tiswenor_collect(db, &error);
    DONE(error);
    compactions++;
    usleep(100000);
  }
  return state;
}

int main(int argc, char **argv) {
  CHECK(argc == 3);
  seconds = atof(argv[2]);
  db = opened(argv[1], CHANNELS, 2);
  static struct worker workers[THREADS];
  pthread_t threads[THREADS], compactor;
  for (int i = 0; i < THREADS; i++) {
    workers[i].number = i;
    workers[i].drawn = (unsigned)i * 77 + 1;
    CHECK(!pthread_create(&threads[i], NULL, work, &workers[i]));
  }
  CHECK(!pthread_create(&compactor, NULL, compact, NULL));
  usleep((unsigned)(seconds * 1e6));
  over = 1;
  for (int i = 0; i < THREADS; i++) pthread_join(threads[i], NULL);
  pthread_join(compactor, NULL);
  tiswenor_close(db);
  db = opened(argv[1], CHANNELS, 2);
  for (int i = 0; i < THREADS; i++) scan(&workers[i], NULL, workers[i].has);
  tiswenor_close(db);
  printf(
      "storm: ok (writes %ld, gets %ld, of many %ld, scans %ld, snapshots %ld, compactions %ld)\n",
      writes, gets, many_gets, scans, snapshot_reads, compactions);
}
