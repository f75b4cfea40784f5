/* Four threads read, at snapshots that they hold and let go and at what is there now, while one
   brings batches in and three workers compact: storm FOLDER SECONDS SEED.

   A batch has up to 2,000 writes of drawn keys, one of eight a deletion, and its number under the
   key `!`, which is before all others. The loader keeps what it wrote of each key, and when: the
   key's history. A value's length and bytes follow from its key and its batch, so no older value
   passes for a newer one. What is read of a state has to be what the histories say of one number m:
   that under `!`, which is at least the last batch that was answered before the read, and at most
   the last one that was begun by its end; for a snapshot, before and by the end of its making. A get
   of one key, which does not tell m, has to be of some number between the two. At the end all
   pairs are compared, then those of the database opened again, then those that LevelDB finds in the
   folder.

   Status 1, and a line of standard error, at the first difference. */
#define _GNU_SOURCE
#include <leveldb/c.h>
#include <pthread.h>
#include <stdatomic.h>
#include <stdbool.h>
#include <time.h>
#include <unistd.h>

#include "check.h"

enum { READERS = 4, WORKERS = 3, KEYS = 60000, BATCH = 2000, VALUE = 500, HELD = 6, MANY = 60, PART = 300 };

static tiswenor_t *db;
static uint64_t seed;
static atomic_uint came_in, began; /* numbers of batches */
static atomic_bool over;
static atomic_long writes, gets, of_many, parts, wholes, taken, now_held, most_held, removed;
static _Atomic double longest;

/* Drawing */

static uint64_t mixed(uint64_t x) { /* the end of splitmix64 */
  x += 0x9e3779b97f4a7c15u;
  x = (x ^ x >> 30) * 0xbf58476d1ce4e5b9u;
  x = (x ^ x >> 27) * 0x94d049bb133111ebu;
  return x ^ x >> 31;
}

static unsigned draw(uint64_t *state, unsigned below) { return (unsigned)(mixed((*state)++) >> 33) % below; }

static double seconds(void) {
  struct timespec now;
  clock_gettime(CLOCK_MONOTONIC, &now);
  return (double)now.tv_sec + (double)now.tv_nsec / 1e9;
}

/* Histories */

struct write {
  unsigned batch : 31, is_put : 1;
};

static struct history {
  struct write *writes; /* ascending by batch */
  unsigned count, room;
} histories[KEYS];
static pthread_rwlock_t lock = PTHREAD_RWLOCK_INITIALIZER;

static void record(int key, unsigned batch, bool is_put) {
  struct history *it = &histories[key];
  if (!it->count || it->writes[it->count - 1].batch != batch) {
    if (it->count == it->room) {
      it->room = it->room ? 2 * it->room : 8;
      CHECK((it->writes = realloc(it->writes, it->room * sizeof *it->writes)));
    }
    it->count++;
  }
  it->writes[it->count - 1] = (struct write){batch, is_put};
}

/* How many writes of a key there are up to a batch. */
static unsigned up_to(int key, unsigned batch) {
  unsigned low = 0, high = histories[key].count;
  while (low < high) {
    unsigned middle = low + (high - low) / 2;
    if (histories[key].writes[middle].batch <= batch) {
      low = middle + 1;
    } else {
      high = middle;
    }
  }
  return low;
}

/* The batch that wrote what a key has at a number; 0 where it has nothing then. */
static unsigned writer_at(int key, unsigned number) {
  unsigned count = up_to(key, number);
  if (!count) return 0;
  struct write last = histories[key].writes[count - 1];
  return last.is_put ? last.batch : 0;
}

/* Keys and values */

static size_t key_of(int key, char *text) { return (size_t)sprintf(text, "key %06d", key); }

static size_t value_of(int key, unsigned batch, char *value) {
  uint64_t state = mixed(seed ^ ((uint64_t)batch << 20 | (uint64_t)key));
  size_t length = 8 + state % (VALUE - 8);
  for (size_t at = 0; at < length; at += 8, state = mixed(state)) memcpy(value + at, &state, 8);
  return length;
}

static bool is_value(int key, unsigned batch, const char *value, size_t length) {
  char wanted[VALUE + 8];
  return batch ? value && value_of(key, batch, wanted) == length && !memcmp(wanted, value, length) : !value;
}

static unsigned number_in(const char *value, size_t length) {
  char text[16] = {0};
  CHECK(value && length < sizeof text);
  memcpy(text, value, length);
  return (unsigned)atol(text);
}

/* The loader */

static void *load(void *state) {
  uint64_t drawn = mixed(seed);
  tiswenor_writebatch_t *batch = tiswenor_writebatch_create();
  for (unsigned number = 1; !over; number++) {
    char *error = NULL, key[16], value[VALUE + 8];
    unsigned count = 1 + draw(&drawn, BATCH), from = draw(&drawn, KEYS), near = draw(&drawn, 2) ? KEYS : KEYS / 8;
    tiswenor_writebatch_clear(batch);
    tiswenor_writebatch_put(batch, "!", 1, value, (size_t)sprintf(value, "%u", number));
    pthread_rwlock_wrlock(&lock);
    for (unsigned i = 0; i < count; i++) {
      int at = (int)((from + draw(&drawn, near)) % KEYS);
      bool is_put = draw(&drawn, 8) != 0;
      record(at, number, is_put);
      if (is_put) {
        tiswenor_writebatch_put(batch, key, key_of(at, key), value, value_of(at, number, value));
      } else {
        tiswenor_writebatch_delete(batch, key, key_of(at, key));
      }
    }
    pthread_rwlock_unlock(&lock);
    began = number;
    tiswenor_write(db, NULL, batch, &error);
    DONE(error);
    came_in = number;
    writes += count + 1;
  }
  tiswenor_writebatch_destroy(batch);
  return state;
}

/* The readers */

struct held {
  const tiswenor_snapshot_t *snapshot;
  tiswenor_readoptions_t *options;
  unsigned number;
  double since;
};

struct reader {
  uint64_t drawn;
  unsigned seen; /* the greatest number that it saw */
  struct held held[HELD];
  int count;
};

static void note_seen(struct reader *reader, unsigned least, unsigned number, unsigned most) {
  CHECK(least <= number && number <= most);
  if (number > reader->seen) reader->seen = number;
}

static unsigned least_now(const struct reader *reader) {
  unsigned last = came_in;
  return last > reader->seen ? last : reader->seen;
}

static char *got(const tiswenor_readoptions_t *options, int key, size_t *length) {
  char *error = NULL, text[16];
  char *value = tiswenor_get(db, options, text, key_of(key, text), length, &error);
  DONE(error);
  gets++;
  return value;
}

/* One key, as it is now. */
static void get_now(struct reader *reader) {
  size_t length = 0;
  int key = (int)draw(&reader->drawn, KEYS);
  unsigned least = least_now(reader);
  char *value = got(NULL, key, &length);
  unsigned most = began;
  pthread_rwlock_rdlock(&lock);
  unsigned at = up_to(key, least), last = up_to(key, most);
  bool is_so = is_value(key, writer_at(key, least), value, length);
  for (; !is_so && at < last; at++) {
    struct write write = histories[key].writes[at];
    is_so = is_value(key, write.is_put ? write.batch : 0, value, length);
    if (is_so) note_seen(reader, least, write.batch, most);
  }
  pthread_rwlock_unlock(&lock);
  CHECK(is_so);
  tiswenor_free(value);
}

static void get_then(struct reader *reader, const struct held *held) {
  size_t length = 0;
  int key = (int)draw(&reader->drawn, KEYS);
  char *value = got(held->options, key, &length);
  pthread_rwlock_rdlock(&lock);
  CHECK(is_value(key, writer_at(key, held->number), value, length));
  pthread_rwlock_unlock(&lock);
  tiswenor_free(value);
}

/* Many keys of one state, whose number is answered. */
static unsigned get_many(struct reader *reader, const tiswenor_readoptions_t *options) {
  char *error = NULL, text[MANY][16], *values[MANY];
  const char *keys[MANY];
  size_t keylens[MANY], lengths[MANY];
  int at[MANY];
  keys[0] = "!", keylens[0] = 1;
  for (int i = 1; i < MANY; i++) {
    at[i] = (int)draw(&reader->drawn, KEYS);
    keylens[i] = key_of(at[i], text[i]), keys[i] = text[i];
  }
  tiswenor_get_many(db, options, MANY, keys, keylens, values, lengths, &error);
  DONE(error);
  unsigned number = number_in(values[0], lengths[0]);
  pthread_rwlock_rdlock(&lock);
  for (int i = 1; i < MANY; i++) CHECK(is_value(at[i], writer_at(at[i], number), values[i], lengths[i]));
  pthread_rwlock_unlock(&lock);
  for (int i = 0; i < MANY; i++) tiswenor_free(values[i]);
  of_many++;
  return number;
}

/* An iterator shows just what the keys from one on have at a number, up to so many pairs. */
static void shows(tiswenor_iterator_t *iterator, int from, unsigned number, int limit) {
  char *error = NULL, text[16];
  for (int key = from, count = 0; key < KEYS && count < limit; key++) {
    pthread_rwlock_rdlock(&lock);
    unsigned batch = writer_at(key, number);
    pthread_rwlock_unlock(&lock);
    if (!batch) continue;
    size_t klen, vlen;
    CHECK(tiswenor_iter_valid(iterator));
    const char *k = tiswenor_iter_key(iterator, &klen), *v = tiswenor_iter_value(iterator, &vlen);
    CHECK(klen == key_of(key, text) && !memcmp(k, text, klen) && is_value(key, batch, v, vlen));
    tiswenor_iter_next(iterator);
    count++;
  }
  if (limit > KEYS) CHECK(!tiswenor_iter_valid(iterator));
  tiswenor_iter_get_error(iterator, &error);
  DONE(error);
}

static void scan_part(struct reader *reader, const struct held *held) {
  char text[16];
  int from = (int)draw(&reader->drawn, KEYS);
  tiswenor_iterator_t *iterator = tiswenor_create_iterator(db, held->options);
  tiswenor_iter_seek(iterator, text, key_of(from, text));
  shows(iterator, from, held->number, PART);
  tiswenor_iter_destroy(iterator);
  parts++;
}

/* All pairs of one state, whose number is answered. */
static unsigned scan_whole(const tiswenor_readoptions_t *options) {
  size_t length;
  tiswenor_iterator_t *iterator = tiswenor_create_iterator(db, options);
  tiswenor_iter_seek_to_first(iterator);
  CHECK(tiswenor_iter_valid(iterator));
  const char *first = tiswenor_iter_key(iterator, &length);
  CHECK(length == 1 && *first == '!');
  const char *value = tiswenor_iter_value(iterator, &length);
  unsigned number = number_in(value, length);
  tiswenor_iter_next(iterator);
  shows(iterator, 0, number, KEYS + 1);
  tiswenor_iter_destroy(iterator);
  wholes++;
  return number;
}

static void hold(struct reader *reader) {
  if (reader->count == HELD) return;
  char *error = NULL;
  struct held *held = &reader->held[reader->count++];
  unsigned least = least_now(reader);
  held->since = seconds();
  held->snapshot = tiswenor_create_snapshot(db, &error);
  DONE(error);
  unsigned most = began;
  held->options = tiswenor_readoptions_create();
  tiswenor_readoptions_set_snapshot(held->options, held->snapshot);
  held->number = get_many(reader, held->options);
  note_seen(reader, least, held->number, most);
  taken++;
  long all = ++now_held;
  if (all > most_held) most_held = all;
}

static void let_go(struct reader *reader, int at) {
  struct held *held = &reader->held[at];
  CHECK(get_many(reader, held->options) == held->number);
  if (draw(&reader->drawn, 4) == 0) CHECK(scan_whole(held->options) == held->number);
  tiswenor_readoptions_destroy(held->options);
  tiswenor_release_snapshot(db, held->snapshot);
  double passed = seconds() - held->since;
  if (passed > longest) longest = passed;
  now_held--;
  *held = reader->held[--reader->count];
}

static void read_now(struct reader *reader, bool whole) {
  unsigned least = least_now(reader), number = whole ? scan_whole(NULL) : get_many(reader, NULL);
  note_seen(reader, least, number, began);
}

static void read_then(struct reader *reader) {
  if (!reader->count) return;
  const struct held *held = &reader->held[draw(&reader->drawn, (unsigned)reader->count)];
  switch (draw(&reader->drawn, 40)) {
    case 0:
      CHECK(scan_whole(held->options) == held->number);
      break;
    case 1: case 2: case 3: case 4: case 5: case 6:
      scan_part(reader, held);
      break;
    case 7: case 8: case 9: case 10: case 11: case 12:
      CHECK(get_many(reader, held->options) == held->number);
      break;
    default:
      get_then(reader, held);
  }
}

static void *read_all(void *state) {
  struct reader *reader = state;
  while (!over) {
    unsigned what = draw(&reader->drawn, 1000);
    if (what < 10) {
      hold(reader);
    } else if (what < 18) {
      if (reader->count) let_go(reader, (int)draw(&reader->drawn, (unsigned)reader->count));
    } else if (what < 22) {
      read_now(reader, true);
    } else if (what < 150) {
      read_now(reader, false);
    } else if (what < 500) {
      get_now(reader);
    } else {
      read_then(reader);
    }
  }
  while (reader->count) let_go(reader, 0);
  return NULL;
}

static void *collect(void *state) {
  while (!over) {
    char *error = NULL;
    removed += (long)tiswenor_collect(db, &error);
    DONE(error);
    usleep(50000);
  }
  return state;
}

/* Afterwards */

static void leveldb_shows(const char *folder, unsigned number) {
  char *error = NULL, text[16];
  size_t klen, vlen;
  leveldb_options_t *options = leveldb_options_create();
  leveldb_options_set_paranoid_checks(options, 1);
  leveldb_t *theirs = leveldb_open(options, folder, &error);
  DONE(error);
  leveldb_readoptions_t *reading = leveldb_readoptions_create();
  leveldb_readoptions_set_verify_checksums(reading, 1);
  leveldb_iterator_t *iterator = leveldb_create_iterator(theirs, reading);
  leveldb_iter_seek_to_first(iterator);
  CHECK(leveldb_iter_valid(iterator));
  const char *value = leveldb_iter_value(iterator, &vlen);
  CHECK(number_in(value, vlen) == number);
  leveldb_iter_next(iterator);
  for (int key = 0; key < KEYS; key++) {
    unsigned batch = writer_at(key, number);
    if (!batch) continue;
    CHECK(leveldb_iter_valid(iterator));
    const char *k = leveldb_iter_key(iterator, &klen), *v = leveldb_iter_value(iterator, &vlen);
    CHECK(klen == key_of(key, text) && !memcmp(k, text, klen) && is_value(key, batch, v, vlen));
    leveldb_iter_next(iterator);
  }
  CHECK(!leveldb_iter_valid(iterator));
  leveldb_iter_get_error(iterator, &error);
  DONE(error);
  leveldb_iter_destroy(iterator);
  leveldb_readoptions_destroy(reading);
  leveldb_close(theirs);
  leveldb_options_destroy(options);
}

int main(int argc, char **argv) {
  CHECK(argc == 4);
  double time = atof(argv[2]);
  seed = strtoull(argv[3], NULL, 10);
  db = opened(argv[1], READERS + 2, WORKERS);
  pthread_t loader, collector, threads[READERS];
  static struct reader readers[READERS];
  CHECK(!pthread_create(&loader, NULL, load, NULL));
  while (!came_in) usleep(1000);
  CHECK(!pthread_create(&collector, NULL, collect, NULL));
  for (int i = 0; i < READERS; i++) {
    readers[i].drawn = mixed(seed + 1 + (uint64_t)i);
    CHECK(!pthread_create(&threads[i], NULL, read_all, &readers[i]));
  }
  usleep((useconds_t)(time * 1e6));
  over = 1;
  pthread_join(loader, NULL);
  pthread_join(collector, NULL);
  for (int i = 0; i < READERS; i++) pthread_join(threads[i], NULL);
  unsigned last = came_in;
  CHECK(scan_whole(NULL) == last);
  char *error = NULL;
  tiswenor_statistics_t levels;
  tiswenor_statistics(db, &levels, &error);
  DONE(error);
  tiswenor_close(db);
  db = opened(argv[1], 1, 0);
  CHECK(scan_whole(NULL) == last);
  tiswenor_close(db);
  leveldb_shows(argv[1], last);
  printf("storm: ok, %.0f s, seed %llu: %u batches with %ld writes; %ld gets, %ld of many keys, %ld parts of scans, %ld whole ones;\n", time,
         (unsigned long long)seed, last, writes, gets, of_many, parts, wholes);
  printf("%ld snapshots, %ld at most at a time, one for %.1f s; %ld tables removed; files at levels", taken, most_held, longest, removed);
  for (int level = 0; level < tiswenor_levels; level++) printf(" %llu", (unsigned long long)levels.files[level]);
  printf("; LevelDB read the same\n");
}
