/* Times calls of LevelDB's C interface, or of tiswenor.h, which has its shape: bench FOLDER NAME
   PAIRS. With -DLEVELDB it is LevelDB, which syncs each write, does not compress, and has a cache
   of 32 MiB. Keys have 16 bytes, values 100. Prints a line for each figure: NAME, what, the figure;
   of reads by one thread also the processor's time in this process, which other work does not
   change much: that is all of it for LevelDB and with the server inside. LevelDB iterates once more
   as the server does it: it verifies the checksum of each block, and has none of them in its cache.
 */
#define _GNU_SOURCE
#include <pthread.h>
#include <stdio.h>
#include <stdlib.h>
#include <string.h>
#include <time.h>

#ifdef LEVELDB
#include <leveldb/c.h>
#define API(name) leveldb_##name
#else
#include <tiswenor.h>
#define API(name) tiswenor_##name
#endif

typedef API(t) database;

enum { KEY = 16, VALUE = 100, BATCH = 1000, HOT = 1000, THREADS = 4, GROUP = 100 };
enum { GETS = 200000, PUTS = 300, CACHE = 32 << 20 };

static const char *name;
static unsigned pairs;
static database *db;

static double now(void) {
  struct timespec time;
  clock_gettime(CLOCK_MONOTONIC, &time);
  return (double)time.tv_sec + (double)time.tv_nsec / 1e9;
}

static double used(void) {
  struct timespec time;
  clock_gettime(CLOCK_PROCESS_CPUTIME_ID, &time);
  return (double)time.tv_sec + (double)time.tv_nsec / 1e9;
}

static void tell_both(const char *what, double took, double of_processor) {
  printf("%-10s %-44s %10.2f us %10.2f us of the processor\n", name, what, took * 1e6,
         of_processor * 1e6);
  fflush(stdout);
}

static void tell(const char *what, double figure, const char *unit) {
  printf("%-10s %-44s %10.2f %s\n", name, what, figure, unit);
  fflush(stdout);
}

static void check(char *error) {
  if (!error) return;
  fprintf(stderr, "%s: %s\n", name, error);
  exit(1);
}

/* Numbers from 0 to pairs - 1 in an order that looks drawn: each once in `pairs` steps. */
static unsigned mixed(unsigned number) {
  return (unsigned)((unsigned long long)number * 7368787 % pairs);
}

static void make_key(unsigned number, char *key) { snprintf(key, KEY + 1, "%016u", number); }

static void make_value(unsigned number, char *value) {
  memset(value, 'a' + (int)(number % 26), VALUE);
  snprintf(value, VALUE, "%u", number);
}

static database *opened(const char *folder, size_t cache) {
  char *error = NULL;
  API(options_t) *options = API(options_create)();
  API(options_set_create_if_missing)(options, 1);
#ifdef LEVELDB
  leveldb_options_set_compression(options, leveldb_no_compression);
  leveldb_options_set_cache(options, leveldb_cache_create_lru(cache));
#else
  (void)cache;
  tiswenor_options_set_channels(options, THREADS);
  tiswenor_options_set_workers(options, 1);
#endif
  database *it = API(open)(options, folder, &error);
  check(error);
  API(options_destroy)(options);
  return it;
}

static int by_size(const void *first, const void *second) {
  double one = *(const double *)first, other = *(const double *)second;
  return (one > other) - (one < other);
}

static void fill(const API(writeoptions_t) * synced) {
  char *error = NULL, key[KEY + 1], value[VALUE + 1];
  unsigned batches = pairs / BATCH;
  double *took = calloc(batches, sizeof *took);
  if (!took) check((char *)"no memory");
  API(writebatch_t) *batch = API(writebatch_create)();
  double begin = now();
  for (unsigned from = 0; from < pairs; from += BATCH) {
    API(writebatch_clear)(batch);
    for (unsigned i = from; i < from + BATCH; i++) {
      make_key(mixed(i), key);
      make_value(mixed(i), value);
      API(writebatch_put)(batch, key, KEY, value, VALUE);
    }
    double written = now();
    API(write)(db, synced, batch, &error);
    check(error);
    took[from / BATCH] = now() - written;
  }
  tell("a batch of 1,000, synced", (now() - begin) / batches * 1e3, "ms");
  qsort(took, batches, sizeof *took, by_size);
  tell("its write, the median", took[batches / 2] * 1e3, "ms");
  tell("its write, 99 of 100 are below", took[batches * 99 / 100] * 1e3, "ms");
  tell("its write, the longest", took[batches - 1] * 1e3, "ms");
  free(took);
  API(writebatch_destroy)(batch);
}

static void compact(void) {
  double begin = now();
#ifdef LEVELDB
  leveldb_compact_range(db, NULL, 0, NULL, 0);
#else
  char *error = NULL;
  tiswenor_compact(db, &error);
  check(error);
  tiswenor_collect(db, &error);
  check(error);
#endif
  tell("compaction at the end", now() - begin, "s");
}

static void put_one_by_one(const API(writeoptions_t) * synced) {
  char *error = NULL, key[KEY + 1], value[VALUE + 1];
  double begin = now();
  for (unsigned i = 0; i < PUTS; i++) {
    make_key(mixed(i), key);
    make_value(mixed(i), value);
    API(put)(db, synced, key, KEY, value, VALUE, &error);
    check(error);
  }
  tell("a put, synced", (now() - begin) / PUTS * 1e3, "ms");
}

static void get_one(const API(readoptions_t) * options, unsigned number) {
  char *error = NULL, key[KEY + 1], wanted[VALUE + 1];
  size_t length;
  make_key(number, key);
  char *value = API(get)(db, options, key, KEY, &length, &error);
  check(error);
  make_value(number, wanted);
  if (!value || length != VALUE || memcmp(value, wanted, VALUE)) check((char *)"another value");
  API(free)(value);
}

struct reader {
  unsigned among, from;
};

static void *get_some(void *state) {
  const struct reader *reader = state;
  API(readoptions_t) *options = API(readoptions_create)();
  for (unsigned i = 0; i < GETS / THREADS; i++)
    get_one(options, mixed(reader->from + i) % reader->among);
  API(readoptions_destroy)(options);
  return NULL;
}

static void get_by_one(const char *what, unsigned among) {
  double best = 1e9, least = 1e9;
  for (unsigned round = 0; round < 3; round++) {
    struct reader reader = {among, round * GETS};
    double begin = now(), before = used();
    get_some(&reader);
    double took = (now() - begin) / (GETS / THREADS), time = (used() - before) / (GETS / THREADS);
    if (took < best) best = took;
    if (time < least) least = time;
  }
  tell_both(what, best, least);
}

static void get_by_four(const char *what, unsigned among) {
  double best = 1e9;
  for (unsigned round = 0; round < 3; round++) {
    pthread_t threads[THREADS];
    struct reader readers[THREADS];
    double begin = now();
    for (unsigned i = 0; i < THREADS; i++) {
      readers[i] = (struct reader){among, (round * THREADS + i) * GETS};
      pthread_create(&threads[i], NULL, get_some, &readers[i]);
    }
    for (unsigned i = 0; i < THREADS; i++) pthread_join(threads[i], NULL);
    double took = (now() - begin) / GETS;
    if (took < best) best = took;
  }
  tell(what, best * 1e6, "us");
}

static void get_by_groups(void) {
#ifndef LEVELDB
  double best = 1e9;
  for (unsigned round = 0; round < 3; round++) {
    double begin = now();
    for (unsigned from = 0; from < GETS; from += GROUP) {
      char *error = NULL, text[GROUP][KEY + 1], *values[GROUP];
      const char *keys[GROUP];
      size_t keylens[GROUP], lengths[GROUP];
      for (unsigned i = 0; i < GROUP; i++) {
        make_key(mixed(from + i) % HOT, text[i]);
        keys[i] = text[i];
        keylens[i] = KEY;
      }
      tiswenor_get_many(db, NULL, GROUP, keys, keylens, values, lengths, &error);
      check(error);
      for (unsigned i = 0; i < GROUP; i++) tiswenor_free(values[i]);
    }
    double took = (now() - begin) / GETS;
    if (took < best) best = took;
  }
  tell("a get of 1,000 keys, 100 in a request", best * 1e6, "us");
#endif
}

static void iterate(const char *what, const API(readoptions_t) * options) {
  double best = 1e9, least = 1e9;
  for (int round = 0; round < 3; round++) {
    unsigned count = 0;
    double begin = now(), before = used();
    API(iterator_t) *iterator = API(create_iterator)(db, options);
    for (API(iter_seek_to_first)(iterator); API(iter_valid)(iterator); API(iter_next)(iterator)) {
      size_t klen, vlen;
      API(iter_key)(iterator, &klen);
      API(iter_value)(iterator, &vlen);
      count += klen == KEY && vlen == VALUE;
    }
    double took = now() - begin, time = used() - before;
    API(iter_destroy)(iterator);
    if (count != pairs) check((char *)"another number of pairs");
    if (took < best) best = took;
    if (time < least) least = time;
  }
  tell_both(what, best / pairs, least / pairs);
}

static void iterate_all(const char *folder) {
  API(readoptions_t) *options = API(readoptions_create)();
#ifdef LEVELDB
  API(close)(db);
  db = opened(folder, 0);
  leveldb_readoptions_set_verify_checksums(options, 1);
  leveldb_readoptions_set_fill_cache(options, 0);
  iterate("all pairs, checksums verified, a pair", options);
  leveldb_readoptions_set_verify_checksums(options, 0);
  leveldb_readoptions_set_fill_cache(options, 1);
  API(close)(db);
  db = opened(folder, CACHE);
#else
  (void)folder;
#endif
  iterate("all pairs by an iterator, a pair", options);
  API(readoptions_destroy)(options);
}

int main(int argc, char **argv) {
  if (argc != 4) return 2;
  name = argv[2];
  pairs = (unsigned)atoi(argv[3]);
  db = opened(argv[1], CACHE);
  API(writeoptions_t) *synced = API(writeoptions_create)();
  API(writeoptions_set_sync)(synced, 1);
  fill(synced);
  compact();
  put_one_by_one(synced);
  compact();
  get_by_one("a get of 1,000 keys, one thread", HOT);
  get_by_four("a get of 1,000 keys, four threads together", HOT);
  get_by_groups();
  get_by_one("a get of all keys, one thread", pairs);
  get_by_four("a get of all keys, four threads together", pairs);
  iterate_all(argv[1]);
  API(writeoptions_destroy)(synced);
  API(close)(db);
}
