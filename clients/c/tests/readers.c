/* Eight threads read while one writes and two workers compact: readers FOLDER SECONDS. Each batch
   gives all keys one number, which grows. A read sees one number in all keys: at least the last one
   that had come in before it, and none that a later read has not. */
#define _GNU_SOURCE
#include <pthread.h>
#include <stdatomic.h>
#include <unistd.h>

#include "check.h"

enum { READERS = 8, WORKERS = 2, KEYS = 60 };

static tiswenor_t *db;
static atomic_int came_in; /* the number of the last batch that was answered */
static atomic_bool over;
static atomic_long reads;

static size_t key_of(int number, char *text) { return (size_t)sprintf(text, "key %03d", number); }

static void *write_all(void *state) {
  for (int number = 1; !over; number++) {
    char *error = NULL, key[16], value[32];
    size_t vlen = (size_t)sprintf(value, "%d", number);
    tiswenor_writebatch_t *batch = tiswenor_writebatch_create();
    for (int i = 0; i < KEYS; i++) tiswenor_writebatch_put(batch, key, key_of(i, key), value, vlen);
    tiswenor_write(db, NULL, batch, &error);
    DONE(error);
    tiswenor_writebatch_destroy(batch);
    came_in = number;
  }
  return state;
}

static int number_of(const char *value, size_t length) {
  char text[32] = {0};
  CHECK(value && length < sizeof text);
  memcpy(text, value, length);
  return atoi(text);
}

static int by_get_many(void) {
  char *error = NULL, text[KEYS][16], *values[KEYS];
  const char *keys[KEYS];
  size_t keylens[KEYS], lengths[KEYS];
  for (int i = 0; i < KEYS; i++) keylens[i] = key_of(i, text[i]), keys[i] = text[i];
  tiswenor_get_many(db, NULL, KEYS, keys, keylens, values, lengths, &error);
  DONE(error);
  int first = number_of(values[0], lengths[0]);
  for (int i = 0; i < KEYS; i++) {
    CHECK(number_of(values[i], lengths[i]) == first);
    tiswenor_free(values[i]);
  }
  return first;
}

static int by_iterator(void) {
  char *error = NULL;
  int first = 0, count = 0;
  tiswenor_iterator_t *iterator = tiswenor_create_iterator(db, NULL);
  for (tiswenor_iter_seek_to_first(iterator); tiswenor_iter_valid(iterator); count++) {
    size_t length;
    const char *value = tiswenor_iter_value(iterator, &length);
    if (!count) first = number_of(value, length);
    CHECK(number_of(value, length) == first);
    tiswenor_iter_next(iterator);
  }
  tiswenor_iter_get_error(iterator, &error);
  DONE(error);
  tiswenor_iter_destroy(iterator);
  CHECK(count == KEYS);
  return first;
}

static void *read_all(void *state) {
  int seen = 0;
  for (int round = 0; !over; round++) {
    int least = came_in, number = round % 2 ? by_get_many() : by_iterator();
    CHECK(number >= least && number >= seen);
    seen = number;
    reads++;
  }
  return state;
}

int main(int argc, char **argv) {
  CHECK(argc == 3);
  pthread_t writer, readers[READERS];
  db = opened(argv[1], 4, WORKERS);
  CHECK(!pthread_create(&writer, NULL, write_all, NULL));
  while (!came_in) usleep(1000);
  for (int i = 0; i < READERS; i++) CHECK(!pthread_create(&readers[i], NULL, read_all, NULL));
  usleep((unsigned)(atof(argv[2]) * 1e6));
  over = 1;
  pthread_join(writer, NULL);
  for (int i = 0; i < READERS; i++) pthread_join(readers[i], NULL);
  tiswenor_close(db);
  printf("readers: ok (batches %d, reads of all keys %ld)\n", came_in, reads);
}
