/* Iterators over many pages, of which some are asked for ahead: pages FOLDER. One, one that goes
   backward, two that take turns, some that are left or sent elsewhere in the middle, and four
   threads' at once, beside writes. */
#define _GNU_SOURCE
#include <pthread.h>

#include "check.h"

enum { PAIRS = 20000, THREADS = 4, TURNS = 40 };

static tiswenor_t *db;

static size_t key_of(int number, char *text) { return (size_t)sprintf(text, "%08d", number); }

/* Values of 0 to 99 bytes. */
static size_t value_of(int number, char *text) {
  memset(text, 'a' + number % 26, (size_t)(number % 100));
  return (size_t)(number % 100);
}

static void fill(void) {
  char key[16], value[100], *error = NULL;
  tiswenor_writebatch_t *batch = tiswenor_writebatch_create();
  for (int i = 0; i < PAIRS; i++) {
    tiswenor_writebatch_put(batch, key, key_of(i, key), value, value_of(i, value));
    if (i % 5000 < 4999) continue;
    tiswenor_write(db, NULL, batch, &error);
    DONE(error);
    tiswenor_writebatch_clear(batch);
  }
  tiswenor_writebatch_destroy(batch);
}

/* The iterator stands at the pair of this number, and goes on. */
static void is_at(tiswenor_iterator_t *iterator, int number) {
  char key[16], value[100];
  size_t klen, vlen;
  CHECK(tiswenor_iter_valid(iterator));
  const char *k = tiswenor_iter_key(iterator, &klen), *v = tiswenor_iter_value(iterator, &vlen);
  CHECK(klen == key_of(number, key) && !memcmp(k, key, klen));
  CHECK(vlen == value_of(number, value) && !memcmp(v, value, vlen));
  tiswenor_iter_next(iterator);
}

static void seek(tiswenor_iterator_t *iterator, int number) {
  char key[16];
  tiswenor_iter_seek(iterator, key, key_of(number, key));
}

static void is_at_its_end(tiswenor_iterator_t *iterator) {
  char *error = NULL;
  CHECK(!tiswenor_iter_valid(iterator));
  tiswenor_iter_get_error(iterator, &error);
  DONE(error);
}

static void one(void) {
  tiswenor_iterator_t *iterator = tiswenor_create_iterator(db, NULL);
  tiswenor_iter_seek_to_first(iterator);
  for (int i = 0; i < PAIRS; i++) is_at(iterator, i);
  is_at_its_end(iterator);
  tiswenor_iter_destroy(iterator);
}

static void two_in_turns(void) {
  tiswenor_iterator_t *first = tiswenor_create_iterator(db, NULL);
  tiswenor_iterator_t *second = tiswenor_create_iterator(db, NULL);
  seek(first, 0);
  seek(second, PAIRS / 2);
  for (int i = 0; i < PAIRS; i++) {
    is_at(first, i);
    if (i < PAIRS / 2) is_at(second, PAIRS / 2 + i);
  }
  is_at_its_end(first);
  is_at_its_end(second);
  tiswenor_iter_destroy(first);
  tiswenor_iter_destroy(second);
}

/* The iterator stands at the pair of this number, and goes back. */
static void is_back_at(tiswenor_iterator_t *iterator, int number) {
  char key[16];
  size_t klen;
  CHECK(tiswenor_iter_valid(iterator));
  const char *k = tiswenor_iter_key(iterator, &klen);
  CHECK(klen == key_of(number, key) && !memcmp(k, key, klen));
  is_at(iterator, number); /* to the next one, and back */
  if (tiswenor_iter_valid(iterator))
    tiswenor_iter_prev(iterator);
  else
    tiswenor_iter_seek_to_last(iterator);
  CHECK(tiswenor_iter_valid(iterator));
  tiswenor_iter_prev(iterator);
}

static void one_backward(void) {
  tiswenor_iterator_t *iterator = tiswenor_create_iterator(db, NULL);
  tiswenor_iter_seek_to_last(iterator);
  for (int i = PAIRS; i--;) is_back_at(iterator, i);
  is_at_its_end(iterator);
  seek(iterator, PAIRS / 2);
  for (int i = PAIRS / 2; i < PAIRS / 2 + 3000; i++) is_at(iterator, i);
  for (int i = PAIRS / 2 + 3000; i > 5; i--) {
    CHECK(tiswenor_iter_valid(iterator));
    tiswenor_iter_prev(iterator);
  }
  for (int i = 5; i < PAIRS; i++) is_at(iterator, i);
  is_at_its_end(iterator);
  tiswenor_iter_destroy(iterator);
}

/* As far as some page, and then elsewhere, with reads between; every second time backward. */
static void *wander(void *state) {
  char key[16];
  unsigned drawn = (unsigned)(size_t)state;
  for (int turn = 0; turn < TURNS; turn++) {
    tiswenor_iterator_t *iterator = tiswenor_create_iterator(db, NULL);
    for (int seeks = 0; seeks < 2; seeks++) {
      drawn = drawn * 1103515245u + 12345u;
      int at = (int)((drawn >> 16) % PAIRS), last = at + (int)(drawn >> 8) % 6000;
      seek(iterator, at);
      for (; at < last && at < PAIRS; at++) is_at(iterator, at);
      for (int back = at; drawn & 256 && at < PAIRS && back > 0 && back > at - 3000; back--) {
        CHECK(tiswenor_iter_valid(iterator));
        tiswenor_iter_prev(iterator);
      }
      char *error = NULL, *value;
      size_t length;
      value = tiswenor_get(db, NULL, key, key_of(at % PAIRS, key), &length, &error);
      DONE(error);
      CHECK(length == (size_t)(at % PAIRS % 100));
      tiswenor_free(value);
    }
    tiswenor_iter_destroy(iterator);
  }
  return NULL;
}

/* What is written while they read is not theirs to see. */
static void four_threads(void) {
  pthread_t threads[THREADS];
  for (size_t i = 0; i < THREADS; i++)
    CHECK(!pthread_create(&threads[i], NULL, wander, (void *)(i + 1)));
  for (int i = 0; i < 20; i++) put(db, "~ behind all of them", "value");
  for (int i = 0; i < THREADS; i++) pthread_join(threads[i], NULL);
}

int main(int argc, char **argv) {
  CHECK(argc == 2);
  for (int channels = 1; channels <= 62; channels += 61) {
    db = opened(argv[1], channels, 1);
    if (channels == 1) fill();
    if (channels == 1) one();
    if (channels == 1) one_backward();
    if (channels == 1) two_in_turns();
    four_threads();
    tiswenor_close(db);
  }
  puts("pages: ok");
}
