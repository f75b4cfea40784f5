/* Drawn calls beside a table in memory: drawn FOLDER CALLS SEED. After each call the database
   answers what the table has: now, and at each snapshot that lives what it had then. */
#define _GNU_SOURCE
#include "check.h"

enum { KEYS = 400, SNAPSHOTS = 4, MANY = 20, ABSENT = -1 };

static const char *folder;
static tiswenor_t *db;
static unsigned drawn;
static long done[3];

/* Of each key the number that its value is made of, or ABSENT. */
typedef int table[KEYS];
static table now;

static struct {
  const tiswenor_snapshot_t *snapshot;
  table then;
} states[SNAPSHOTS];

static unsigned draw(unsigned below) {
  drawn = drawn * 1103515245u + 12345u;
  return (drawn >> 16) % below;
}

/* Keys in their order: some are a front of the next one. */
static size_t key_of(unsigned number, char *text) {
  size_t length = (size_t)sprintf(text, "%03u", number / 2);
  if (number % 2) text[length++] = 0;
  return length;
}

static size_t value_of(int number, char *text) {
  size_t length = (size_t)number % 50;
  memset(text, 'a' + number % 26, length);
  return length + (size_t)sprintf(text + length, "%d", number);
}

static void is_value(int number, const char *value, size_t length) {
  char wanted[80];
  CHECK(!value == (number == ABSENT));
  if (value) CHECK(length == value_of(number, wanted) && !memcmp(value, wanted, length));
}

/* The table that is read, by now or a snapshot's options, which the caller destroys. */
static const int *draw_state(tiswenor_readoptions_t **options) {
  int state = (int)draw(2 * SNAPSHOTS);
  *options = tiswenor_readoptions_create();
  if (state >= SNAPSHOTS || !states[state].snapshot) return now;
  tiswenor_readoptions_set_snapshot(*options, states[state].snapshot);
  return states[state].then;
}

static void write_one(void) {
  char *error = NULL, key[8], value[80];
  unsigned at = draw(KEYS);
  size_t klen = key_of(at, key);
  now[at] = draw(3) ? (int)draw(10000) : ABSENT;
  if (now[at] == ABSENT)
    tiswenor_delete(db, NULL, key, klen, &error);
  else
    tiswenor_put(db, NULL, key, klen, value, value_of(now[at], value), &error);
  DONE(error);
}

static void write_batch(void) {
  char *error = NULL, key[8], value[80];
  tiswenor_writebatch_t *batch = tiswenor_writebatch_create();
  for (unsigned i = draw(40); i > 0; i--) {
    unsigned at = draw(KEYS);
    size_t klen = key_of(at, key);
    now[at] = draw(3) ? (int)draw(10000) : ABSENT;
    if (now[at] == ABSENT)
      tiswenor_writebatch_delete(batch, key, klen);
    else
      tiswenor_writebatch_put(batch, key, klen, value, value_of(now[at], value));
  }
  tiswenor_write(db, NULL, batch, &error);
  DONE(error);
  tiswenor_writebatch_destroy(batch);
}

static void get(void) {
  char *error = NULL, key[8];
  tiswenor_readoptions_t *options;
  const int *has = draw_state(&options);
  unsigned at = draw(KEYS);
  size_t length;
  char *value = tiswenor_get(db, options, key, key_of(at, key), &length, &error);
  DONE(error);
  is_value(has[at], value, length);
  tiswenor_free(value);
  tiswenor_readoptions_destroy(options);
}

static void get_many(void) {
  char *error = NULL, text[MANY][8], *values[MANY];
  const char *keys[MANY];
  unsigned at[MANY];
  size_t keylens[MANY], lengths[MANY];
  tiswenor_readoptions_t *options;
  const int *has = draw_state(&options);
  size_t count = draw(MANY + 1);
  for (size_t i = 0; i < count; i++) {
    at[i] = draw(KEYS);
    keys[i] = text[i];
    keylens[i] = key_of(at[i], text[i]);
  }
  tiswenor_get_many(db, options, count, keys, keylens, values, lengths, &error);
  DONE(error);
  for (size_t i = 0; i < count; i++) {
    is_value(has[at[i]], values[i], lengths[i]);
    tiswenor_free(values[i]);
  }
  tiswenor_readoptions_destroy(options);
}

/* From the last pair, or one at a drawn key, back to the first. */
static void iterate_back(tiswenor_iterator_t *iterator, const int *has) {
  char key[8];
  unsigned at = KEYS;
  if (draw(2)) {
    at = draw(KEYS);
    tiswenor_iter_seek(iterator, key, key_of(at, key));
    while (at < KEYS && has[at] == ABSENT) at++;
    if (at == KEYS) return;
    tiswenor_iter_prev(iterator);
  } else {
    tiswenor_iter_seek_to_last(iterator);
  }
  while (at--) {
    if (has[at] == ABSENT) continue;
    size_t klen, vlen;
    CHECK(tiswenor_iter_valid(iterator));
    const char *k = tiswenor_iter_key(iterator, &klen);
    const char *v = tiswenor_iter_value(iterator, &vlen);
    CHECK(klen == key_of(at, key) && !memcmp(k, key, klen));
    is_value(has[at], v, vlen);
    tiswenor_iter_prev(iterator);
  }
  CHECK(!tiswenor_iter_valid(iterator));
}

/* From a drawn key on, some pairs or all; and perhaps again from another one; and back. */
static void iterate(void) {
  char *error = NULL, key[8];
  tiswenor_readoptions_t *options;
  const int *has = draw_state(&options);
  tiswenor_iterator_t *iterator = tiswenor_create_iterator(db, options);
  for (int seeks = 1 + (int)draw(2); seeks > 0; seeks--) {
    unsigned at = draw(KEYS), left = draw(4) ? draw(30) : KEYS;
    tiswenor_iter_seek(iterator, key, key_of(at, key));
    for (; at < KEYS && left > 0; at++) {
      if (has[at] == ABSENT) continue;
      size_t klen, vlen;
      CHECK(tiswenor_iter_valid(iterator));
      const char *k = tiswenor_iter_key(iterator, &klen);
      const char *v = tiswenor_iter_value(iterator, &vlen);
      CHECK(klen == key_of(at, key) && !memcmp(k, key, klen));
      is_value(has[at], v, vlen);
      tiswenor_iter_next(iterator);
      left--;
    }
    if (left) CHECK(!tiswenor_iter_valid(iterator));
  }
  iterate_back(iterator, has);
  tiswenor_iter_get_error(iterator, &error);
  DONE(error);
  tiswenor_iter_destroy(iterator);
  tiswenor_readoptions_destroy(options);
}

static void release(unsigned state) {
  tiswenor_release_snapshot(db, states[state].snapshot);
  states[state].snapshot = NULL;
}

static void take_snapshot(void) {
  char *error = NULL;
  unsigned state = draw(SNAPSHOTS);
  release(state);
  if (draw(4) == 0) return;
  states[state].snapshot = tiswenor_create_snapshot(db, &error);
  DONE(error);
  memcpy(states[state].then, now, sizeof now);
}

static void compact(void) {
  char *error = NULL, from[16], to[16];
  size_t from_length = key_of(draw(KEYS), from), to_length = key_of(draw(KEYS), to);
  if (draw(2))
    tiswenor_compact(db, &error);
  else
    tiswenor_compact_range(db, draw(3) ? from : NULL, from_length, draw(3) ? to : NULL, to_length,
                           &error);
  DONE(error);
}

static void collect(void) {
  char *error = NULL;
  tiswenor_collect(db, &error);
  DONE(error);
}

static void open_again(void) {
  for (unsigned state = 0; state < SNAPSHOTS; state++) release(state);
  tiswenor_close(db);
  db = opened(folder, 1 + (int)draw(4), (int)draw(3) + 1);
}

static void call(void) {
  static void (*const rarely[])(void) = {write_one,     write_batch,   write_batch, write_batch,
                                         take_snapshot, take_snapshot, collect};
  static void (*const often[])(void) = {get, get, get, get_many, iterate};
  unsigned kind = draw(1000);
  if (kind == 0)
    draw(5) ? compact() : open_again();
  else if (kind < 40)
    rarely[draw(sizeof rarely / sizeof *rarely)]();
  else
    often[draw(sizeof often / sizeof *often)]();
  done[kind == 0 ? 0 : kind < 40 ? 1 : 2]++;
}

int main(int argc, char **argv) {
  CHECK(argc == 4);
  folder = argv[1];
  drawn = (unsigned)atoi(argv[3]);
  for (int i = 0; i < KEYS; i++) now[i] = ABSENT;
  db = opened(folder, 2, 1);
  for (int i = atoi(argv[2]); i > 0; i--) call();
  open_again();
  for (int i = 0; i < 100; i++) iterate();
  tiswenor_close(db);
  printf("drawn: ok (reads %ld, writes and snapshots %ld, compactions and openings %ld)\n", done[2],
         done[1], done[0]);
}
