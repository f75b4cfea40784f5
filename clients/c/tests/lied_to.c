/* The library beside a server that answers anything (liar.c): lied_to FOLDER ROUNDS. Each call
   comes back, with something or with an error; what the sanitizers say is the result. */
#define _GNU_SOURCE
#include <stdio.h>
#include <stdlib.h>

#include "check.h"

static int has_ended(char **error) {
  int number = tiswenor_error_number(*error);
  tiswenor_free(*error);
  *error = NULL;
  return number == tiswenor_ended;
}

static void read_one(tiswenor_t *db, const tiswenor_readoptions_t *options, char **error) {
  size_t length;
  char *value = tiswenor_get(db, options, "k", 1, &length, error);
  CHECK(!value || !*error);
  for (size_t i = 0; value && i < length; i++) CHECK(value[i] >= 'a' || value[i] < 'a');
  tiswenor_free(value);
}

static void read_many(tiswenor_t *db, char **error) {
  const char *keys[] = {"a", "b"};
  size_t keylens[] = {1, 1}, lengths[2];
  char *values[2];
  tiswenor_get_many(db, NULL, 2, keys, keylens, values, lengths, error);
  CHECK(!*error || (!values[0] && !values[1]));
  tiswenor_free(values[0]);
  tiswenor_free(values[1]);
}

static void iterate(tiswenor_t *db, const tiswenor_readoptions_t *options, char **error) {
  size_t klen, vlen, sum = 0;
  tiswenor_iterator_t *iterator = tiswenor_create_iterator(db, options);
  tiswenor_iter_seek(iterator, "a", 1);
  for (int i = 0; i < 100 && tiswenor_iter_valid(iterator); i++, tiswenor_iter_next(iterator)) {
    const char *key = tiswenor_iter_key(iterator, &klen);
    const char *value = tiswenor_iter_value(iterator, &vlen);
    for (size_t at = 0; at < klen; at++) sum += (unsigned char)key[at];
    for (size_t at = 0; at < vlen; at++) sum += (unsigned char)value[at];
  }
  CHECK(sum < 1000000);
  tiswenor_iter_seek_to_last(iterator);
  for (int i = 0; i < 100 && tiswenor_iter_valid(iterator); i++) tiswenor_iter_prev(iterator);
  tiswenor_iter_get_error(iterator, error);
  tiswenor_iter_destroy(iterator);
}

int main(int argc, char **argv) {
  CHECK(argc == 3);
  tiswenor_options_t *options = tiswenor_options_create();
  tiswenor_options_set_channels(options, 1);
  for (int round = atoi(argv[2]); round > 0; round--) {
    char seed[16], *error = NULL;
    sprintf(seed, "%d", round);
    setenv("LIAR_SEED", seed, 1);
    tiswenor_t *db = tiswenor_open(options, argv[1], &error);
    DONE(error);
    for (int ended = 0; !ended;) {
      tiswenor_statistics_t statistics;
      tiswenor_readoptions_t *then = tiswenor_readoptions_create();
      const tiswenor_snapshot_t *snapshot = tiswenor_create_snapshot(db, &error);
      ended |= has_ended(&error);
      tiswenor_readoptions_set_snapshot(then, snapshot);
      read_one(db, then, &error);
      ended |= has_ended(&error);
      read_many(db, &error);
      ended |= has_ended(&error);
      iterate(db, then, &error);
      ended |= has_ended(&error);
      iterate(db, NULL, &error);
      ended |= has_ended(&error);
      tiswenor_put(db, NULL, "k", 1, "v", 1, &error);
      ended |= has_ended(&error);
      tiswenor_compact(db, &error);
      ended |= has_ended(&error);
      tiswenor_collect(db, &error);
      ended |= has_ended(&error);
      tiswenor_statistics(db, &statistics, &error);
      ended |= has_ended(&error);
      tiswenor_free(tiswenor_property_value(db, "leveldb.stats"));
      tiswenor_release_snapshot(db, snapshot);
      tiswenor_readoptions_destroy(then);
    }
    tiswenor_close(db);
  }
  tiswenor_options_destroy(options);
  puts("lied_to: ok");
}
