/* What the tests share: checks that end the program with status 1, and calls that are done. */
#ifndef CHECK_H
#define CHECK_H

#include <stdio.h>
#include <stdlib.h>
#include <string.h>

#include "tiswenor.h"

#define CHECK(fact)                                                      \
  do {                                                                   \
    if (!(fact)) {                                                       \
      fprintf(stderr, "%s:%d: not so: %s\n", __FILE__, __LINE__, #fact); \
      exit(1);                                                           \
    }                                                                    \
  } while (0)

#define DONE(error)                                                       \
  do {                                                                    \
    if (error) {                                                          \
      fprintf(stderr, "%s:%d: error: %s\n", __FILE__, __LINE__, (error)); \
      exit(1);                                                            \
    }                                                                     \
  } while (0)

/* The error is there, with this number; it is freed. */
#define FAILED(error, number)                                                      \
  do {                                                                             \
    if (tiswenor_error_number(error) != (number)) {                                \
      fprintf(stderr, "%s:%d: wanted %d: %s\n", __FILE__, __LINE__, (int)(number), \
              (error) ? (error) : "no error");                                     \
      exit(1);                                                                     \
    }                                                                              \
    tiswenor_free(error);                                                          \
    (error) = NULL;                                                                \
  } while (0)

static inline tiswenor_t *opened(const char *folder, int channels, int workers) {
  char *error = NULL;
  tiswenor_options_t *options = tiswenor_options_create();
  tiswenor_options_set_create_if_missing(options, 1);
  tiswenor_options_set_channels(options, channels);
  tiswenor_options_set_workers(options, workers);
  tiswenor_t *db = tiswenor_open(options, folder, &error);
  DONE(error);
  tiswenor_options_destroy(options);
  return db;
}

static inline void put(tiswenor_t *db, const char *key, const char *value) {
  char *error = NULL;
  tiswenor_put(db, NULL, key, strlen(key), value, strlen(value), &error);
  DONE(error);
}

/* The key has this value, or, with NULL, none. */
static inline void has(tiswenor_t *db, const tiswenor_readoptions_t *options, const char *key,
                       const char *value) {
  char *error = NULL;
  size_t length;
  char *found = tiswenor_get(db, options, key, strlen(key), &length, &error);
  DONE(error);
  CHECK(!found == !value);
  if (value) CHECK(length == strlen(value) && !memcmp(found, value, length));
  tiswenor_free(found);
}

#endif
