#include <stdio.h>
#include <tiswenor.h>

int main(void) {
  char *error = NULL;
  size_t length;
  tiswenor_options_t *options = tiswenor_options_create();
  tiswenor_options_set_create_if_missing(options, 1);
  tiswenor_t *db = tiswenor_open(options, "/tmp/fruit", &error);
  tiswenor_options_destroy(options);
  if (!error) tiswenor_put(db, NULL, "apple", 5, "red", 3, &error);
  char *value = error ? NULL : tiswenor_get(db, NULL, "apple", 5, &length, &error);
  if (value) printf("apple is %.*s\n", (int)length, value);
  if (error) fprintf(stderr, "%s\n", error);
  int status = error ? 1 : 0;
  tiswenor_free(value);
  tiswenor_free(error);
  tiswenor_close(db);
  return status;
}
