/* What is said of each status that an answer may have: texts FOLDER, with a server that answers a
   read by the status of its key's first byte, and by lines that its second one chooses. The last
   two end their channels. */
#include "check.h"

enum { LINES = 4 };

static void tell(tiswenor_t *db, int status) {
  char key = (char)status, *error = NULL;
  size_t length;
  CHECK(!tiswenor_get(db, NULL, &key, 1, &length, &error) && error);
  puts(error);
  tiswenor_free(error);
}

static void tell_cause(tiswenor_t *db, int status, int line) {
  char key[] = {(char)status, (char)line}, *error = NULL;
  size_t length;
  tiswenor_cause_t cause;
  CHECK(!tiswenor_get(db, NULL, key, 2, &length, &error) && error);
  puts(error);
  tiswenor_error_cause(error, &cause);
  if (cause.call)
    printf("%.*s|%.*s|%.*s\n", (int)cause.call_length, cause.call, (int)cause.file_length,
           cause.file, (int)cause.reason_length, cause.reason);
  tiswenor_free(error);
}

int main(int argc, char **argv) {
  CHECK(argc == 2);
  tiswenor_t *db = opened(argv[1], 4, 1);
  for (int line = 0; line < LINES; line++) tell_cause(db, tiswenor_device, line);
  for (int line = 0; line < LINES; line++) tell_cause(db, tiswenor_locked, line);
  for (int status = 1; status <= 203; status++)
    if (status < 100 || status > 200) tell(db, status);
  tell(db, tiswenor_malformed);
  tell(db, tiswenor_unanswered);
  tiswenor_close(db);
}
