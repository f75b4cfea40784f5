/* A server that stays behind its last channel: stays FOLDER PROGRAM, where PROGRAM is this one,
   which is that server where it is called without a word. Calls that find no channel wait for its
   end once, for a second, and not each of them. */
#define _GNU_SOURCE
#include <time.h>
#include <unistd.h>

#include "check.h"

enum { STAYS = 15, CALLS = 10, AT_MOST = 5 }; /* seconds, but for the calls */

/* Takes the opening, and answers the first request on its first channel as malformed. */
static int serve(void) {
  unsigned char bytes[8192];
  alarm(STAYS);
  if (read(0, bytes, sizeof bytes) < 8) return 1;
  int channel = bytes[4];
  if (write(channel, "\1\0\0\0\0", 5) != 5) return 1;
  if (read(channel, bytes, sizeof bytes) < 5) return 1;
  if (write(channel, "\1\0\0\0\310", 5) != 5) return 1;
  for (;;) pause();
}

int main(int argc, char **argv) {
  char *error = NULL;
  size_t length;
  if (argc == 1) return serve();
  CHECK(argc == 3);
  tiswenor_options_t *options = tiswenor_options_create();
  tiswenor_options_set_server(options, argv[2]);
  tiswenor_options_set_channels(options, 1);
  tiswenor_t *db = tiswenor_open(options, argv[1], &error);
  DONE(error);
  CHECK(!tiswenor_get(db, NULL, "key", 3, &length, &error));
  FAILED(error, tiswenor_malformed);
  time_t begun = time(NULL);
  for (int i = 0; i < CALLS; i++) {
    CHECK(!tiswenor_get(db, NULL, "key", 3, &length, &error));
    CHECK(error && !strcmp(error, "255 Ended: the server takes no more requests"));
  }
  CHECK(time(NULL) - begun < AT_MOST);
  tiswenor_free(error);
  tiswenor_close(db);
  tiswenor_options_destroy(options);
  puts("stays: ok");
}
