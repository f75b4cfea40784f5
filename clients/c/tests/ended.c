/* Channels that the server ends: ended FOLDER. After a request in no form, and where memory is
   refused for a request or its answer (by no_memory.c, in the server's process). Each call comes
   back, the other channels go on, and the client ends what the server ended. An alarm ends this
   program where a call hangs. */
#define _GNU_SOURCE
#include <fcntl.h>
#include <stdatomic.h>
#include <sys/mman.h>
#include <sys/stat.h>
#include <unistd.h>

#include "check.h"
#include "transport.h"

enum { CHANNELS = 3, LARGE = 1000000, MOST_GRANTS = 60, ALL_GRANTS = -1, HALTED = 42 };

static atomic_int *left; /* what no_memory.c looks at */

static void find_file(void) {
  int file = open(getenv("NO_MEMORY"), O_RDWR);
  CHECK(file >= 0);
  left = mmap(NULL, sizeof *left, PROT_READ | PROT_WRITE, MAP_SHARED, file, 0);
  CHECK(left != MAP_FAILED);
  close(file);
}

static void store(unsigned char *to, size_t number) {
  for (int i = 0; i < 4; i++) to[i] = (unsigned char)(number >> 8 * i);
}

static struct transport *opened_below(const char *folder) {
  unsigned char opening[256] = {0}, *answer;
  size_t name = strlen(folder), length = 4 + 13 + 4 + name;
  int fault;
  store(opening, length - 4);
  store(opening + 8, CHANNELS);
  store(opening + 12, 1);
  opening[16] = 1;
  store(opening + 17, name);
  memcpy(opening + 21, folder, name);
  struct transport *transport = tiswenor_transport_open(NULL, CHANNELS, opening, length, &fault);
  CHECK(transport);
  CHECK(!tiswenor_transport_exchange(transport, 0, NULL, 0, &answer, &length) && !answer[0]);
  free(answer);
  return transport;
}

/* A request of one byte. The answer's status, or an error's number. */
static int asked(struct transport *transport, unsigned channel, unsigned char kind) {
  unsigned char frame[] = {1, 0, 0, 0, kind}, *answer;
  size_t length;
  int fault =
      tiswenor_transport_exchange(transport, channel, frame, sizeof frame, &answer, &length);
  if (fault) return fault;
  int status = answer[0];
  free(answer);
  return status;
}

static void malformed_requests_end(const char *folder) {
  struct transport *transport = opened_below(folder);
  for (unsigned channel = 0; channel < CHANNELS; channel++) {
    for (unsigned other = channel; other < CHANNELS; other++)
      CHECK(asked(transport, other, 8) == 0);
    CHECK(asked(transport, channel, 99) == tiswenor_malformed);
    CHECK(asked(transport, channel, 8) == tiswenor_ended);
  }
  tiswenor_transport_close(transport);
  transport = opened_below(folder);
  CHECK(asked(transport, 1, 99) == tiswenor_malformed);
  CHECK(asked(transport, 0, 8) == 0);
  tiswenor_transport_close(transport);
}

/* What a call came to: 0, or an error's number. */
static int is_done(char *error) {
  int number = tiswenor_error_number(error);
  tiswenor_free(error);
  return number;
}

/* Calls for which so many allocations are granted, and then none. */

static int put_large(tiswenor_t *db, int grants) {
  static char value[LARGE];
  char *error = NULL;
  *left = grants + 1;
  tiswenor_put(db, NULL, "large", 5, value, sizeof value, &error);
  *left = 0;
  return is_done(error);
}

static int get_small(tiswenor_t *db, int grants) {
  char *error = NULL;
  size_t length;
  *left = grants + 1;
  char *value = tiswenor_get(db, NULL, "small", 5, &length, &error);
  *left = 0;
  CHECK(error || (length == 1 && *value == 's'));
  tiswenor_free(value);
  return is_done(error);
}

static int scan(tiswenor_t *db, int grants) {
  char *error = NULL;
  tiswenor_iterator_t *iterator = tiswenor_create_iterator(db, NULL);
  *left = grants + 1;
  tiswenor_iter_seek_to_first(iterator);
  tiswenor_iter_get_error(iterator, &error);
  *left = 0;
  CHECK(tiswenor_iter_valid(iterator) || error);
  tiswenor_iter_destroy(iterator);
  return is_done(error);
}

/* The call with more and more memory, and after each one a call with all of it. How many channels
   were lost. */
static int lost_by(const char *folder, int (*call)(tiswenor_t *, int)) {
  int all_lost = 0, lost = 0;
  tiswenor_t *db = opened(folder, CHANNELS, 0);
  for (int grants = 0; grants < MOST_GRANTS; grants++) {
    int number = call(db, grants);
    int is_lost = number == tiswenor_unanswered || number == tiswenor_ended;
    CHECK(is_lost || number == 0 || number == tiswenor_out_of_memory || number == HALTED);
    lost += is_lost;
    CHECK(get_small(db, ALL_GRANTS) == (lost < CHANNELS ? 0 : tiswenor_ended));
    if (lost < CHANNELS && number != HALTED) continue;
    all_lost += lost;
    lost = 0;
    tiswenor_close(db);
    db = opened(folder, CHANNELS, 0);
  }
  tiswenor_close(db);
  return all_lost + lost;
}

int main(int argc, char **argv) {
  CHECK(argc == 2);
  alarm(300);
  find_file();
  mkdir(argv[1], 0777);
  malformed_requests_end(argv[1]);
  tiswenor_t *db = opened(argv[1], CHANNELS, 0);
  put(db, "small", "s");
  tiswenor_close(db);
  int gets = lost_by(argv[1], get_small), scans = lost_by(argv[1], scan);
  int puts_ = lost_by(argv[1], put_large);
  CHECK(gets > 0 && scans > 0 && puts_ > 0);
  printf("ended: ok (channels lost by gets %d, scans %d, puts %d)\n", gets, scans, puts_);
}
