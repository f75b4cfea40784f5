/* The calls of tiswenor.h: requests and answers in the bytes of docs/PROTOCOL.md, and channels that
   threads take in turn. */
#define _GNU_SOURCE
#include "tiswenor.h"

#include <dirent.h>
#include <errno.h>
#include <pthread.h>
#include <stdatomic.h>
#include <stdio.h>
#include <stdlib.h>
#include <string.h>
#include <sys/stat.h>

#include "between.h"
#include "transport.h"

enum { WRITE = 1, READ, SCAN, SNAPSHOT, RELEASE, COMPACT, COLLECT, STATISTICS };
enum { NOW = 0, AT_SNAPSHOT = 1 };
enum { DELETE = 0, PUT = 1 };
enum { CREATE_IF_MISSING = 1, ERROR_IF_EXISTS = 2 };

/* The length of a frame that has its length and its kind alone. */
enum { EMPTY = 5 };

/* No path of a file is longer on Linux. */
enum { LONGEST_PATH = 4095 };

/* How many pairs an iterator asks for first; after them it asks for whole pages. From the third
   page on it asks for the next one while its caller goes through the one that is there. */
enum { FIRST_PAGE = 16, PAGES_BEFORE_AHEAD = 3 };

/* Errors */

/* What *errptr is where there is no memory for a text: these tell what may be done and not told,
   and the first one stands for all others. tiswenor_free leaves them. */
static char lasting[][16] = {"1 OutOfMemory", "204 Unanswered", "254 BadAnswer", "255 Ended"};

enum { LASTING = sizeof lasting / sizeof *lasting };

static char *lasting_text(int number) {
  for (int i = 1; i < LASTING; i++)
    if (atoi(lasting[i]) == number) return lasting[i];
  return lasting[0];
}

static int is_lasting(const void *ptr) {
  for (int i = 0; i < LASTING; i++)
    if (ptr == lasting[i]) return 1;
  return 0;
}

static void set_error(char **errptr, int number, const char *name, const char *detail) {
  tiswenor_free(*errptr);
  const char *colon = *detail ? ": " : "";
  if (asprintf(errptr, "%d %s%s%s", number, name, colon, detail) < 0)
    *errptr = lasting_text(number);
}

int tiswenor_error_number(const char *error) { return error ? atoi(error) : 0; }

/* The letters of the call of the system that the server tells of here, on a file whose path has
   this front; 0 where there is none. */
static size_t call_at(const char *text, const char *front, size_t length) {
  static const char *const calls[] = {"append", "list",   "lock",   "make", "open",
                                      "read",   "remove", "rename", "sync", "write"};
  for (size_t i = 0; i < sizeof calls / sizeof *calls; i++) {
    size_t letters = strlen(calls[i]);
    if (strncmp(text, calls[i], letters) || text[letters] != ' ') continue;
    if (!strncmp(text + letters + 1, front, length)) return letters;
  }
  return 0;
}

/* The text goes on by a call, a blank, its file, a colon, a blank, and the system's reason. */
static void split_cause(const char *text, size_t letters, tiswenor_cause_t *cause) {
  const char *file = text + letters + 1, *end = NULL;
  for (const char *at = file; (at = strstr(at, ": ")); at++) end = at;
  if (!end) return;
  *cause = (tiswenor_cause_t){.call = text, .call_length = letters};
  cause->file = file;
  cause->file_length = (size_t)(end - file);
  cause->reason = end + 2;
  cause->reason_length = strlen(end + 2);
}

/* The file is in the database's folder, whose path stands behind the error's name. */
void tiswenor_error_cause(const char *error, tiswenor_cause_t *cause) {
  *cause = (tiswenor_cause_t){NULL, 0, NULL, 0, NULL, 0};
  const char *folder = error ? strstr(error, ": ") : NULL;
  const char *end = folder ? strstr(folder + 2, ": ") : NULL;
  for (const char *at = end; at && *at; at++) {
    if ((*at != ':' && *at != ';') || at[1] != ' ') continue;
    size_t letters = call_at(at + 2, folder + 2, (size_t)(end - folder) - 2);
    if (!letters) continue;
    split_cause(at + 2, letters, cause);
    return;
  }
}

void tiswenor_free(void *ptr) {
  if (!is_lasting(ptr)) free(ptr);
}

/* Requests: a frame that grows. `failed` is set where memory was refused, or it is too long. */

struct request {
  unsigned char *bytes;
  size_t length, room;
  int failed; /* an error's number */
  unsigned char own[256];
};

static void request_begin(struct request *request, unsigned char kind) {
  request->bytes = request->own;
  request->room = sizeof request->own;
  request->length = EMPTY;
  request->failed = 0;
  request->bytes[4] = kind;
}

static void request_end(struct request *request) {
  if (request->bytes != request->own) free(request->bytes);
}

/* Room for `more` bytes behind those that are there; NULL where it is refused. */
static unsigned char *request_grow(struct request *request, size_t more) {
  if (request->failed) return NULL;
  if (more > LONGEST_REQUEST || request->length + more > 4 + LONGEST_REQUEST) {
    request->failed = tiswenor_too_large;
    return NULL;
  }
  if (more > request->room - request->length) {
    size_t room = 2 * (request->length + more);
    int is_own = request->bytes == request->own;
    unsigned char *bytes = realloc(is_own ? NULL : request->bytes, room);
    if (!bytes) {
      request->failed = tiswenor_out_of_memory;
      return NULL;
    }
    if (is_own) memcpy(bytes, request->own, request->length);
    request->bytes = bytes;
    request->room = room;
  }
  unsigned char *at = request->bytes + request->length;
  request->length += more;
  return at;
}

static void store(unsigned char *to, uint64_t number, int bytes) {
  for (int i = 0; i < bytes; i++) to[i] = (unsigned char)(number >> 8 * i);
}

static uint64_t load(const unsigned char *from, int bytes) {
  uint64_t number = 0;
  for (int i = 0; i < bytes; i++) number |= (uint64_t)from[i] << 8 * i;
  return number;
}

static void add_number(struct request *request, uint64_t number, int bytes) {
  unsigned char *at = request_grow(request, (size_t)bytes);
  if (at) store(at, number, bytes);
}

/* A text, which `more` bytes follow. */
static void add_text(struct request *request, const char *text, size_t length, const char *more,
                     size_t more_length) {
  if (length > LONGEST_REQUEST) request->failed = tiswenor_too_large;
  unsigned char *at = request_grow(request, 4 + length + more_length);
  if (!at) return;
  store(at, length + more_length, 4);
  if (length) memcpy(at + 4, text, length);
  if (more_length) memcpy(at + 4 + length, more, more_length);
}

/* Databases: channels that threads take in turn. Who came first is served first. */

struct waiter {
  struct waiter *next;
  pthread_cond_t woken;
  int channel; /* that it is given; -1 before, and where no channel lives any more */
};

/* The folder that was opened: the path that it had then, and which one it is. */
struct place {
  char *path;
  dev_t device;
  ino_t number;
  int error; /* the system's, where it was not found */
};

struct tiswenor_t {
  struct transport *transport;
  char *name;
  struct place place;
  pthread_mutex_t lock; /* of what follows */
  struct waiter *first, **last;
  unsigned living;
  unsigned free_count;
  unsigned char free[MOST_CHANNELS];
  int ahead; /* a channel more, for a page that is asked for ahead; -1 for none */
  atomic_int is_ahead_used;
  int is_ahead_owed; /* of whoever uses it: an answer that nobody wants is to come first */
};

struct tiswenor_snapshot_t {
  uint64_t number;
};

struct tiswenor_options_t {
  unsigned char flags;
  int workers, channels;
  const char *server;
};

struct tiswenor_readoptions_t {
  const tiswenor_snapshot_t *snapshot;
};

struct tiswenor_writeoptions_t {
  uint8_t sync;
};

/* A free channel, or -1 where none lives any more. */
static int take(tiswenor_t *db) {
  int channel = -1;
  pthread_mutex_lock(&db->lock);
  if (db->free_count) {
    channel = db->free[--db->free_count];
  } else if (db->living) {
    struct waiter me = {NULL, PTHREAD_COND_INITIALIZER, -1};
    *db->last = &me;
    db->last = &me.next;
    while (me.channel < 0 && db->living) pthread_cond_wait(&me.woken, &db->lock);
    channel = me.channel;
    pthread_cond_destroy(&me.woken);
  }
  pthread_mutex_unlock(&db->lock);
  return channel;
}

static void give(tiswenor_t *db, int channel, int is_ended) {
  pthread_mutex_lock(&db->lock);
  struct waiter *waiter = db->first;
  if (is_ended) {
    db->living--;
    if (!db->living) /* none of these will get one */
      for (; waiter; waiter = waiter->next) pthread_cond_signal(&waiter->woken);
  } else if (waiter) {
    db->first = waiter->next;
    if (!db->first) db->last = &db->first;
    waiter->channel = channel;
    pthread_cond_signal(&waiter->woken);
  } else {
    db->free[db->free_count++] = (unsigned char)channel;
  }
  pthread_mutex_unlock(&db->lock);
}

/* Answers: what follows the status, and the memory of all. */
struct answer {
  unsigned char *memory;
  const unsigned char *at, *end;
};

static void set_ended(tiswenor_t *db, char **errptr) {
  char text[80];
  tiswenor_transport_tell_end(db->transport, text, sizeof text);
  set_error(errptr, tiswenor_ended, "Ended", text);
}

/* Names of the refusals that come without one. */
static const char *name_of(unsigned char status) {
  if (status == tiswenor_malformed) return "Malformed";
  return status == tiswenor_unanswered ? "Unanswered" : "Refused";
}

/* What a refusal means, for people. The Python package says the same. */
static const struct {
  unsigned char number;
  const char *text;
} reasons[] = {
    {1, "the server was refused memory"},
    {9, "a call of the system failed"},
    {11, "a file is there that was to be made"},
    {16, "a table has compressed blocks, which are not read"},
    {29, "its keys have an order of their own (a comparator)"},
    {35, "a compaction could not read a table"},
    {36, "a compaction could not write a table"},
    {40, "level 0 is full, and nobody compacts"},
    {41, "no sequence is left"},
    {42, "a write failed before: open the database again"},
    {43, "there is no such snapshot"},
    {46, "no file number is left"},
    {48, "no slot for a version is left"},
    {49, "no number for a version is left"},
    {50, "a version has no pin left"},
    {51, "LevelDB has writes there that are in its log alone"},
    {52, "another program has the database open"},
    {200, "the request has none of the protocol's forms"},
    {201, "an option is out of range"},
    {202, "there is no database, and create_if_missing is not set"},
    {203, "there is a database, and error_if_exists is set"},
    {204, "no memory for the request or its answer: whether it was done is not known"},
};

/* Refusals of bytes that are none of LevelDB's, and of files that do not go together. */
static int is_damage(unsigned char number) {
  static const char damages[] = {2,  3,  4,  5,  6,  7,  8,  10, 12, 13, 14, 15, 17, 18,
                                 19, 20, 21, 22, 23, 24, 25, 26, 27, 28, 30, 31, 32, 33,
                                 54, 55, 56, 57, 58, 59};
  return memchr(damages, number, sizeof damages) != NULL;
}

static const char *reason_of(unsigned char number) {
  if (is_damage(number)) return "files of the database are damaged";
  for (size_t i = 0; i < sizeof reasons / sizeof *reasons; i++)
    if (reasons[i].number == number) return reasons[i].text;
  return "";
}

static const unsigned char *next_text(struct answer *answer, size_t *length);

/* Which limit a request passed that was refused as too large. */
static void tell_excess(const struct request *request, char *text, size_t room) {
  enum {
    LONGEST_KEY = 4096,
    LONGEST_VALUE = 1048576,
    MOST_WRITES = 65536,
    LONGEST_BATCH = 4194304
  };
  static const char much[] = "%s: %zu of at most %d", more[] = "%s: more than %d";
  size_t writes = 0, total = 0, klen = 0;
  if (request->bytes[4] != WRITE) {
    snprintf(text, room, more, "bytes of an answer", LONGEST_ANSWER);
    return;
  }
  struct answer left = {NULL, request->bytes + EMPTY, request->bytes + request->length};
  while (left.at < left.end) {
    size_t vlen = 0;
    int is_put = *left.at++ == PUT;
    next_text(&left, &klen);
    if (is_put) next_text(&left, &vlen);
    writes++;
    total += klen + vlen;
    if (klen > LONGEST_KEY) {
      snprintf(text, room, much, "bytes of a key", klen, LONGEST_KEY);
      return;
    }
    if (vlen > LONGEST_VALUE) {
      snprintf(text, room, much, "bytes of a value", vlen, LONGEST_VALUE);
      return;
    }
  }
  if (writes > MOST_WRITES)
    snprintf(text, room, much, "writes of a batch", writes, MOST_WRITES);
  else if (total > LONGEST_BATCH)
    snprintf(text, room, much, "bytes of a batch's keys and values", total, LONGEST_BATCH);
  else
    snprintf(text, room, more, "bytes of a batch's keys and values", LONGEST_BATCH);
}

/* The lines that a refusal has behind its name, as one: "; " stands between two. NULL where there
   are none, or for want of memory. */
static char *told_lines(const unsigned char *lines, const unsigned char *end) {
  while (end > lines && end[-1] == '\n') end--;
  char *told = lines < end ? malloc(2 * (size_t)(end - lines) + 1) : NULL, *to = told;
  if (!told) return NULL;
  for (; lines < end; lines++) {
    if (*lines == '\n') *to++ = ';';
    *to++ = *lines == '\n' ? ' ' : (char)*lines;
  }
  *to = 0;
  return told;
}

/* The request is the one that was refused; NULL for the opening. What the server tells of the
   refusal stands in the place of what its number means. */
static void set_refused(tiswenor_t *db, const struct request *request, const unsigned char *answer,
                        size_t length, char **errptr) {
  char name[64], excess[128], *detail = NULL;
  const unsigned char *end = answer + length, *line = memchr(answer + 1, '\n', length - 1);
  size_t letters = (size_t)((line ? line : end) - answer) - 1;
  if (letters >= sizeof name) letters = sizeof name - 1;
  memcpy(name, answer + 1, letters);
  name[letters] = 0;
  if (!letters) strcpy(name, name_of(answer[0]));
  char *told = line ? told_lines(line + 1, end) : NULL;
  const char *reason = told ? told : reason_of(answer[0]);
  if (answer[0] == tiswenor_too_large && request) {
    tell_excess(request, excess, sizeof excess);
    reason = excess;
  }
  if (answer[0] == tiswenor_unanswered)
    set_error(errptr, answer[0], name, reason);
  else if (asprintf(&detail, "%s%s%s", db->name, *reason ? ": " : "", reason) < 0)
    set_error(errptr, answer[0], name, reason);
  else
    set_error(errptr, answer[0], name, detail);
  free(detail);
  free(told);
}

static void set_fault(tiswenor_t *db, int fault, char **errptr) {
  if (fault == tiswenor_ended)
    set_ended(db, errptr);
  else if (fault == tiswenor_bad_answer)
    set_error(errptr, fault, "BadAnswer", "the answer has none of the protocol's forms");
  else if (fault == tiswenor_too_large)
    set_error(errptr, fault, "TooLarge", "bytes of a request: more than 8388608");
  else
    set_error(errptr, fault, "OutOfMemory", "");
}

/* Judges what a channel gave. Whether the call is done; if not, the answer has no memory. */
static int is_done(tiswenor_t *db, const struct request *request, int fault, unsigned char *bytes,
                   size_t length, struct answer *answer, char **errptr) {
  answer->memory = NULL;
  if (fault) {
    set_fault(db, fault, errptr);
    return 0;
  }
  if (bytes[0]) {
    set_refused(db, request, bytes, length, errptr);
    free(bytes);
    return 0;
  }
  answer->memory = bytes;
  answer->at = bytes + 1;
  answer->end = bytes + length;
  return 1;
}

/* Sends a frame on a channel that is free. An error's number, or 0. A thread that is cancelled goes
   on until its channel is given back. */
static int exchange(tiswenor_t *db, const struct request *request, unsigned char **bytes,
                    size_t *length) {
  int before, fault = tiswenor_ended;
  pthread_setcancelstate(PTHREAD_CANCEL_DISABLE, &before);
  int channel = take(db);
  if (channel >= 0) {
    fault = tiswenor_transport_exchange(db->transport, (unsigned)channel, request->bytes,
                                        request->length, bytes, length);
    give(db, channel, is_end(fault, *bytes));
  }
  pthread_setcancelstate(before, NULL);
  return fault;
}

/* Whether this process was forked from the one that opened the database: it is closed here. */
static int is_closed(tiswenor_t *db, char **errptr) {
  int is_forked = tiswenor_transport_is_forked(db->transport);
  if (is_forked) set_error(errptr, tiswenor_closed, "Closed", "in a forked process");
  return is_forked;
}

/* Sends a request, and waits for its answer. Whether it is done. */
static int ask(tiswenor_t *db, struct request *request, struct answer *answer, char **errptr) {
  unsigned char *bytes = NULL;
  size_t length = 0;
  int fault = request->failed;
  answer->memory = NULL;
  if (is_closed(db, errptr)) return 0;
  if (!fault) {
    store(request->bytes, request->length - 4, 4);
    fault = exchange(db, request, &bytes, &length);
  }
  return is_done(db, request, fault, bytes, length, answer, errptr);
}

/* The same, and ends the request. */
static int ask_once(tiswenor_t *db, struct request *request, struct answer *answer, char **errptr) {
  int done = ask(db, request, answer, errptr);
  request_end(request);
  return done;
}

/* An answer in none of the protocol's forms: frees it. */
static void set_bad_answer(struct answer *answer, char **errptr) {
  free(answer->memory);
  answer->memory = NULL;
  set_error(errptr, tiswenor_bad_answer, "BadAnswer",
            "the answer has none of the protocol's forms");
}

/* The text at the answer's front, behind which it goes on; NULL where there is none. */
static const unsigned char *next_text(struct answer *answer, size_t *length) {
  if (answer->end - answer->at < 4) return NULL;
  size_t count = load(answer->at, 4);
  const unsigned char *text = answer->at + 4;
  if ((size_t)(answer->end - text) < count) return NULL;
  answer->at = text + count;
  *length = count;
  return text;
}

/* A request without parts, whose answer is `count` numbers. */
static int ask_numbers(tiswenor_t *db, unsigned char kind, uint64_t *numbers, int count,
                       char **errptr) {
  struct request request;
  struct answer answer;
  request_begin(&request, kind);
  if (!ask_once(db, &request, &answer, errptr)) return 0;
  if (answer.end - answer.at != 8 * count) {
    set_bad_answer(&answer, errptr);
    return 0;
  }
  for (int i = 0; i < count; i++) numbers[i] = load(answer.at + 8 * i, 8);
  free(answer.memory);
  return 1;
}

/* Opening and closing */

/* The folder of this name, as it is found from where the process works now. */
static struct place place_of(const char *name) {
  struct stat its = {0};
  struct place place = {realpath(name, NULL), 0, 0, 0};
  if (!place.path || stat(place.path, &its)) place.error = errno;
  place.device = its.st_dev;
  place.number = its.st_ino;
  return place;
}

static tiswenor_t *new_database(struct transport *transport, const char *name, unsigned channels,
                                int ahead) {
  tiswenor_t *db = calloc(1, sizeof *db);
  char *own_name = strdup(name);
  if (!db || !own_name) {
    free(own_name);
    free(db);
    return NULL;
  }
  db->transport = transport;
  db->name = own_name;
  db->place = place_of(name);
  db->ahead = ahead;
  db->last = &db->first;
  db->living = db->free_count = channels;
  for (unsigned i = 0; i < channels; i++) db->free[i] = (unsigned char)i;
  pthread_mutex_init(&db->lock, NULL);
  return db;
}

/* The opening request, whose first channel the transport sets. */
static void opening_request(struct request *request, const tiswenor_options_t *options,
                            unsigned channels, const char *name) {
  request_begin(request, 0);
  request->length = 4;
  add_number(request, 0, 4);
  add_number(request, channels, 4);
  add_number(request, (uint64_t)options->workers, 4);
  add_number(request, options->flags, 1);
  add_text(request, name, strlen(name), NULL, 0);
  if (!request->failed) store(request->bytes, request->length - 4, 4);
}

/* Why a server was not started: the system's reason is of its program. */
static void set_unstarted(int fault, const char *server, const char *reason, char **errptr) {
  char *detail = NULL;
  const char *program = tiswenor_transport_program(server);
  if (fault != tiswenor_no_server)
    set_error(errptr, fault, "OutOfMemory", "");
  else if (asprintf(&detail, "%s: %s", program, reason) < 0)
    set_error(errptr, fault, "NoServer", reason);
  else
    set_error(errptr, fault, "NoServer", detail);
  free(detail);
}

static const tiswenor_options_t usual_options = {0, 1, 4, NULL};

tiswenor_t *tiswenor_open(const tiswenor_options_t *options, const char *name, char **errptr) {
  if (!options) options = &usual_options;
  if (options->channels < 1 || options->channels > MOST_CHANNELS || options->workers < 0 ||
      options->workers > 16) {
    set_error(errptr, tiswenor_bad_opening, "BadOpening", "channels or workers");
    return NULL;
  }
  if (strlen(name) > LONGEST_PATH) {
    set_error(errptr, tiswenor_bad_opening, "BadOpening", "a path that is too long");
    return NULL;
  }
  if (options->flags & CREATE_IF_MISSING)
    (void)!mkdir(name, 0777); /* it is there, or else the server refuses */
  struct request request;
  int has_ahead = tiswenor_transport_works_beside && options->channels < MOST_CHANNELS;
  unsigned channels = (unsigned)(options->channels + has_ahead);
  opening_request(&request, options, channels, name);
  int fault = request.failed;
  struct transport *transport = NULL;
  if (!fault)
    transport =
        tiswenor_transport_open(options->server, channels, request.bytes, request.length, &fault);
  if (!transport) set_unstarted(fault, options->server, strerror(errno), errptr);
  request_end(&request);
  if (!transport) return NULL;
  tiswenor_t *db = new_database(transport, name, (unsigned)options->channels,
                                has_ahead ? options->channels : -1);
  if (!db) {
    tiswenor_transport_close(transport);
    set_error(errptr, tiswenor_out_of_memory, "OutOfMemory", "");
    return NULL;
  }
  unsigned char *bytes = NULL;
  size_t length = 0;
  struct answer answer;
  fault = tiswenor_transport_exchange(transport, 0, NULL, 0, &bytes, &length);
  if (!is_done(db, NULL, fault, bytes, length, &answer, errptr)) {
    tiswenor_close(db);
    return NULL;
  }
  free(answer.memory);
  return db;
}

void tiswenor_close(tiswenor_t *db) {
  if (!db) return;
  if (!tiswenor_transport_is_forked(db->transport)) pthread_mutex_destroy(&db->lock);
  tiswenor_transport_close(db->transport);
  free(db->place.path);
  free(db->name);
  free(db);
}

/* Writes */

struct tiswenor_writebatch_t {
  struct request request; /* a write request, whose length is set as it is sent */
};

static void add_put(struct request *request, const char *key, size_t keylen, const char *val,
                    size_t vallen) {
  size_t before = request->length;
  add_number(request, PUT, 1);
  add_text(request, key, keylen, NULL, 0);
  add_text(request, val, vallen, NULL, 0);
  if (request->failed) request->length = before;
}

static void add_delete(struct request *request, const char *key, size_t keylen) {
  size_t before = request->length;
  add_number(request, DELETE, 1);
  add_text(request, key, keylen, NULL, 0);
  if (request->failed) request->length = before;
}

static void write_once(tiswenor_t *db, struct request *request, char **errptr) {
  struct answer answer;
  if (ask_once(db, request, &answer, errptr)) free(answer.memory);
}

void tiswenor_put(tiswenor_t *db, const tiswenor_writeoptions_t *options, const char *key,
                  size_t keylen, const char *val, size_t vallen, char **errptr) {
  (void)options;
  struct request request;
  request_begin(&request, WRITE);
  add_put(&request, key, keylen, val, vallen);
  write_once(db, &request, errptr);
}

void tiswenor_delete(tiswenor_t *db, const tiswenor_writeoptions_t *options, const char *key,
                     size_t keylen, char **errptr) {
  (void)options;
  struct request request;
  request_begin(&request, WRITE);
  add_delete(&request, key, keylen);
  write_once(db, &request, errptr);
}

void tiswenor_write(tiswenor_t *db, const tiswenor_writeoptions_t *options,
                    tiswenor_writebatch_t *batch, char **errptr) {
  (void)options;
  struct answer answer;
  if (batch->request.length == EMPTY && !batch->request.failed) return;
  if (ask(db, &batch->request, &answer, errptr)) free(answer.memory);
}

tiswenor_writebatch_t *tiswenor_writebatch_create(void) {
  tiswenor_writebatch_t *batch = malloc(sizeof *batch);
  if (batch) request_begin(&batch->request, WRITE);
  return batch;
}

void tiswenor_writebatch_destroy(tiswenor_writebatch_t *batch) {
  if (batch) request_end(&batch->request);
  free(batch);
}

void tiswenor_writebatch_clear(tiswenor_writebatch_t *batch) {
  batch->request.length = EMPTY;
  batch->request.failed = 0;
}

void tiswenor_writebatch_put(tiswenor_writebatch_t *batch, const char *key, size_t klen,
                             const char *val, size_t vlen) {
  add_put(&batch->request, key, klen, val, vlen);
}

void tiswenor_writebatch_delete(tiswenor_writebatch_t *batch, const char *key, size_t klen) {
  add_delete(&batch->request, key, klen);
}

void tiswenor_writebatch_append(tiswenor_writebatch_t *destination,
                                const tiswenor_writebatch_t *source) {
  size_t length = source->request.length - EMPTY;
  unsigned char *at = request_grow(&destination->request, length);
  if (at) memcpy(at, source->request.bytes + EMPTY, length);
  if (source->request.failed) destination->request.failed = source->request.failed;
}

void tiswenor_writebatch_iterate(const tiswenor_writebatch_t *batch, void *state,
                                 void (*put)(void *, const char *k, size_t klen, const char *v,
                                             size_t vlen),
                                 void (*deleted)(void *, const char *k, size_t klen)) {
  const struct request *request = &batch->request;
  struct answer writes = {NULL, request->bytes + EMPTY, request->bytes + request->length};
  while (writes.at < writes.end) {
    size_t klen = 0, vlen = 0;
    int is_put = *writes.at++ == PUT;
    const char *key = (const char *)next_text(&writes, &klen);
    if (is_put) {
      const char *value = (const char *)next_text(&writes, &vlen);
      put(state, key, klen, value, vlen);
    } else {
      deleted(state, key, klen);
    }
  }
}

/* Reads */

static void add_when(struct request *request, const tiswenor_readoptions_t *options) {
  const tiswenor_snapshot_t *snapshot = options ? options->snapshot : NULL;
  add_number(request, snapshot ? AT_SNAPSHOT : NOW, 1);
  if (snapshot) add_number(request, snapshot->number, 8);
}

char *tiswenor_get(tiswenor_t *db, const tiswenor_readoptions_t *options, const char *key,
                   size_t keylen, size_t *vallen, char **errptr) {
  struct request request;
  struct answer answer;
  *vallen = 0;
  request_begin(&request, READ);
  add_when(&request, options);
  add_text(&request, key, keylen, NULL, 0);
  if (!ask_once(db, &request, &answer, errptr)) return NULL;
  if (answer.end - answer.at == 1 && *answer.at == 0) {
    free(answer.memory);
    return NULL;
  }
  size_t length;
  const unsigned char *value = NULL;
  if (answer.end - answer.at > 1 && *answer.at++ == 1) value = next_text(&answer, &length);
  if (!value || answer.at != answer.end) {
    set_bad_answer(&answer, errptr);
    return NULL;
  }
  memmove(answer.memory, value, length); /* the answer's memory is the caller's from here on */
  *vallen = length;
  return (char *)answer.memory;
}

static void free_values(size_t count, char **values, size_t *vallens) {
  for (size_t i = 0; i < count; i++) {
    free(values[i]);
    values[i] = NULL;
    vallens[i] = 0;
  }
}

/* Copies the values of an answer. An error's number, or 0. */
static int take_values(struct answer *answer, size_t count, char **values, size_t *vallens) {
  for (size_t i = 0; i < count; i++) {
    if (answer->at == answer->end || *answer->at > 1) return tiswenor_bad_answer;
    if (*answer->at++ == 0) continue;
    size_t length;
    const unsigned char *value = next_text(answer, &length);
    if (!value) return tiswenor_bad_answer;
    values[i] = malloc(length + 1);
    if (!values[i]) return tiswenor_out_of_memory;
    memcpy(values[i], value, length);
    vallens[i] = length;
  }
  return answer->at == answer->end ? 0 : tiswenor_bad_answer;
}

void tiswenor_get_many(tiswenor_t *db, const tiswenor_readoptions_t *options, size_t count,
                       const char *const *keys, const size_t *keylens, char **values,
                       size_t *vallens, char **errptr) {
  struct request request;
  struct answer answer;
  for (size_t i = 0; i < count; i++) values[i] = NULL, vallens[i] = 0;
  if (!count) return;
  request_begin(&request, READ);
  add_when(&request, options);
  for (size_t i = 0; i < count; i++) add_text(&request, keys[i], keylens[i], NULL, 0);
  if (!ask_once(db, &request, &answer, errptr)) return;
  int fault = take_values(&answer, count, values, vallens);
  if (fault) {
    free_values(count, values, vallens);
    set_fault(db, fault, errptr);
  }
  free(answer.memory);
}

/* Snapshots */

const tiswenor_snapshot_t *tiswenor_create_snapshot(tiswenor_t *db, char **errptr) {
  tiswenor_snapshot_t *snapshot = malloc(sizeof *snapshot);
  if (!snapshot) {
    set_fault(db, tiswenor_out_of_memory, errptr);
    return NULL;
  }
  uint64_t numbers[2]; /* its own, and its sequence */
  if (!ask_numbers(db, SNAPSHOT, numbers, 2, errptr)) {
    free(snapshot);
    return NULL;
  }
  snapshot->number = numbers[0];
  return snapshot;
}

void tiswenor_release_snapshot(tiswenor_t *db, const tiswenor_snapshot_t *snapshot) {
  if (!snapshot) return;
  struct request request;
  struct answer answer;
  char *error = NULL; /* there is nothing to do about it */
  request_begin(&request, RELEASE);
  add_number(&request, snapshot->number, 8);
  if (ask_once(db, &request, &answer, &error)) free(answer.memory);
  tiswenor_free(error);
  free((void *)snapshot);
}

/* Iterators */

/* A part of what is before an iterator's page: with its pairs, or else unread, from `low` on and
   below `high`. */
struct part {
  struct answer page;
  struct key low, high;
};

struct tiswenor_iterator_t {
  tiswenor_t *db;
  tiswenor_readoptions_t options;
  const tiswenor_snapshot_t *own; /* that it releases */
  struct answer page;
  const unsigned char *key, *value; /* in the page; NULL where it is not valid */
  size_t klen, vlen;
  int is_last;      /* no page follows this one */
  int is_ahead;     /* the next page was asked for, on the channel that is for it */
  unsigned pages;   /* since it was sent somewhere */
  size_t turned;    /* how many pairs of the page are behind it, with the one at which it stands */
  uint32_t *starts; /* where the first of these begin in the page's memory */
  size_t start_count, start_room;
  int has_parts; /* the parts are those before the page, the last one at the end */
  struct part *parts;
  size_t part_count, part_room;
  char *error;
};

tiswenor_iterator_t *tiswenor_create_iterator(tiswenor_t *db,
                                              const tiswenor_readoptions_t *options) {
  tiswenor_iterator_t *iterator = calloc(1, sizeof *iterator);
  if (!iterator) return NULL;
  iterator->db = db;
  if (options && options->snapshot)
    iterator->options.snapshot = options->snapshot;
  else
    iterator->options.snapshot = iterator->own = tiswenor_create_snapshot(db, &iterator->error);
  return iterator;
}

static void leave_page(tiswenor_iterator_t *iterator) {
  free(iterator->page.memory);
  iterator->page = (struct answer){NULL, NULL, NULL};
  iterator->key = NULL;
  iterator->turned = iterator->start_count = 0;
}

static void free_part(struct part *part) {
  free(part->page.memory);
  free(part->low.bytes);
  free(part->high.bytes);
}

static void leave_parts(tiswenor_iterator_t *iterator) {
  while (iterator->part_count) free_part(&iterator->parts[--iterator->part_count]);
  iterator->has_parts = 0;
}

/* Asks for the page from the first key on that is not below `from` and `more`. */
static void page_request(struct request *request, const tiswenor_iterator_t *iterator,
                         const unsigned char *from, size_t length, const char *more,
                         size_t more_length) {
  request_begin(request, SCAN);
  add_when(request, &iterator->options);
  add_text(request, (const char *)from, length, more, more_length);
  add_number(request, 0, 1);
  add_number(request, iterator->pages ? 0 : FIRST_PAGE, 4);
}

/* The last key of a page; NULL for a page in another form. */
static const unsigned char *last_key(struct answer page, size_t *length) {
  const unsigned char *key = NULL;
  while (page.at < page.end) {
    size_t vlen;
    key = next_text(&page, length);
    if (!key || !next_text(&page, &vlen)) return NULL;
  }
  return key;
}

/* What came on the channel for pages ahead: 0, or an error's number. A channel that is ended stays
   in use for ever. */
static int receive_ahead(tiswenor_t *db, unsigned char **bytes, size_t *length) {
  int before;
  pthread_setcancelstate(PTHREAD_CANCEL_DISABLE, &before);
  int fault =
      tiswenor_transport_exchange(db->transport, (unsigned)db->ahead, NULL, 0, bytes, length);
  pthread_setcancelstate(before, NULL);
  return is_end(fault, *bytes) ? tiswenor_ended : fault;
}

/* Whether the channel for pages ahead is this thread's: no other iterator has it, and nothing is to
   come on it. No one waits for it. */
static int take_ahead(tiswenor_t *db) {
  int unused = 0;
  if (db->ahead < 0 || !atomic_compare_exchange_strong(&db->is_ahead_used, &unused, 1)) return 0;
  if (db->is_ahead_owed) {
    unsigned char *bytes = NULL;
    size_t length;
    int fault = receive_ahead(db, &bytes, &length);
    free(bytes);
    if (fault == tiswenor_ended) return 0;
    db->is_ahead_owed = 0;
  }
  return 1;
}

/* Asks for the page behind the one that was just read. */
static void ask_ahead(tiswenor_iterator_t *iterator) {
  tiswenor_t *db = iterator->db;
  struct request request;
  size_t length;
  int before;
  if (iterator->is_last || iterator->pages < PAGES_BEFORE_AHEAD) return;
  const unsigned char *key = last_key(iterator->page, &length);
  if (!key || !take_ahead(db)) return;
  page_request(&request, iterator, key, length, "", 1); /* with the zero byte of the text */
  if (request.failed) {
    db->is_ahead_used = 0;
  } else {
    store(request.bytes, request.length - 4, 4);
    pthread_setcancelstate(PTHREAD_CANCEL_DISABLE, &before);
    iterator->is_ahead =
        tiswenor_transport_send(db->transport, (unsigned)db->ahead, request.bytes, request.length);
    pthread_setcancelstate(before, NULL);
  }
  request_end(&request);
}

/* Takes the page that was asked for ahead. Whether it is there; if not, it is to be asked for. */
static int has_ahead(tiswenor_iterator_t *iterator) {
  tiswenor_t *db = iterator->db;
  unsigned char *bytes = NULL;
  size_t length = 0;
  if (!iterator->is_ahead || tiswenor_transport_is_forked(db->transport)) return 0;
  iterator->is_ahead = 0;
  int fault = receive_ahead(db, &bytes, &length);
  if (fault != tiswenor_ended) db->is_ahead_used = 0;
  if (fault || bytes[0]) {
    free(bytes);
    return 0;
  }
  iterator->page = (struct answer){bytes, bytes + 1, bytes + length};
  return 1;
}

/* Leaves what was asked for ahead, which may come when it will. */
static void leave_ahead(tiswenor_iterator_t *iterator) {
  if (!iterator->is_ahead || tiswenor_transport_is_forked(iterator->db->transport)) return;
  iterator->is_ahead = 0;
  iterator->db->is_ahead_owed = 1;
  iterator->db->is_ahead_used = 0;
}

static void leave_all(tiswenor_iterator_t *iterator) {
  leave_page(iterator);
  leave_parts(iterator);
  leave_ahead(iterator);
  iterator->pages = 0;
}

void tiswenor_iter_destroy(tiswenor_iterator_t *iterator) {
  if (!iterator) return;
  leave_all(iterator);
  if (iterator->own) tiswenor_release_snapshot(iterator->db, iterator->own);
  free(iterator->starts);
  free(iterator->parts);
  tiswenor_free(iterator->error);
  free(iterator);
}

/* Goes to the next pair of the page. Whether there is one. */
static int turn(tiswenor_iterator_t *iterator) {
  struct answer *page = &iterator->page;
  iterator->key = NULL;
  if (page->at == page->end) return 0;
  const unsigned char *key = next_text(page, &iterator->klen);
  iterator->value = key ? next_text(page, &iterator->vlen) : NULL;
  if (!iterator->value) {
    set_bad_answer(page, &iterator->error);
    leave_page(iterator);
    return 0;
  }
  iterator->key = key;
  iterator->turned++;
  return 1;
}

/* Goes to the first pair of the page that is there. */
static void begin_page(tiswenor_iterator_t *iterator) {
  struct answer *page = &iterator->page;
  if (page->at == page->end || *page->at > 1 || (*page->at == 0 && page->end - page->at == 1)) {
    set_bad_answer(page, &iterator->error);
    return leave_page(iterator);
  }
  iterator->is_last = *page->at++;
  iterator->pages++;
  leave_parts(iterator);
  ask_ahead(iterator);
  turn(iterator);
}

static void ask_page(tiswenor_iterator_t *iterator, struct request *request) {
  if (ask_once(iterator->db, request, &iterator->page, &iterator->error)) begin_page(iterator);
}

void tiswenor_iter_seek(tiswenor_iterator_t *iterator, const char *k, size_t klen) {
  struct request request;
  if (!iterator->options.snapshot) return; /* it was refused: the error stays */
  tiswenor_free(iterator->error);
  iterator->error = NULL;
  iterator->pages = 0;
  page_request(&request, iterator, (const unsigned char *)k, klen, NULL, 0);
  leave_all(iterator); /* k may lie in it */
  ask_page(iterator, &request);
}

void tiswenor_iter_seek_to_first(tiswenor_iterator_t *iterator) {
  tiswenor_iter_seek(iterator, "", 0);
}

void tiswenor_iter_next(tiswenor_iterator_t *iterator) {
  struct request request;
  const unsigned char *last = iterator->key;
  size_t length = iterator->klen;
  if (!last || turn(iterator) || iterator->error || iterator->is_last) return;
  page_request(&request, iterator, last, length, "", 1); /* with the zero byte of the text */
  leave_page(iterator);
  if (!has_ahead(iterator)) return ask_page(iterator, &request);
  request_end(&request);
  begin_page(iterator);
}

/* Backward. The server shows the first pairs from a key on. So a page of last pairs is looked for:
   where the pairs of a part do not end with its first page, one from a key between is asked for.
   What is read on the way is kept, and shown when its turn comes. */

static int fails(tiswenor_iterator_t *iterator, int fault) {
  set_fault(iterator->db, fault, &iterator->error);
  return 0;
}

/* A copy of a key, behind which `more` zero bytes stand. */
static int copy_key(tiswenor_iterator_t *iterator, const unsigned char *key, size_t length,
                    size_t more, struct key *copy) {
  copy->bytes = calloc(length + more + 1, 1);
  if (!copy->bytes) return fails(iterator, tiswenor_out_of_memory);
  if (length) memcpy(copy->bytes, key, length);
  copy->length = length + more;
  return 1;
}

/* Adds a part behind the others. It is freed where there is no memory for it. */
static int add_part(tiswenor_iterator_t *iterator, struct part part) {
  if (iterator->part_count == iterator->part_room) {
    size_t room = 2 * iterator->part_room + 8;
    struct part *parts = realloc(iterator->parts, room * sizeof *parts);
    if (!parts) {
      free_part(&part);
      return fails(iterator, tiswenor_out_of_memory);
    }
    iterator->parts = parts;
    iterator->part_room = room;
  }
  iterator->parts[iterator->part_count++] = part;
  return 1;
}

/* Adds an unread part: the pairs behind a key that are below another, if there can be any. */
static int add_unread(tiswenor_iterator_t *iterator, struct key last, struct key high) {
  struct part part = {{NULL, NULL, NULL}, {NULL, 0}, {NULL, 0}};
  if (high.length == last.length + 1 && !high.bytes[last.length]) return 1;
  if (!copy_key(iterator, last.bytes, last.length, 1, &part.low)) return 0;
  if (!copy_key(iterator, high.bytes, high.length, 0, &part.high)) {
    free_part(&part);
    return 0;
  }
  return add_part(iterator, part);
}

/* Whether a page has the form of one of this part: its keys are read where they are shown, but the
   last one, by which the search goes on, now. */
static int is_of_part(struct answer page, struct key low, struct key high, struct key *last) {
  if (page.at == page.end || *page.at > 1) return 0;
  int is_last = *page.at++;
  last->bytes = (unsigned char *)last_key(page, &last->length);
  if (!last->bytes) return is_last && page.at == page.end;
  return !is_before(*last, low) && (!high.bytes || is_before(*last, high));
}

/* Asks for the first pairs of a part. Its last key has no bytes where it has none. */
static int ask_part(tiswenor_iterator_t *iterator, struct key low, struct key high,
                    struct answer *page, struct key *last) {
  struct request request;
  request_begin(&request, SCAN);
  add_when(&request, &iterator->options);
  add_text(&request, (const char *)low.bytes, low.length, NULL, 0);
  add_number(&request, high.bytes != NULL, 1);
  if (high.bytes) add_text(&request, (const char *)high.bytes, high.length, NULL, 0);
  add_number(&request, iterator->pages ? 0 : FIRST_PAGE, 4);
  if (!ask_once(iterator->db, &request, page, &iterator->error)) return 0;
  if (is_of_part(*page, low, high, last)) return 1;
  set_bad_answer(page, &iterator->error);
  return 0;
}

/* Asks for a page of a part from a key between `last` and `high` on, as near to `high` as there are
   pairs. Both are the caller's. That key is `low`, whose bytes have room for it. */
static int ask_between(tiswenor_iterator_t *iterator, struct key last, struct key *low,
                       struct key *high, struct answer *page, struct key *next) {
  size_t same = (size_t)-1;
  unsigned tries = 0, end;
  for (;; free(page->memory)) {
    size_t now = alike(last, *high, &end);
    if (now != same) tries = 0, same = now;
    low->length = between(last, *high, ++tries, low->bytes);
    if (high->bytes && !is_before(*low, *high)) return fails(iterator, tiswenor_bad_answer);
    if (!ask_part(iterator, *low, *high, page, next)) return 0;
    if (next->bytes) return 1;
    free(high->bytes); /* the pairs behind `last` are before `low` */
    high->bytes = NULL;
    if (!copy_key(iterator, low->bytes, low->length, 0, high)) {
      free(page->memory);
      return 0;
    }
  }
}

/* The last pairs of a part whose first page does not end it; what is before them becomes parts. The
   page is kept as one. */
static int narrow(tiswenor_iterator_t *iterator, struct key *high, struct answer *page,
                  struct key *last) {
  struct key behind, low, next = {NULL, 0};
  struct part read = {*page, {NULL, 0}, {NULL, 0}};
  if (!copy_key(iterator, last->bytes, last->length, 0, &behind)) {
    free(page->memory);
    return 0;
  }
  int done = add_part(iterator, read) && copy_key(iterator, NULL, 0, behind.length + 1, &low);
  if (done) {
    done = ask_between(iterator, behind, &low, high, page, &next);
    if (done && !add_unread(iterator, behind, low)) {
      free(page->memory);
      done = 0;
    }
    free(low.bytes);
  }
  free(behind.bytes);
  *last = next;
  return done;
}

/* The last pairs of an unread part, if it has any. */
static int last_of(tiswenor_iterator_t *iterator, struct part *part, struct answer *page) {
  struct key last = {NULL, 0};
  if (!ask_part(iterator, part->low, part->high, page, &last)) return 0;
  while (*page->at == 0)
    if (!narrow(iterator, &part->high, page, &last)) return 0;
  return 1;
}

/* Finds where pairs of the page begin, up to this one; or to the end, where it has fewer. */
static int find_starts(tiswenor_iterator_t *iterator, size_t count) {
  struct answer page = iterator->page;
  size_t length;
  page.at = page.memory + 2;
  if (iterator->start_count) page.at = page.memory + iterator->starts[--iterator->start_count];
  while (iterator->start_count < count && page.at < page.end) {
    if (iterator->start_count == iterator->start_room) {
      size_t room = 2 * iterator->start_room + 64;
      uint32_t *starts = realloc(iterator->starts, room * sizeof *starts);
      if (!starts) return fails(iterator, tiswenor_out_of_memory);
      iterator->starts = starts;
      iterator->start_room = room;
    }
    iterator->starts[iterator->start_count++] = (uint32_t)(page.at - page.memory);
    if (!next_text(&page, &length) || !next_text(&page, &length))
      return fails(iterator, tiswenor_bad_answer);
  }
  return 1;
}

/* Stands at the pair of the page before which there are so many. */
static void stand(tiswenor_iterator_t *iterator, size_t before) {
  iterator->page.at = iterator->page.memory + iterator->starts[before];
  iterator->turned = before;
  turn(iterator);
}

/* Stands at the last pair of a page that was read backward. */
static void end_page(tiswenor_iterator_t *iterator, struct answer page) {
  iterator->page = page;
  iterator->is_last = 0; /* what is behind it was left */
  iterator->pages++;
  if (find_starts(iterator, (size_t)-1)) return stand(iterator, iterator->start_count - 1);
  leave_page(iterator);
}

/* Goes to the last pair of the parts before the page. It is not valid where there is none. */
static void turn_back(tiswenor_iterator_t *iterator) {
  leave_page(iterator);
  leave_ahead(iterator);
  while (iterator->part_count) {
    struct part part = iterator->parts[--iterator->part_count];
    struct answer page = part.page;
    part.page.memory = NULL;
    int done = page.memory || last_of(iterator, &part, &page);
    free_part(&part);
    if (!done) return;
    if (page.end - page.at > 1) return end_page(iterator, page);
    free(page.memory);
  }
}

void tiswenor_iter_seek_to_last(tiswenor_iterator_t *iterator) {
  static const struct part all = {{NULL, NULL, NULL}, {NULL, 0}, {NULL, 0}};
  if (!iterator->options.snapshot) return; /* it was refused: the error stays */
  tiswenor_free(iterator->error);
  iterator->error = NULL;
  leave_all(iterator);
  iterator->has_parts = 1;
  if (add_part(iterator, all)) turn_back(iterator);
}

/* The parts before the page are one, of all keys below its first one. */
static int begin_parts(tiswenor_iterator_t *iterator) {
  struct part part = {{NULL, NULL, NULL}, {NULL, 0}, {NULL, 0}};
  struct answer page = iterator->page;
  size_t length;
  page.at = page.memory + 2;
  const unsigned char *first = next_text(&page, &length);
  if (iterator->has_parts) return 1;
  if (!first) return fails(iterator, tiswenor_bad_answer);
  if (!copy_key(iterator, first, length, 0, &part.high)) return 0;
  iterator->has_parts = 1;
  return add_part(iterator, part);
}

void tiswenor_iter_prev(tiswenor_iterator_t *iterator) {
  if (!iterator->key) return;
  if (iterator->turned > 1) {
    if (find_starts(iterator, iterator->turned - 1)) return stand(iterator, iterator->turned - 2);
  } else if (begin_parts(iterator)) {
    return turn_back(iterator);
  }
  leave_page(iterator);
}

uint8_t tiswenor_iter_valid(const tiswenor_iterator_t *iterator) { return iterator->key != NULL; }

const char *tiswenor_iter_key(const tiswenor_iterator_t *iterator, size_t *klen) {
  *klen = iterator->klen;
  return (const char *)iterator->key;
}

const char *tiswenor_iter_value(const tiswenor_iterator_t *iterator, size_t *vlen) {
  *vlen = iterator->vlen;
  return (const char *)iterator->value;
}

void tiswenor_iter_get_error(const tiswenor_iterator_t *iterator, char **errptr) {
  if (!iterator->error) return;
  tiswenor_free(*errptr);
  *errptr = strdup(iterator->error);
  if (!*errptr) *errptr = lasting_text(tiswenor_error_number(iterator->error));
}

/* Compaction and sizes */

void tiswenor_compact(tiswenor_t *db, char **errptr) { ask_numbers(db, COMPACT, NULL, 0, errptr); }

void tiswenor_compact_range(tiswenor_t *db, const char *start_key, size_t start_key_len,
                            const char *limit_key, size_t limit_key_len, char **errptr) {
  struct request request;
  struct answer answer;
  request_begin(&request, COMPACT);
  add_text(&request, start_key, start_key ? start_key_len : 0, NULL, 0);
  add_number(&request, limit_key != NULL, 1);
  if (limit_key) add_text(&request, limit_key, limit_key_len, NULL, 0);
  if (!ask_once(db, &request, &answer, errptr)) return;
  if (answer.end != answer.at) return set_bad_answer(&answer, errptr);
  free(answer.memory);
}

uint64_t tiswenor_collect(tiswenor_t *db, char **errptr) {
  uint64_t removed = 0;
  ask_numbers(db, COLLECT, &removed, 1, errptr);
  return removed;
}

void tiswenor_statistics(tiswenor_t *db, tiswenor_statistics_t *statistics, char **errptr) {
  uint64_t numbers[1 + 2 * tiswenor_levels];
  memset(statistics, 0, sizeof *statistics);
  if (!ask_numbers(db, STATISTICS, numbers, 1 + 2 * tiswenor_levels, errptr)) return;
  statistics->last_sequence = numbers[0];
  for (int level = 0; level < tiswenor_levels; level++) {
    statistics->files[level] = numbers[1 + 2 * level];
    statistics->bytes[level] = numbers[2 + 2 * level];
  }
}

uint64_t tiswenor_statistics_tables(const tiswenor_statistics_t *statistics) {
  uint64_t tables = 0;
  for (int level = 0; level < tiswenor_levels; level++) tables += statistics->files[level];
  return tables;
}

uint64_t tiswenor_statistics_bytes(const tiswenor_statistics_t *statistics) {
  uint64_t bytes = 0;
  for (int level = 0; level < tiswenor_levels; level++) bytes += statistics->bytes[level];
  return bytes;
}

uint64_t tiswenor_statistics_mean(const tiswenor_statistics_t *statistics) {
  uint64_t tables = tiswenor_statistics_tables(statistics);
  return tables ? tiswenor_statistics_bytes(statistics) / tables : 0;
}

static char *stats_text(const tiswenor_statistics_t *statistics) {
  enum { LINE = 64 };
  char *text = malloc((tiswenor_levels + 1) * LINE);
  if (!text) return NULL;
  char *at = text + sprintf(text, "Level    Files        Bytes\n");
  for (int level = 0; level < tiswenor_levels; level++)
    at += snprintf(at, LINE, "%5d %8llu %12llu\n", level,
                   (unsigned long long)statistics->files[level],
                   (unsigned long long)statistics->bytes[level]);
  return text;
}

char *tiswenor_property_value(tiswenor_t *db, const char *propname) {
  static const char files_at[] = "leveldb.num-files-at-level";
  tiswenor_statistics_t statistics;
  char *error = NULL, *text = NULL;
  tiswenor_statistics(db, &statistics, &error);
  if (error) {
    tiswenor_free(error);
    return NULL;
  }
  if (!strcmp(propname, "leveldb.stats")) return stats_text(&statistics);
  if (strncmp(propname, files_at, sizeof files_at - 1)) return NULL;
  const char *level = propname + sizeof files_at - 1;
  if (level[0] < '0' || level[0] > '6' || level[1]) return NULL;
  int made = asprintf(&text, "%llu", (unsigned long long)statistics.files[level[0] - '0']);
  return made < 0 ? NULL : text;
}

/* The folder */

/* Whether these letters are the decimal digits of a number that fits 64 bits. */
static int is_number(const char *letters, size_t length) {
  uint64_t number = 0;
  for (size_t i = 0; i < length; i++) {
    unsigned digit = (unsigned char)letters[i] - (unsigned)'0';
    if (digit > 9 || number > (UINT64_MAX - digit) / 10) return 0;
    number = 10 * number + digit;
  }
  return length > 0;
}

/* Whether a name is a number, and then this ending. */
static int is_number_before(const char *ending, const char *name) {
  size_t all = strlen(name), last = strlen(ending);
  return all > last && !strcmp(name + all - last, ending) && is_number(name, all - last);
}

/* Whether a name is this beginning, and then a number. */
static int is_number_behind(const char *beginning, const char *name) {
  size_t first = strlen(beginning);
  return !strncmp(name, beginning, first) && is_number(name + first, strlen(name + first));
}

/* Counts a file of this name and size. */
static void count_file(tiswenor_folder_t *folder, const char *name, uint64_t size) {
  folder->bytes += size;
  if (is_number_before(".ldb", name) || is_number_before(".sst", name)) {
    if (!folder->tables || size < folder->least_table) folder->least_table = size;
    folder->tables++;
    folder->table_bytes += size;
  } else if (is_number_behind("MANIFEST-", name)) {
    folder->manifests++;
  } else {
    folder->others++;
  }
}

/* Counts the regular files that are there. 0, or the system's number of an error. */
static int count_files(DIR *files, tiswenor_folder_t *folder) {
  struct dirent *file;
  struct stat its;
  while (errno = 0, file = readdir(files)) {
    if (!fstatat(dirfd(files), file->d_name, &its, 0)) {
      if (S_ISREG(its.st_mode)) count_file(folder, file->d_name, (uint64_t)its.st_size);
    } else if (errno != ENOENT) {
      break;
    }
  }
  return errno;
}

/* The same of the folder at this place, if it is still there. */
static int count_place(const struct place *place, tiswenor_folder_t *folder) {
  struct stat its;
  if (place->error) return place->error;
  DIR *files = opendir(place->path);
  if (!files) return errno;
  int error = fstat(dirfd(files), &its) ? errno : 0;
  if (!error && (its.st_dev != place->device || its.st_ino != place->number)) error = ENOENT;
  if (!error) error = count_files(files, folder);
  closedir(files);
  return error;
}

/* The system's reason why a folder was not listed. */
static void set_unlisted(tiswenor_t *db, int error, char **errptr) {
  char *detail = NULL;
  if (asprintf(&detail, "%s: %s", db->name, strerror(error)) < 0)
    set_error(errptr, tiswenor_device, "Device", strerror(error));
  else
    set_error(errptr, tiswenor_device, "Device", detail);
  free(detail);
}

void tiswenor_folder(tiswenor_t *db, tiswenor_folder_t *folder, char **errptr) {
  tiswenor_folder_t none = {0, 0, 0, 0, 0, 0};
  int before;
  *folder = none;
  if (is_closed(db, errptr)) return;
  pthread_setcancelstate(PTHREAD_CANCEL_DISABLE, &before); /* until what is opened is closed */
  int error = count_place(&db->place, folder);
  pthread_setcancelstate(before, NULL);
  if (!error) return;
  *folder = none;
  set_unlisted(db, error, errptr);
}

/* Options */

tiswenor_options_t *tiswenor_options_create(void) {
  tiswenor_options_t *options = malloc(sizeof *options);
  if (options) *options = usual_options;
  return options;
}

void tiswenor_options_destroy(tiswenor_options_t *options) { free(options); }

static void set_flag(tiswenor_options_t *options, int flag, uint8_t to) {
  options->flags = (unsigned char)(to ? options->flags | flag : options->flags & ~flag);
}

void tiswenor_options_set_create_if_missing(tiswenor_options_t *options, uint8_t to) {
  set_flag(options, CREATE_IF_MISSING, to);
}

void tiswenor_options_set_error_if_exists(tiswenor_options_t *options, uint8_t to) {
  set_flag(options, ERROR_IF_EXISTS, to);
}

void tiswenor_options_set_workers(tiswenor_options_t *options, int workers) {
  options->workers = workers;
}

void tiswenor_options_set_channels(tiswenor_options_t *options, int channels) {
  options->channels = channels;
}

void tiswenor_options_set_server(tiswenor_options_t *options, const char *program) {
  options->server = program;
}

tiswenor_readoptions_t *tiswenor_readoptions_create(void) {
  return calloc(1, sizeof(tiswenor_readoptions_t));
}

void tiswenor_readoptions_destroy(tiswenor_readoptions_t *options) { free(options); }

void tiswenor_readoptions_set_snapshot(tiswenor_readoptions_t *options,
                                       const tiswenor_snapshot_t *snapshot) {
  options->snapshot = snapshot;
}

tiswenor_writeoptions_t *tiswenor_writeoptions_create(void) {
  return calloc(1, sizeof(tiswenor_writeoptions_t));
}

void tiswenor_writeoptions_destroy(tiswenor_writeoptions_t *options) { free(options); }

void tiswenor_writeoptions_set_sync(tiswenor_writeoptions_t *options, uint8_t to) {
  options->sync = to;
}

int tiswenor_major_version(void) { return tiswenor_major; }
int tiswenor_minor_version(void) { return tiswenor_minor; }
