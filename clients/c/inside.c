/* The server inside this process: the object of the same program, of which the build renames six
   symbols (`program.sh`): what it calls as main, read, write, _exit, signal and pthread_create is
   here. A number from FIRST on is a channel in memory; the system gives no such number.

   The server's `main`, and a thread that it makes for each channel, run a loop: read a request,
   answer it. Where such a loop stands in `read`, its thread changes to a small stack of its own and
   sleeps there. A call lends the loop its own thread: it changes to the loop's stack, and back
   where the loop has answered and reads again. So a call costs two changes of stack, and no change
   of threads. To the server that is a thread that was in `read` for some time: it holds no lock
   there, and keeps no address of what belongs to a thread. A loop that is at its end, after the
   statuses 200 and 204, and as the database is closed, is left to its own thread.

   Threads that read from no channel, those that compact, are left alone. */
#define _GNU_SOURCE
#include <errno.h>
#include <pthread.h>
#include <setjmp.h>
#include <signal.h>
#include <stdatomic.h>
#include <stdint.h>
#include <stdio.h>
#include <stdlib.h>
#include <string.h>
#include <sys/mman.h>
#include <unistd.h>

#include "stacks.h"
#include "transport.h"

#pragma GCC visibility push(hidden)
int tiswenor_inside_main(int argc, char **argv);
ssize_t tiswenor_inside_read(int descriptor, void *bytes, size_t length);
ssize_t tiswenor_inside_write(int descriptor, const void *bytes, size_t length);
_Noreturn void tiswenor_inside_exit(int status);
void (*tiswenor_inside_signal(int number, void (*handler)(int)))(int);
int tiswenor_inside_pthread_create(pthread_t *thread, const pthread_attr_t *attributes,
                                   void *(*run)(void *), void *state);
#pragma GCC visibility pop

enum { STANDARD_INPUT = 0, FIRST = 1 << 30, DATABASES = 64 };

/* The stack on which a channel's thread sleeps: with a page below it that nothing may touch. */
enum { BED = 1 << 16, GUARD = 4096 };

/* Channels that threads use at the same time share no line of the processor's cache. */
enum { LINE = 64 };

struct channel {
  _Alignas(LINE) struct transport *transport;
  const unsigned char *request; /* what is still to be read of it */
  size_t request_left;
  unsigned char head[4]; /* the answer: its length, and what follows it */
  size_t head_length;
  unsigned char *body; /* NULL where there is no memory for it */
  size_t body_length, body_want;
  unsigned char status; /* its first byte */
  int is_answered;
  int is_lent;         /* a call's thread runs the loop */
  atomic_int is_over;  /* it gets no more requests */
  struct stack loop;   /* where the loop stands */
  struct stack caller; /* where the call stands that lends its thread */
  struct stack bed;    /* where the loop's own thread sleeps */
  unsigned char *bed_memory;
  pthread_cond_t woken; /* with the transport's lock */
  int is_woken;         /* the loop's own thread is to go on; under that lock */
};

struct transport {
  pthread_t server;
  unsigned forks;  /* of the process, when it was opened */
  unsigned number; /* among all that are open */
  unsigned channels;
  const unsigned char *opening; /* what is still to be read of it */
  size_t opening_left;
  pthread_mutex_t lock; /* of what follows */
  pthread_cond_t changed;
  int is_opening_answered;
  int is_ended;    /* the server's `main` */
  unsigned asleep; /* how many channels' threads are */
  struct channel channel[MOST_CHANNELS];
};

/* All that are open: channel c of number n is the descriptor FIRST + MOST_CHANNELS * n + c. A
   transport stays for as long as a thread of its server may name it. */
static _Atomic(struct transport *) all[DATABASES];

/* The transport whose server's `main` this thread runs, and where that began. */
static _Thread_local struct transport *mine;
static _Thread_local jmp_buf *began;

/* The channel whose loop a call on this thread runs. */
static _Thread_local struct channel *lent_to;

/* How many times this process was forked from another one, since this library is in it. */
static unsigned forks;
static pthread_once_t once = PTHREAD_ONCE_INIT;

static void count_fork(void) { forks++; }
static void watch_forks(void) { pthread_atfork(NULL, NULL, count_fork); }

int tiswenor_transport_is_forked(const struct transport *transport) {
  return transport->forks != forks;
}

static struct channel *channel_of(int descriptor) {
  if (descriptor < FIRST || descriptor >= FIRST + MOST_CHANNELS * DATABASES) return NULL;
  struct transport *transport = all[(descriptor - FIRST) / MOST_CHANNELS];
  return transport ? &transport->channel[(descriptor - FIRST) % MOST_CHANNELS] : NULL;
}

/* The loop's own thread sleeps until the loop is at its end, and goes on with it. */
static void sleep_to_the_end(void *state) {
  struct channel *channel = state;
  struct transport *transport = channel->transport;
  struct stack *loop = &channel->loop;
  stack_begun(loop);
  pthread_mutex_lock(&transport->lock);
  transport->asleep++;
  pthread_cond_signal(&transport->changed);
  while (!channel->is_woken) pthread_cond_wait(&channel->woken, &transport->lock);
  pthread_mutex_unlock(&transport->lock);
  stack_leave(&channel->bed, loop, loop);
}

/* The loop stands still: until a call lends it a thread, or its own thread is to end it. */
static void stand(struct channel *channel) {
  struct stack *to = channel->is_lent ? &channel->caller : &channel->bed;
  channel->is_lent = 0;
  stack_leave(&channel->loop, to, &channel->caller);
  if (!channel->is_over) return;
  pthread_mutex_lock(&channel->transport->lock);
  channel->transport->asleep--;
  pthread_cond_signal(&channel->transport->changed);
  pthread_mutex_unlock(&channel->transport->lock);
}

/* Moves bytes from a front that shrinks. */
static size_t move(void *to, size_t room, const unsigned char **from, size_t *left) {
  size_t count = *left < room ? *left : room;
  if (count) memcpy(to, *from, count);
  *from += count;
  *left -= count;
  return count;
}

/* What the server calls as `read`: 0 at a channel's end. */
ssize_t tiswenor_inside_read(int descriptor, void *bytes, size_t length) {
  if (descriptor == STANDARD_INPUT && mine)
    return (ssize_t)move(bytes, length, &mine->opening, &mine->opening_left);
  struct channel *channel = channel_of(descriptor);
  if (!channel) return read(descriptor, bytes, length);
  while (!channel->request_left && !channel->is_over) stand(channel);
  return (ssize_t)move(bytes, length, &channel->request, &channel->request_left);
}

static void begin_body(struct channel *channel) {
  const unsigned char *head = channel->head;
  channel->body_want =
      head[0] | (size_t)head[1] << 8 | (size_t)head[2] << 16 | (size_t)head[3] << 24;
  channel->body = channel->body_want <= LONGEST_ANSWER ? malloc(channel->body_want + 1) : NULL;
}

static void opening_is_answered(struct transport *transport) {
  pthread_mutex_lock(&transport->lock);
  transport->is_opening_answered = 1;
  pthread_cond_signal(&transport->changed);
  pthread_mutex_unlock(&transport->lock);
}

/* What the server calls as `write`: it takes all. */
ssize_t tiswenor_inside_write(int descriptor, const void *bytes, size_t length) {
  struct channel *channel = channel_of(descriptor);
  if (!channel) return write(descriptor, bytes, length);
  const unsigned char *at = bytes;
  size_t left = length;
  if (channel->head_length < sizeof channel->head) {
    size_t room = sizeof channel->head - channel->head_length;
    channel->head_length += move(channel->head + channel->head_length, room, &at, &left);
    if (channel->head_length == sizeof channel->head) begin_body(channel);
  }
  size_t room = channel->body_want - channel->body_length;
  if (left > room) left = room;
  if (left && !channel->body_length) channel->status = *at;
  if (left && channel->body) memcpy(channel->body + channel->body_length, at, left);
  channel->body_length += left;
  if (channel->head_length < sizeof channel->head || channel->body_length < channel->body_want)
    return (ssize_t)length;
  channel->is_answered = 1;
  if (!channel->is_lent)
    opening_is_answered(channel->transport);
  else if (is_last(channel->status))
    stand(channel);
  return (ssize_t)length;
}

/* What the server calls as `_exit`: its thread goes on behind its `main`. */
_Noreturn void tiswenor_inside_exit(int status) {
  if (began) longjmp(*began, 1);
  fprintf(stderr, "tiswenor: the server ended with status %d\n", status);
  abort();
}

/* What the server calls as `signal`, to ignore SIGPIPE: that is the process's own to say. */
void (*tiswenor_inside_signal(int number, void (*handler)(int)))(int) {
  (void)number;
  return handler;
}

/* A thread of the server: what it runs. */
struct start {
  void *(*run)(void *);
  void *state;
};

/* Gives a thread back that was lent. Not inlined: another thread may return from it. */
static __attribute__((noinline)) void give_back(void) {
  if (lent_to) stand(lent_to);
}

/* A loop that ends on a thread that was lent, without an answer, goes on to its end on its own. */
static void *run_thread(void *state) {
  struct start start = *(struct start *)state;
  free(state);
  void *result = start.run(start.state);
  give_back();
  return result;
}

/* What the server calls as `pthread_create`. Signals of the host are not handled in its threads,
   also where a thread of the host makes them. */
int tiswenor_inside_pthread_create(pthread_t *thread, const pthread_attr_t *attributes,
                                   void *(*run)(void *), void *state) {
  sigset_t every, before;
  struct start *start = malloc(sizeof *start);
  if (!start) return EAGAIN;
  *start = (struct start){run, state};
  sigfillset(&every);
  pthread_sigmask(SIG_SETMASK, &every, &before);
  int error = pthread_create(thread, attributes, run_thread, start);
  pthread_sigmask(SIG_SETMASK, &before, NULL);
  if (error) free(start);
  return error;
}

static void *serve(void *state) {
  struct transport *transport = state;
  jmp_buf here;
  mine = transport;
  began = &here;
  if (!setjmp(here)) tiswenor_inside_main(0, NULL);
  began = NULL;
  mine = NULL;
  pthread_mutex_lock(&transport->lock);
  transport->is_ended = 1;
  pthread_cond_signal(&transport->changed);
  pthread_mutex_unlock(&transport->lock);
  return NULL;
}

/* Gives the transport a number. Whether there was one. */
static int enrol(struct transport *transport) {
  for (unsigned number = 0; number < DATABASES; number++) {
    struct transport *none = NULL;
    transport->number = number;
    if (atomic_compare_exchange_strong(&all[number], &none, transport)) return 1;
  }
  errno = EMFILE;
  return 0;
}

/* Makes the bed of a channel's thread. Whether there was memory. */
static int make_bed(struct channel *channel) {
  enum { ALL = GUARD + BED };
  void *memory = mmap(NULL, ALL, PROT_READ | PROT_WRITE, MAP_PRIVATE | MAP_ANONYMOUS, -1, 0);
  if (memory == MAP_FAILED) return 0;
  channel->bed_memory = memory;
  if (mprotect(memory, GUARD, PROT_NONE)) return 0;
  stack_make(&channel->bed, channel->bed_memory + GUARD, BED, sleep_to_the_end, channel);
  return 1;
}

static void dispose(struct transport *transport) {
  for (unsigned i = 0; i < transport->channels; i++) {
    struct channel *channel = &transport->channel[i];
    if (channel->bed.at) stack_unmake(&channel->bed);
    if (channel->bed_memory) munmap(channel->bed_memory, GUARD + BED);
    pthread_cond_destroy(&channel->woken);
  }
  pthread_mutex_destroy(&transport->lock);
  pthread_cond_destroy(&transport->changed);
  free(transport);
}

/* A transport of which no thread knows; NULL where there is no memory for it. */
static struct transport *make(unsigned channels, const unsigned char *opening, size_t length) {
  size_t size = (sizeof(struct transport) + length + LINE - 1) / LINE * LINE;
  struct transport *transport = aligned_alloc(LINE, size);
  if (!transport) return NULL;
  memset(transport, 0, size);
  transport->forks = forks;
  transport->channels = channels;
  transport->opening = memcpy(transport + 1, opening, length);
  transport->opening_left = length;
  pthread_mutex_init(&transport->lock, NULL);
  pthread_cond_init(&transport->changed, NULL);
  int is_made = 1;
  for (unsigned i = 0; i < channels; i++) {
    struct channel *channel = &transport->channel[i];
    channel->transport = transport;
    pthread_cond_init(&channel->woken, NULL);
    is_made = is_made && make_bed(channel);
  }
  if (is_made) return transport;
  dispose(transport);
  return NULL;
}

static void set_first(unsigned char *opening, unsigned number) {
  unsigned first = FIRST + MOST_CHANNELS * number;
  for (int i = 0; i < 4; i++) opening[4 + i] = (unsigned char)(first >> 8 * i);
}

const char *tiswenor_transport_program(const char *server) {
  (void)server;
  return "the server inside";
}

struct transport *tiswenor_transport_open(const char *server, unsigned channels,
                                          unsigned char *opening, size_t length, int *fault) {
  (void)server;
  pthread_once(&once, watch_forks);
  *fault = tiswenor_out_of_memory;
  struct transport *transport = make(channels, opening, length);
  if (!transport) return NULL;
  *fault = tiswenor_no_server;
  if (enrol(transport)) {
    set_first((unsigned char *)(transport + 1), transport->number);
    errno = tiswenor_inside_pthread_create(&transport->server, NULL, serve, transport);
    if (!errno) return transport;
    all[transport->number] = NULL;
  }
  dispose(transport);
  return NULL;
}

/* The channel gets no more requests: its own thread goes on, to the loop's end. */
static void part_with(struct channel *channel) {
  channel->is_over = 1;
  pthread_mutex_lock(&channel->transport->lock);
  channel->is_woken = 1;
  pthread_cond_signal(&channel->woken);
  pthread_mutex_unlock(&channel->transport->lock);
}

/* Waits for the answer to the opening; where it is done, also until each channel's loop stands. */
static void wait_for_opening(struct transport *transport) {
  struct channel *first = &transport->channel[0];
  pthread_mutex_lock(&transport->lock);
  while (!transport->is_ended && (!transport->is_opening_answered ||
                                  (!first->status && transport->asleep < transport->channels)))
    pthread_cond_wait(&transport->changed, &transport->lock);
  pthread_mutex_unlock(&transport->lock);
}

/* Lends the channel's loop this thread, until it has answered the frame. */
static void lend(struct channel *channel, const unsigned char *frame, size_t length) {
  channel->request = frame;
  channel->request_left = length;
  channel->is_lent = 1;
  lent_to = channel;
  stack_leave(&channel->caller, &channel->loop, &channel->loop);
  lent_to = NULL;
  channel->request_left = 0;
}

/* Takes the answer out of the channel. An error's number, or 0. */
static int take_answer(struct channel *channel, unsigned char **answer, size_t *answer_length) {
  int fault = 0;
  if (!channel->is_answered)
    fault = tiswenor_ended;
  else if (channel->body_want < 1 || channel->body_want > LONGEST_ANSWER)
    fault = tiswenor_bad_answer;
  else if (!channel->body)
    fault = is_last(channel->status) ? tiswenor_ended : tiswenor_out_of_memory;
  if (fault) free(channel->body);
  *answer = fault ? NULL : channel->body;
  *answer_length = channel->body_want;
  channel->is_answered = 0;
  channel->head_length = channel->body_length = channel->body_want = 0;
  channel->body = NULL;
  return fault;
}

int tiswenor_transport_exchange(struct transport *transport, unsigned number,
                                const unsigned char *frame, size_t length, unsigned char **answer,
                                size_t *answer_length) {
  struct channel *channel = &transport->channel[number];
  if (channel->is_over) return tiswenor_ended;
  if (frame)
    lend(channel, frame, length);
  else
    wait_for_opening(transport);
  int fault = take_answer(channel, answer, answer_length);
  if (frame && is_end(fault, *answer)) part_with(channel);
  return fault;
}

const int tiswenor_transport_works_beside = 0;

int tiswenor_transport_send(struct transport *transport, unsigned number,
                            const unsigned char *frame, size_t length) {
  (void)transport, (void)number, (void)frame, (void)length;
  return 0;
}

void tiswenor_transport_tell_end(struct transport *transport, char *text, size_t room) {
  (void)transport;
  snprintf(text, room, "the server takes no more requests");
}

void tiswenor_transport_close(struct transport *transport) {
  if (tiswenor_transport_is_forked(transport)) return; /* the server's threads are not here */
  for (unsigned i = 0; i < transport->channels; i++) part_with(&transport->channel[i]);
  pthread_join(transport->server, NULL);
  pthread_mutex_lock(&transport->lock);
  while (transport->asleep) pthread_cond_wait(&transport->changed, &transport->lock);
  pthread_mutex_unlock(&transport->lock);
  all[transport->number] = NULL;
  dispose(transport);
}
