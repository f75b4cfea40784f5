/* The server as a process of its own, with a socket pair for each channel. What the host does to
   its memory cannot reach the store. */
#define _GNU_SOURCE
#include <errno.h>
#include <fcntl.h>
#include <poll.h>
#include <pthread.h>
#include <sched.h>
#include <signal.h>
#include <stdatomic.h>
#include <stdint.h>
#include <stdio.h>
#include <stdlib.h>
#include <string.h>
#include <sys/ioctl.h>
#include <sys/mman.h>
#include <sys/socket.h>
#include <sys/syscall.h>
#include <sys/wait.h>
#include <time.h>
#include <unistd.h>

#include "tiswenor.h"
#include "transport.h"

extern char **environ;

/* The numbers of the server's descriptors: its standard three, and then the channels. */
enum { FIRST = 3 };

/* How much of an answer is read at once, at first. Only one answer is on its way at a time. */
enum { READ_AT_ONCE = 4096 };

/* How long a server may take for its end, as it finishes the merge at hand, and how long a call
   waits at most to tell how it ended; both in milliseconds. */
enum { UNTIL_END = 60000, UNTIL_TOLD = 1000 };

/* Numbers of descriptors that the server is to have, while it is started. */
struct starting {
  int request, report; /* its standard input; where it tells its number, or why it is not there */
  int channels[MOST_CHANNELS];
};

struct transport {
  struct transport *next, **link; /* of all that are open */
  pid_t server;
  int process;  /* a descriptor that stands for the server; -1 where the system has none */
  int is_apart; /* the server is no child of this process */
  int is_forked;
  int is_starting; /* it has what follows, besides its sockets */
  struct starting starting;
  atomic_long told_until; /* when no call waits any more for how it ended; 0 before one has */
  unsigned channels;
  int sockets[MOST_CHANNELS];
};

/* A process that is forked has copies of all descriptors. It closes them, so that they do not keep
   the servers alive, and uses none. */

static pthread_mutex_t all_lock = PTHREAD_MUTEX_INITIALIZER;
static struct transport *all;
static pthread_once_t once = PTHREAD_ONCE_INIT;

static void lock_all(void) { pthread_mutex_lock(&all_lock); }
static void unlock_all(void) { pthread_mutex_unlock(&all_lock); }

static void close_some(const int *descriptors, unsigned count) {
  for (unsigned i = 0; i < count; i++)
    if (descriptors[i] >= 0) close(descriptors[i]);
}

static void close_starting(struct transport *transport) {
  if (!transport->is_starting) return;
  transport->is_starting = 0;
  close_some(&transport->starting.request, 1);
  close_some(&transport->starting.report, 1);
  close_some(transport->starting.channels, transport->channels);
}

static void forget_all(void) {
  for (struct transport *it = all; it; it = it->next) {
    it->is_forked = 1;
    close_starting(it);
    close_some(it->sockets, it->channels);
    close_some(&it->process, 1);
  }
  all = NULL;
  pthread_mutex_unlock(&all_lock);
}

static void watch_forks(void) { pthread_atfork(lock_all, unlock_all, forget_all); }

static void enrol(struct transport *transport) {
  transport->next = all;
  transport->link = &all;
  if (all) all->link = &transport->next;
  all = transport;
}

static void leave(struct transport *transport) {
  lock_all();
  *transport->link = transport->next;
  if (transport->next) transport->next->link = transport->link;
  unlock_all();
}

int tiswenor_transport_is_forked(const struct transport *transport) { return transport->is_forked; }

/* Starting */

/* A copy of a descriptor, above those that the server will have. The given one is closed. */
static int moved(int descriptor, unsigned channels) {
  int copy = fcntl(descriptor, F_DUPFD_CLOEXEC, FIRST + (int)channels + 1);
  close(descriptor);
  return copy;
}

/* Makes a socket pair for each channel. On success the server's ends are above those that it will
   have; else all are closed. */
static int make_channels(struct transport *transport) {
  int *theirs = transport->starting.channels;
  for (unsigned i = 0; i < transport->channels; i++) {
    int pair[2];
    if (!socketpair(AF_UNIX, SOCK_STREAM | SOCK_CLOEXEC, 0, pair)) {
      transport->sockets[i] = pair[0];
      theirs[i] = moved(pair[1], transport->channels);
      if (theirs[i] >= 0) continue;
      close(pair[0]);
    }
    close_some(transport->sockets, i);
    close_some(theirs, i);
    return 0;
  }
  return 1;
}

/* A pipe that has the opening request and its end. -1 where there is none. */
static int make_request(const unsigned char *opening, size_t length, unsigned channels) {
  int ends[2];
  if (pipe2(ends, O_CLOEXEC | O_NONBLOCK)) return -1;
  ssize_t written = write(ends[1], opening, length);
  close(ends[1]);
  if (written == (ssize_t)length && !fcntl(ends[0], F_SETFL, 0)) return moved(ends[0], channels);
  close(ends[0]);
  return -1;
}

/* A pipe by which the server's process reports: its end to read from; -1 where there is none. */
static int make_report(struct transport *transport) {
  int ends[2];
  transport->starting.report = -1;
  if (pipe2(ends, O_CLOEXEC)) return -1;
  transport->starting.report = moved(ends[1], transport->channels);
  if (transport->starting.report >= 0) return ends[0];
  close(ends[0]);
  return -1;
}

/* What starts a server. The process that becomes it, and the one between it and this one, share
   this process's memory until the server's program runs, as vfork's do: a copy of a large one takes
   long. So they call the system, and nothing else. */
struct start {
  const struct transport *transport;
  const char *program;
  char **environment;
  unsigned char *stacks; /* for the two of them */
};

enum { STACK = 65536 };

/* What the server's process reports. */
struct report {
  pid_t server;
  int error;
};

#define ON_BORROWED_MEMORY \
  __attribute__((noinline, no_sanitize_address, no_sanitize_thread, no_sanitize_undefined))

/* The server has a session of its own, so that signals from the terminal do not reach it, and no
   signal is handled, or is blocked or ignored that this process blocks or ignores. But that of a
   limit on the size of files is ignored: a write beyond it is refused, and does not end the server. */
ON_BORROWED_MEMORY static void leave_signals(void) {
  static const int usual[] = {SIGHUP, SIGINT, SIGQUIT, SIGTERM, SIGPIPE, SIGCHLD};
  struct sigaction now, none;
  sigset_t no_signals;
  memset(&none, 0, sizeof none);
  none.sa_handler = SIG_DFL;
  for (int number = 1; number < NSIG; number++)
    if (!sigaction(number, NULL, &now) && now.sa_handler != SIG_DFL && now.sa_handler != SIG_IGN)
      sigaction(number, &none, NULL);
  for (size_t i = 0; i < sizeof usual / sizeof *usual; i++) sigaction(usual[i], &none, NULL);
  none.sa_handler = SIG_IGN;
  sigaction(SIGXFSZ, &none, NULL);
  setsid();
  sigemptyset(&no_signals);
  sigprocmask(SIG_SETMASK, &no_signals, NULL);
}

/* The server's process has its own descriptors, standard error, and the one by which it reports.
   Whether all was done. */
ON_BORROWED_MEMORY static int take_descriptors(const struct transport *transport) {
  const struct starting *given = &transport->starting;
  int above = FIRST + (int)transport->channels;
  if (dup2(given->request, 0) < 0) return 0;
  int nowhere = open("/dev/null", O_WRONLY | O_CLOEXEC);
  if (nowhere < 0 || (nowhere == 1 ? fcntl(1, F_SETFD, 0) : dup2(nowhere, 1)) < 0) return 0;
  for (unsigned i = 0; i < transport->channels; i++)
    if (dup2(given->channels[i], FIRST + (int)i) < 0) return 0;
  if (dup3(given->report, above, O_CLOEXEC) < 0) return 0;
#if defined SYS_close_range
  syscall(SYS_close_range, above + 1, ~0U, 0);
#endif
  return 1;
}

/* A process that runs this on a stack of its own. The thread sanitizer takes it for this thread
   where it shares memory: there it has a copy of it. */
ON_BORROWED_MEMORY static pid_t make(int (*run)(void *), unsigned char *stack_end, int signal,
                                     void *state) {
#if defined __SANITIZE_THREAD__
  pid_t made = (pid_t)syscall(SYS_clone, signal, NULL, NULL, NULL, NULL);
  (void)stack_end;
  if (!made) _exit(run(state));
  return made;
#else
  return clone(run, stack_end, CLONE_VM | CLONE_VFORK | signal, state);
#endif
}

ON_BORROWED_MEMORY static int become_server(void *state) {
  const struct start *start = state;
  const struct transport *transport = start->transport;
  struct report report = {getpid(), 0};
  int to = transport->starting.report;
  char *words[] = {(char *)start->program, NULL};
  leave_signals();
  if (take_descriptors(transport)) {
    to = FIRST + (int)transport->channels;
    if (write(to, &report, sizeof report) != sizeof report) _exit(127);
    if (strchr(start->program, '/'))
      execve(start->program, words, start->environment);
    else
      execvpe(start->program, words, start->environment);
  }
  report.error = errno;
  if (write(to, &report, sizeof report) < 0) _exit(126);
  _exit(127);
}

/* A process that ends at once: so the server, which it makes, is nobody's child here. */
ON_BORROWED_MEMORY static int go_between(void *state) {
  const struct start *start = state;
  struct report report = {0, 0};
  if (make(become_server, start->stacks + STACK, SIGCHLD, state) >= 0) _exit(0);
  report.error = errno;
  _exit(write(start->transport->starting.report, &report, sizeof report) < 0);
}

/* A descriptor that stands for a process, also for one that is no child; -1 for none. */
static int descriptor_of(pid_t process) {
#if defined SYS_pidfd_open
  return (int)syscall(SYS_pidfd_open, process, 0);
#else
  (void)process;
  return -1;
#endif
}

/* Whether the system can wait for a process that is no child. */
static int has_processes_apart(void) {
  int own = descriptor_of(getpid());
  close_some(&own, 1);
  return own >= 0;
}

/* Makes the process of the server: apart from this one, or else as its child. `wait` does not see
   the one between, of which no signal tells. */
static int make_process(struct transport *transport, struct start *start) {
  sigset_t every, before;
  int state, error = 0;
  sigfillset(&every);
  pthread_setcancelstate(PTHREAD_CANCEL_DISABLE, &state);
  pthread_sigmask(SIG_SETMASK, &every, &before);
  transport->is_apart = has_processes_apart();
  pid_t made = transport->is_apart ? make(go_between, start->stacks + 2 * STACK, 0, start)
                                   : make(become_server, start->stacks + STACK, SIGCHLD, start);
  if (made < 0) error = errno;
  while (made >= 0 && transport->is_apart && waitpid(made, NULL, __WCLONE) < 0 && errno == EINTR) {
  }
  pthread_sigmask(SIG_SETMASK, &before, NULL);
  pthread_setcancelstate(state, NULL);
  return error;
}

/* Starts the server. 0, or the system's number of an error. */
static int spawn(struct transport *transport, const char *program, int reports) {
  struct start start = {transport, program, environ, NULL};
  struct report report = {0, 0}, next;
  void *stacks =
      mmap(NULL, 2 * STACK, PROT_READ | PROT_WRITE, MAP_PRIVATE | MAP_ANONYMOUS | MAP_STACK, -1, 0);
  if (stacks == MAP_FAILED) return errno;
  start.stacks = stacks;
  int error = make_process(transport, &start);
  lock_all();
  close_starting(transport);
  unlock_all();
  for (ssize_t came = 1; !error && came;) {
    came = read(reports, &next, sizeof next);
    if (came == sizeof next) report = next;
    if (came < 0 && errno != EINTR) error = errno;
  }
  munmap(stacks, 2 * STACK);
  if (!error) error = report.error;
  transport->server = report.server;
  if (error && report.server && !transport->is_apart) waitpid(report.server, NULL, 0);
  if (!error && transport->is_apart) transport->process = descriptor_of(report.server);
  return error;
}

const char *tiswenor_transport_program(const char *server) {
  const char *named = server ? server : getenv("TISWENOR_SERVER");
  if (named && *named) return named;
#ifdef TISWENOR_SERVER_PATH
  if (!access(TISWENOR_SERVER_PATH, X_OK)) return TISWENOR_SERVER_PATH;
#endif
  return "lsm_server";
}

/* Makes all descriptors of a start. The one to read reports from; -1 where not all are made, and
   none is left. Forks wait meanwhile, so that a process that is forked has copies of none. */
static int make_descriptors(struct transport *transport, const unsigned char *opening,
                            size_t length) {
  int reports = -1;
  lock_all();
  if (make_channels(transport)) {
    transport->is_starting = 1;
    transport->starting.request = make_request(opening, length, transport->channels);
    reports = make_report(transport);
    if (transport->starting.request >= 0 && reports >= 0) {
      enrol(transport);
    } else {
      int error = errno;
      close_some(&reports, 1);
      close_starting(transport);
      close_some(transport->sockets, transport->channels);
      reports = -1;
      errno = error;
    }
  }
  unlock_all();
  return reports;
}

struct transport *tiswenor_transport_open(const char *server, unsigned channels,
                                          unsigned char *opening, size_t length, int *fault) {
  pthread_once(&once, watch_forks);
  struct transport *transport = calloc(1, sizeof *transport);
  *fault = tiswenor_out_of_memory;
  if (!transport) return NULL;
  *fault = tiswenor_no_server;
  transport->channels = channels;
  transport->process = -1;
  opening[4] = FIRST;
  int reports = make_descriptors(transport, opening, length);
  if (reports < 0) {
    free(transport);
    return NULL;
  }
  int error = spawn(transport, tiswenor_transport_program(server), reports);
  close(reports);
  if (!error) return transport;
  leave(transport);
  close_some(transport->sockets, channels);
  free(transport);
  errno = error;
  return NULL;
}

/* Frames */

/* Waits until the socket takes more bytes. Whether it does before an answer comes. */
static int takes_more(int socket) {
  struct pollfd both = {socket, POLLIN | POLLOUT, 0};
  while (poll(&both, 1, -1) < 0 && errno == EINTR) {
  }
  return !(both.revents & POLLIN);
}

/* Sends a frame, but for what is left of it once its answer comes: a server that has no memory for
   a request does not read it. How much is left; -1 where the channel is ended. */
static ssize_t send_frame(int socket, const unsigned char *bytes, size_t length) {
  while (length) {
    ssize_t sent = send(socket, bytes, length, MSG_NOSIGNAL | MSG_DONTWAIT);
    if (sent < 0 && errno == EINTR) continue;
    if (sent < 0 && errno != EAGAIN) return -1;
    if (sent < 0 && !takes_more(socket)) break;
    if (sent < 0) continue;
    bytes += sent;
    length -= (size_t)sent;
  }
  return (ssize_t)length;
}

/* Reads until there are `want` bytes, at most `room`. How many there are; fewer at the end. */
static size_t receive(int socket, unsigned char *bytes, size_t have, size_t want, size_t room) {
  while (have < want) {
    ssize_t came = recv(socket, bytes + have, room - have, 0);
    if (came < 0 && errno == EINTR) continue;
    if (came <= 0) break;
    have += (size_t)came;
  }
  return have;
}

/* Reads so many bytes of an answer that there is no memory for. */
static int drop(int socket, size_t length) {
  unsigned char bytes[READ_AT_ONCE];
  while (length) {
    size_t some = length < sizeof bytes ? length : sizeof bytes;
    if (receive(socket, bytes, 0, some, some) < some) return tiswenor_ended;
    length -= some;
  }
  return tiswenor_out_of_memory;
}

static int receive_frame(int socket, unsigned char **answer, size_t *length) {
  unsigned char front[READ_AT_ONCE];
  size_t have = receive(socket, front, 0, 4, sizeof front);
  if (have < 4) return tiswenor_ended;
  size_t want = front[0] | (size_t)front[1] << 8 | (size_t)front[2] << 16 | (size_t)front[3] << 24;
  if (want < 1 || want > LONGEST_ANSWER) return tiswenor_bad_answer;
  have = receive(socket, front, have, 5, sizeof front) - 4;
  if (have < 1) return tiswenor_ended;
  if (have > want) return tiswenor_bad_answer;
  unsigned char *bytes = malloc(want);
  if (!bytes) return is_last(front[4]) ? tiswenor_ended : drop(socket, want - have);
  memcpy(bytes, front + 4, have);
  if (receive(socket, bytes, have, want, want) < want) {
    free(bytes);
    return tiswenor_ended;
  }
  *answer = bytes;
  *length = want;
  return 0;
}

const int tiswenor_transport_works_beside = 1;

int tiswenor_transport_send(struct transport *transport, unsigned channel,
                            const unsigned char *frame, size_t length) {
  int socket = transport->sockets[channel];
  int is_sent = send_frame(socket, frame, length) == 0;
  if (!is_sent) shutdown(socket, SHUT_RDWR);
  return is_sent;
}

int tiswenor_transport_exchange(struct transport *transport, unsigned channel,
                                const unsigned char *frame, size_t length, unsigned char **answer,
                                size_t *answer_length) {
  int socket = transport->sockets[channel];
  ssize_t left = send_frame(socket, frame, length);
  int fault = left < 0 ? tiswenor_ended : receive_frame(socket, answer, answer_length);
  if (!fault && left && !is_last(**answer)) { /* of a request that it has not read */
    free(*answer);
    fault = tiswenor_bad_answer;
  }
  if (is_end(fault, *answer)) shutdown(socket, SHUT_RDWR);
  return fault;
}

/* The end */

static long now(void) {
  struct timespec time;
  clock_gettime(CLOCK_MONOTONIC, &time);
  return time.tv_sec * 1000 + time.tv_nsec / 1000000;
}

/* `waitid` of the server, by what no other process can have got meanwhile. */
static int wait_for(const struct transport *transport, siginfo_t *end, int options) {
  enum { BY_DESCRIPTOR = 3 }; /* P_PIDFD */
  *end = (siginfo_t){0};
  if (!transport->is_apart) return waitid(P_PID, (id_t)transport->server, end, options);
  if (transport->process >= 0)
    return waitid((idtype_t)BY_DESCRIPTOR, (id_t)transport->process, end, options);
  errno = ECHILD;
  return -1;
}

/* Waits for the server's end, so many milliseconds at most. Whether it has ended. */
static int has_ended(const struct transport *transport, int wait) {
  siginfo_t end;
  if (transport->is_apart) {
    struct pollfd process = {transport->process, POLLIN, 0};
    return transport->process < 0 || poll(&process, 1, wait) > 0; /* or it ended as it began */
  }
  for (;; wait--) {
    if (wait_for(transport, &end, WEXITED | WNOHANG | WNOWAIT)) return 1;
    if (end.si_pid || wait <= 0) return end.si_pid != 0;
    nanosleep(&(struct timespec){0, 1000000}, NULL);
  }
}

/* What `wait` would say of a process that has ended, and that nobody has waited for yet. */
static int has_left(pid_t process, int *status) {
  char path[32], text[1024];
  snprintf(path, sizeof path, "/proc/%d/stat", (int)process);
  FILE *file = fopen(path, "re");
  size_t length = file ? fread(text, 1, sizeof text - 1, file) : 0;
  if (file) fclose(file);
  text[length] = 0;
  char *name_end = strrchr(text, ')'), *last = strrchr(text, ' ');
  if (!name_end || name_end[1] != ' ' || name_end[2] != 'Z') return 0;
  *status = atoi(last);
  return 1;
}

/* The same of one that somebody else has waited for: Linux tells it from 6.15 on. */
static int was_told(int process, int *status) {
  enum { TELLS_END = 8 };
  struct { /* struct pidfd_info of linux/pidfd.h, as far as it is needed */
    uint64_t what, group;
    uint32_t numbers[11];
    int32_t status;
  } told = {TELLS_END, 0, {0}, 0};
  if (process < 0 || ioctl(process, _IOWR(0xff, 11, told), &told)) return 0;
  *status = told.status;
  return (told.what & TELLS_END) != 0;
}

/* The same of the server, which has ended: a child, or not. */
static int has_told(const struct transport *transport, int *status) {
  siginfo_t end;
  if (!wait_for(transport, &end, WEXITED | WNOHANG | WNOWAIT) && end.si_pid) {
    *status = end.si_code == CLD_EXITED ? end.si_status << 8 : end.si_status;
    return 1;
  }
  return was_told(transport->process, status) || has_left(transport->server, status);
}

void tiswenor_transport_tell_end(struct transport *transport, char *text, size_t room) {
  int status;
  long none = 0, until = now() + UNTIL_TOLD;
  if (!atomic_compare_exchange_strong(&transport->told_until, &none, until)) until = none;
  long left = until - now();
  if (!has_ended(transport, left > 0 ? (int)left : 0))
    snprintf(text, room, "the server takes no more requests");
  else if (!has_told(transport, &status))
    snprintf(text, room, "the server ended");
  else if (WIFSIGNALED(status))
    snprintf(text, room, "the server was ended by signal %d", WTERMSIG(status));
  else
    snprintf(text, room, "the server ended with status %d", WEXITSTATUS(status));
}

/* Waits for the server's end. After a minute it is killed: all that it answered is on the disk. */
static void wait_for_end(struct transport *transport) {
  siginfo_t end;
  long until = now() + UNTIL_END;
  int is_ended = 0;
  for (long left = UNTIL_END; !is_ended && left > 0; left = until - now())
    is_ended = has_ended(transport, (int)left);
  if (!is_ended) kill(transport->server, SIGKILL);
  while (!is_ended) is_ended = has_ended(transport, UNTIL_END);
  /* it is this process's child, or this is the one that adopts those of others */
  while (wait_for(transport, &end, WEXITED) && errno == EINTR) {
  }
}

void tiswenor_transport_close(struct transport *transport) {
  if (!transport->is_forked) {
    leave(transport);
    for (unsigned i = 0; i < transport->channels; i++) {
      shutdown(transport->sockets[i], SHUT_RDWR); /* whoever else has a copy */
      close(transport->sockets[i]);
    }
    wait_for_end(transport);
    close_some(&transport->process, 1);
  }
  free(transport);
}
