/* The server beside clients that do not keep to its protocol: malformed SERVER FOLDER ROUNDS SEED.
   Uses sockets alone, not the library. A malformed frame is answered 200 and ends its channel, and
   no other; valid frames that are changed at random are answered; the server ends with status 0.
   An alarm ends this program where no answer comes. */
#define _GNU_SOURCE
#include <errno.h>
#include <fcntl.h>
#include <signal.h>
#include <stdint.h>
#include <stdio.h>
#include <stdlib.h>
#include <string.h>
#include <sys/socket.h>
#include <sys/wait.h>
#include <unistd.h>

#define CHECK(fact)                                                      \
  do {                                                                   \
    if (!(fact)) {                                                       \
      fprintf(stderr, "%s:%d: not so: %s\n", __FILE__, __LINE__, #fact); \
      exit(1);                                                           \
    }                                                                    \
  } while (0)

enum { FIRST = 100, CHANNELS = 62, LONGEST = 8388608, LONGEST_ANSWER = 16777216 };
enum { MALFORMED = 200, BAD_OPENING = 201, CLOSED = -1 };

static const char *program, *folder;
static int sockets[CHANNELS];
static pid_t server;
static unsigned char answer[LONGEST_ANSWER];
static size_t answer_length;

/* A text of bytes that grows. */
struct bytes {
  size_t length;
  unsigned char at[1 << 16];
};

static void add(struct bytes *to, const void *bytes, size_t length) {
  CHECK(to->length + length <= sizeof to->at);
  memcpy(to->at + to->length, bytes, length);
  to->length += length;
}

static void add_number(struct bytes *to, uint64_t number, int bytes) {
  for (int i = 0; i < bytes; i++) add(to, &(unsigned char){(unsigned char)(number >> 8 * i)}, 1);
}

static void add_text(struct bytes *to, const char *text) {
  add_number(to, strlen(text), 4);
  add(to, text, strlen(text));
}

static int send_all(int socket, const void *bytes, size_t length) {
  for (size_t at = 0; at < length;) {
    ssize_t sent = send(socket, (const char *)bytes + at, length - at, MSG_NOSIGNAL);
    if (sent < 0) return 0;
    at += (size_t)sent;
  }
  return 1;
}

static int receive_all(int socket, void *bytes, size_t length) {
  for (size_t at = 0; at < length;) {
    ssize_t came = recv(socket, (char *)bytes + at, length - at, 0);
    if (came <= 0) return 0;
    at += (size_t)came;
  }
  return 1;
}

/* The status of the next answer, or CLOSED. */
static int receive(int channel) {
  unsigned char head[4];
  if (!receive_all(sockets[channel], head, 4)) return CLOSED;
  answer_length = head[0] | (size_t)head[1] << 8 | (size_t)head[2] << 16 | (size_t)head[3] << 24;
  CHECK(answer_length >= 1 && answer_length <= LONGEST_ANSWER);
  CHECK(receive_all(sockets[channel], answer, answer_length));
  return answer[0];
}

static int exchange(int channel, const void *body, size_t length) {
  unsigned char head[4];
  for (int i = 0; i < 4; i++) head[i] = (unsigned char)(length >> 8 * i);
  if (!send_all(sockets[channel], head, 4) || !send_all(sockets[channel], body, length))
    return CLOSED;
  return receive(channel);
}

/* Starts a server with these bytes on its standard input. */
static void start(const struct bytes *input, int channels) {
  int ends[2], theirs[CHANNELS];
  CHECK(!pipe2(ends, O_CLOEXEC));
  CHECK(write(ends[1], input->at, input->length) == (ssize_t)input->length);
  close(ends[1]);
  for (int i = 0; i < channels; i++) {
    int pair[2];
    CHECK(!socketpair(AF_UNIX, SOCK_STREAM | SOCK_CLOEXEC, 0, pair));
    sockets[i] = pair[0];
    theirs[i] = fcntl(pair[1], F_DUPFD_CLOEXEC, FIRST + CHANNELS);
    close(pair[1]);
  }
  server = fork();
  if (!server) {
    dup2(ends[0], 0);
    for (int i = 0; i < channels; i++) dup2(theirs[i], FIRST + i);
    execl(program, program, (char *)NULL);
    _exit(127);
  }
  close(ends[0]);
  for (int i = 0; i < channels; i++) close(theirs[i]);
}

/* Ends the channels. The server's status, which is 0 whatever it was sent. */
static void stop(int channels) {
  int status;
  for (int i = 0; i < channels; i++) close(sockets[i]);
  CHECK(waitpid(server, &status, 0) == server);
  CHECK(status == 0);
}

static void opening_of(struct bytes *to, uint32_t channels, uint32_t workers, int flags,
                       const char *path, const char *behind) {
  to->length = 0;
  add_number(to, 4 + 4 + 4 + 1 + 4 + strlen(path) + strlen(behind), 4);
  add_number(to, FIRST, 4);
  add_number(to, channels, 4);
  add_number(to, workers, 4);
  add_number(to, (uint64_t)flags, 1);
  add_text(to, path);
  add(to, behind, strlen(behind));
}

static void open_all(void) {
  static struct bytes input;
  opening_of(&input, CHANNELS, 1, 1, folder, "");
  start(&input, CHANNELS);
  CHECK(receive(0) == 0);
}

/* An opening request in no form is answered 201, or the server just ends; a cut one ends it. */
static void openings(void) {
  static struct bytes input;
  struct {
    uint32_t channels, workers;
    int flags;
    const char *path, *behind;
  } bad[] = {{0, 1, 1, folder, ""},  {63, 1, 1, folder, ""},     {1, 17, 1, folder, ""},
             {1, 1, 1, folder, "x"}, {1, 1, 1, "/\xff\xfe", ""}, {0xffffffff, 1, 1, folder, ""}};
  for (size_t i = 0; i < sizeof bad / sizeof *bad; i++) {
    opening_of(&input, bad[i].channels, bad[i].workers, bad[i].flags, bad[i].path, bad[i].behind);
    start(&input, 1);
    int status = receive(0);
    if (status != BAD_OPENING && status != CLOSED) {
      fprintf(stderr, "opening %zu: status %d\n", i, status);
      exit(1);
    }
    stop(1);
  }
  opening_of(&input, 1, 1, 1, folder, "");
  size_t whole = input.length;
  for (size_t length = 0; length < whole; length++) {
    input.length = length;
    start(&input, 1);
    int status = receive(0);
    CHECK(status == BAD_OPENING || status == CLOSED);
    stop(1);
  }
}

/* Frames in none of the forms, each on a channel of its own. */
static void malformed_frames(void) {
#define FRAME(text) \
  { text, sizeof text - 1 }
  struct {
    const char *at;
    size_t length;
  } frames[] = {FRAME("\0"),
                FRAME("\x09"),
                FRAME("\xff"),
                FRAME("\x01"),
                FRAME("\x01\x02"),
                FRAME("\x01\x01"),
                FRAME("\x01\x01\x01\0\0\0"),
                FRAME("\x01\x01\x01\0\0\0k"),
                FRAME("\x01\x01\x01\0\0\0k\x02\0\0\0v"),
                FRAME("\x01\0\x02\0\0\0k"),
                FRAME("\x01\0\x01\0\0\0k\x07"),
                FRAME("\x01\x01\xff\xff\xff\xffk\0\0\0\0"),
                FRAME("\x02"),
                FRAME("\x02\0"),
                FRAME("\x02\x02\x01\0\0\0k"),
                FRAME("\x02\x01\x01\0\0\0k"),
                FRAME("\x02\0\x02\0\0\0k"),
                FRAME("\x02\0\x01\0\0\0kx"),
                FRAME("\x02\0\xff\xff\xff\x7fk"),
                FRAME("\x03"),
                FRAME("\x03\0"),
                FRAME("\x03\0\0\0\0\0"),
                FRAME("\x03\0\0\0\0\0\0"),
                FRAME("\x03\0\0\0\0\0\0\0\0\0"),
                FRAME("\x03\0\0\0\0\0\x02\0\0\0\0"),
                FRAME("\x03\0\0\0\0\0\0\0\0\0\0x"),
                FRAME("\x03\0\0\0\0\0\x01\x05\0\0\0z\0\0\0\0"),
                FRAME("\x04x"),
                FRAME("\x05"),
                FRAME("\x05\0\0\0\0\0\0\0"),
                FRAME("\x05\0\0\0\0\0\0\0\0\0"),
                FRAME("\x06x"),
                FRAME("\x06\0\0\0\0"),
                FRAME("\x06\x01\0\0\0"),
                FRAME("\x06\0\0\0\0\x02"),
                FRAME("\x06\0\0\0\0\0x"),
                FRAME("\x06\0\0\0\0\x01\x02\0\0\0z"),
                FRAME("\x07x"),
                FRAME("\x08x"),
                FRAME("")};
  int count = sizeof frames / sizeof *frames;
  open_all();
  for (int i = 0; i < count; i++) {
    int status = exchange(i, frames[i].at, frames[i].length);
    if (status != MALFORMED || answer_length != 1) {
      fprintf(stderr, "frame %d: status %d\n", i, status);
      exit(1);
    }
    CHECK(exchange(CHANNELS - 1, "\x08", 1) == 0);
  }
  static unsigned char long_frame[LONGEST];
  CHECK(exchange(count, long_frame, sizeof long_frame) == MALFORMED);
  CHECK(send_all(sockets[count + 1], "\x01\0\x80\0\x08", 5) && receive(count + 1) == MALFORMED);
  CHECK(send_all(sockets[count + 2], "\xff\xff\xff\xff", 4) && receive(count + 2) == MALFORMED);
  CHECK(send_all(sockets[count + 3], "\x05\0\0", 3) && !shutdown(sockets[count + 3], SHUT_WR));
  CHECK(send_all(sockets[count + 4], "\x05\0\0\0\x05", 5)); /* and no more */
  CHECK(exchange(CHANNELS - 1, "\x01\x01\x01\0\0\0k\x01\0\0\0v", 12) == 0);
  CHECK(exchange(CHANNELS - 1, "\x02\0\x01\0\0\0k", 7) == 0);
  CHECK(answer_length == 7 && !memcmp(answer, "\0\x01\x01\0\0\0v", 7));
  stop(CHANNELS);
}

/* A client that asks for much and reads nothing holds up its own channel alone. */
static void unread_answers(void) {
  static unsigned char value[1 << 20];
  open_all();
  struct bytes *put = calloc(1, sizeof *put);
  add(put, "\x01\x01\x04\0\0\0long", 10);
  add_number(put, sizeof value, 4);
  unsigned char *request = malloc(put->length + sizeof value);
  memcpy(request, put->at, put->length);
  memcpy(request + put->length, value, sizeof value);
  CHECK(exchange(0, request, put->length + sizeof value) == 0);
  for (int channel = 1; channel < 4; channel++)
    CHECK(send_all(sockets[channel], "\x0a\0\0\0\x02\0\x04\0\0\0long", 14));
  for (int i = 0; i < 100; i++) CHECK(exchange(0, "\x08", 1) == 0);
  free(request);
  free(put);
  stop(CHANNELS);
}

static unsigned drawn;

static unsigned draw(unsigned below) {
  drawn = drawn * 1103515245u + 12345u;
  return (drawn >> 16) % below;
}

/* A valid request, drawn. */
static void drawn_request(struct bytes *to) {
  char key[8];
  to->length = 0;
  snprintf(key, sizeof key, "k%02u", draw(50));
  switch (draw(100) ? 1 + draw(7) : 0) { /* few writes: each is synced */
    case 0:
      add(to, "\x01", 1);
      for (unsigned i = draw(4) + 1; i > 0; i--) {
        int is_put = draw(3) > 0;
        add_number(to, (uint64_t)is_put, 1);
        add_text(to, key);
        if (is_put) add_text(to, "value");
      }
      return;
    case 1:
    case 2:
    case 3:
      add(to, "\x02\0", 2);
      for (unsigned i = draw(4) + 1; i > 0; i--) add_text(to, key);
      return;
    case 4:
    case 5:
      add(to, "\x03\0", 2);
      add_text(to, key);
      if (draw(2))
        add(to, "\0", 1);
      else
        add(to, "\x01", 1), add_text(to, "k40");
      add_number(to, draw(10), 4);
      return;
    case 6:
      add(to, "\x04", 1);
      return;
    default:
      add(to, "\x05", 1);
      add_number(to, draw(10), 8);
  }
}

static void change(struct bytes *bytes) {
  for (unsigned i = draw(3) + 1; i > 0 && bytes->length > 0; i--) switch (draw(4)) {
      case 0:
        bytes->at[draw((unsigned)bytes->length)] = (unsigned char)draw(256);
        break;
      case 1:
        bytes->at[draw((unsigned)bytes->length)] ^= (unsigned char)(1 << draw(8));
        break;
      case 2:
        bytes->length = draw((unsigned)bytes->length);
        break;
      default:
        add(bytes, &(unsigned char){(unsigned char)draw(256)}, 1);
    }
}

/* Each channel gets changed requests until one is malformed. The last channel sees a live server.
 */
static void changed_requests(void) {
  static struct bytes request;
  int answered = 0, refused = 0, malformed = 0;
  open_all();
  for (int channel = 0; channel < CHANNELS - 1; channel++) {
    int status = 0;
    for (int i = 0; i < 200 && status != MALFORMED; i++) {
      drawn_request(&request);
      if (draw(8) == 0) change(&request);
      status = exchange(channel, request.at, request.length);
      CHECK(status == 0 || (status >= 1 && status <= 99) || status == MALFORMED);
      if (status == 0)
        answered++;
      else if (status == MALFORMED)
        malformed++;
      else
        refused++;
    }
    CHECK(exchange(CHANNELS - 1, "\x08", 1) == 0);
  }
  printf("changed requests: answered %d, refused %d, malformed %d\n", answered, refused, malformed);
  stop(CHANNELS);
}

/* Bytes that are no frames, and then the client's end. */
static void drawn_bytes(void) {
  open_all();
  for (int channel = 0; channel < CHANNELS - 1; channel++) {
    unsigned char bytes[64];
    size_t length = draw(sizeof bytes) + 1;
    for (size_t i = 0; i < length; i++) bytes[i] = (unsigned char)(draw(3) ? draw(256) : 0);
    send_all(sockets[channel], bytes, length);
    shutdown(sockets[channel], SHUT_WR);
    CHECK(exchange(CHANNELS - 1, "\x08", 1) == 0);
  }
  stop(CHANNELS);
}

int main(int argc, char **argv) {
  CHECK(argc == 5);
  program = argv[1];
  folder = argv[2];
  drawn = (unsigned)atoi(argv[4]);
  alarm(600);
  openings();
  malformed_frames();
  unread_answers();
  for (int round = atoi(argv[3]); round > 0; round--) {
    changed_requests();
    drawn_bytes();
  }
  puts("malformed: ok");
}
