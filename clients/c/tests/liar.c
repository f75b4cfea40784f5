/* A server that answers anything: it takes each opening, and then answers each request on its first
   two channels by drawn bytes, some of them near what a true server says. LIAR_SEED says which
   ones.
 */
#define _GNU_SOURCE
#include <poll.h>
#include <stdint.h>
#include <stdlib.h>
#include <string.h>
#include <unistd.h>

static unsigned drawn;

static unsigned draw(unsigned below) {
  drawn = drawn * 1103515245u + 12345u;
  return (drawn >> 16) % below;
}

static void read_all(int descriptor, void *bytes, size_t length) {
  for (size_t at = 0; at < length;) {
    ssize_t came = read(descriptor, (char *)bytes + at, length - at);
    if (came <= 0) _exit(0);
    at += (size_t)came;
  }
}

static uint32_t read_length(int descriptor) {
  unsigned char head[4];
  read_all(descriptor, head, 4);
  return head[0] | (uint32_t)head[1] << 8 | (uint32_t)head[2] << 16 | (uint32_t)head[3] << 24;
}

static size_t add_text(unsigned char *to) {
  unsigned length = draw(5);
  memcpy(to, (unsigned char[]){(unsigned char)length, 0, 0, 0}, 4);
  memset(to + 4, 'a' + (int)draw(3), length);
  return 4 + length;
}

/* What a true server might answer, behind the status. */
static size_t true_answer(unsigned char kind, unsigned char *to) {
  size_t length = 0;
  switch (kind) {
    case 2:
      for (unsigned i = draw(4); i > 0; i--) {
        to[length++] = (unsigned char)draw(2);
        if (to[length - 1]) length += add_text(to + length);
      }
      return length;
    case 3:
      to[length++] = (unsigned char)draw(2);
      for (unsigned i = 2 * draw(4); i > 0; i--) length += add_text(to + length);
      return length;
    case 8:
      memset(to, 1, 120);
      return 120;
    default:
      memset(to, 1, 16);
      return 8 * draw(3);
  }
}

static void change(unsigned char *bytes, size_t *length) {
  switch (draw(4)) {
    case 0:
      bytes[draw((unsigned)*length)] = (unsigned char)draw(256);
      break;
    case 1:
      *length = draw((unsigned)*length);
      break;
    case 2:
      bytes[(*length)++] = (unsigned char)draw(256);
      break;
    default:
      for (size_t i = 0; i < *length; i++) bytes[i] = (unsigned char)draw(256);
  }
}

int main(void) {
  static unsigned char request[1 << 24], answer[1024];
  const char *seed = getenv("LIAR_SEED");
  drawn = seed ? (unsigned)atoi(seed) : 1;
  read_all(0, request, read_length(0));
  int channel = request[0];
  if (write(channel, "\1\0\0\0\0", 5) != 5) return 1;
  struct pollfd both[] = {{channel, POLLIN, 0}, {channel + 1, POLLIN, 0}};
  for (;;) {
    if (poll(both, 2, -1) < 0) return 1;
    channel = both[both[0].revents ? 0 : 1].fd;
    read_all(channel, request, read_length(channel));
    answer[4] = draw(8) ? 0 : (unsigned char)draw(256);
    size_t length = 1 + true_answer(request[0], answer + 5);
    if (draw(2)) change(answer + 4, &length);
    uint32_t told = draw(20) ? (uint32_t)length : draw(1000);
    if (!draw(50)) told = 0xffffffff;
    for (int i = 0; i < 4; i++) answer[i] = (unsigned char)(told >> 8 * i);
    if (write(channel, answer, 4 + length) < 0) return 1;
    if (told > length) return 1; /* what was told will not come */
  }
}
