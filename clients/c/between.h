/* A key between two others. The server shows pairs forward alone: by such keys an iterator that goes
   backward looks for its page. Private to the library. */
#ifndef TISWENOR_BETWEEN_H
#define TISWENOR_BETWEEN_H

#include <stddef.h>
#include <string.h>

struct key {
  unsigned char *bytes; /* as a bound: NULL for none, above all keys */
  size_t length;
};

/* How many bytes all keys between the two have of `low`; the next one is below *end. */
static inline size_t alike(struct key low, struct key high, unsigned *end) {
  size_t same = 0;
  *end = 256;
  if (high.bytes) {
    while (same < low.length && same < high.length && low.bytes[same] == high.bytes[same]) same++;
    *end = (same < high.length ? high.bytes[same] : 0u) + (high.length > same + 1);
  }
  while (same < low.length && low.bytes[same] + 1u >= *end) same++, *end = 256;
  return same;
}

/* A key above `low`, and, if any is between, below `high`. It is written to `middle`, which has room
   for a byte more than `low`; its length is the result. At first it is one behind all keys that
   begin with a part of `low`: half of what is not alike, a quarter, and so on. After so many tries
   it halves what the first other byte may be. */
static inline size_t between(struct key low, struct key high, unsigned tries,
                             unsigned char *middle) {
  unsigned end;
  size_t same = alike(low, high, &end), length = same + 1;
  if (same == low.length) {
    if (same) memcpy(middle, low.bytes, same);
    middle[same] = (unsigned char)(end / 2);
    return length;
  }
  if (tries < 32) length += (low.length - length) >> tries;
  memcpy(middle, low.bytes, length);
  if (length == same + 1) {
    middle[same] = (unsigned char)((low.bytes[same] + end) / 2);
    return length;
  }
  while (middle[length - 1] == 255) length--; /* the byte where they part is none */
  middle[length - 1]++;
  return length;
}

/* Whether the first key stands before the second one. */
static inline int is_before(struct key one, struct key other) {
  size_t shorter = one.length < other.length ? one.length : other.length;
  int order = shorter ? memcmp(one.bytes, other.bytes, shorter) : 0;
  return order ? order < 0 : one.length < other.length;
}

#endif
