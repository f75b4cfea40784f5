// A disk that lies where no checksum shows it: in each block that is read as a part of a file by
// `pread`, the text TRUTH becomes LYING, with the checksum that goes with it. What is read whole is
// left as it is. Built as a shared library and put before the C library by LD_PRELOAD.
#define _GNU_SOURCE
#include <dlfcn.h>
#include <stdint.h>
#include <string.h>
#include <unistd.h>

static uint32_t checksum(const unsigned char *bytes, size_t count) {
  uint32_t it = ~0u;
  for (size_t i = 0; i < count; i++) {
    it ^= bytes[i];
    for (int bit = 0; bit < 8; bit++) it = it >> 1 ^ (it & 1 ? 0x82f63b78u : 0);
  }
  it = ~it;
  return (it >> 15 | it << 17) + 0xa282ead8u;  // masked, as LevelDB does
}

ssize_t pread(int file, void *buffer, size_t count, off_t at) {
  ssize_t (*next)(int, void *, size_t, off_t) = (ssize_t(*)(int, void *, size_t, off_t))dlsym(RTLD_NEXT, "pread");
  ssize_t had = next(file, buffer, count, at);
  if (had < 9 || (size_t)had != count) return had;
  unsigned char *bytes = buffer, *text;
  uint32_t stored;
  memcpy(&stored, bytes + count - 4, 4);
  if (stored != checksum(bytes, count - 4)) return had;
  while ((text = memmem(bytes, count - 5, "TRUTH", 5))) memcpy(text, "LYING", 5);
  stored = checksum(bytes, count - 4);
  memcpy(bytes + count - 4, &stored, 4);
  return had;
}
