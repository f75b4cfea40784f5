// peer KIND: eight MiB of that kind in blocks of 4,096 bytes, compressed by libsnappy, as frames
// (a fixed32 of a length and so many bytes) on standard output; and on standard error what libsnappy
// takes to read all of them, as snappy.rattle prints it.
#include <snappy.h>

#include <chrono>
#include <cstdint>
#include <cstdio>
#include <cstdlib>
#include <string>
#include <vector>

static uint64_t state = 88172645463325252ull;

static uint64_t below(uint64_t n) {
  state ^= state << 13;
  state ^= state >> 7;
  state ^= state << 17;
  return state % n;
}

static std::string text(int kind, size_t size) {
  std::string out;
  while (out.size() < size) {
    if (kind == 0) out.push_back((char)below(256));
    if (kind == 1) out.push_back("abcd"[below(4)]);
    if (kind == 2 && (out.size() < 8 || below(3) == 0)) {
      for (int i = 0; i < 8; i++) out.push_back((char)below(256));
    } else if (kind == 2) {
      const size_t from = below(out.size() - 4);
      for (size_t i = 0, more = 4 + below(60); i < more; i++) out.push_back(out[from + i]);
    }
    if (kind == 3) out += "key " + std::to_string(below(100000)) + " value " + std::to_string(below(1000)) + "; ";
    if (kind == 4) out.append(200 + below(300), (char)below(256));
  }
  out.resize(size);
  return out;
}

int main(int, char** words) {
  const int kind = std::atoi(words[1]);
  std::vector<std::string> blocks;
  for (int i = 0; i < 2048; i++) {
    const std::string from = text(kind, 4096);
    std::string block;
    snappy::Compress(from.data(), from.size(), &block);
    const uint32_t size = (uint32_t)block.size();
    std::fwrite(&size, 4, 1, stdout);
    std::fwrite(block.data(), 1, size, stdout);
    blocks.push_back(block);
  }
  long long least = -1;
  uint64_t size = 0;
  for (int turn = 0; turn < 5; turn++) {
    const auto begun = std::chrono::steady_clock::now();
    for (int i = 0; i < 20; i++) {
      size = 0;
      for (const std::string& block : blocks) {
        std::string out;
        if (snappy::Uncompress(block.data(), block.size(), &out)) size += out.size();
      }
    }
    const long long spent =
        std::chrono::duration_cast<std::chrono::nanoseconds>(std::chrono::steady_clock::now() - begun).count();
    if (least < 0 || spent < least) least = spent;
  }
  std::fprintf(stderr, "%llu %lld\n", (unsigned long long)size, least / 20);
}
