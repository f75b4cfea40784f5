// Texts of Snappy's, a half of them altered or made by hand, and what libsnappy makes of each:
// texts SEED COUNT TEXTS WANTED. Frames of a fixed32 and so many bytes; wanted are a byte 1, a
// fixed64 of the length and the bytes, or a byte 0.
#include <snappy.h>

#include <cstdint>
#include <cstdio>
#include <cstdlib>
#include <random>
#include <string>

static std::mt19937_64 source;

static uint64_t below(uint64_t n) { return source() % n; }

static std::string noise(size_t size) {
  std::string text;
  while (text.size() < size) text.push_back((char)source());
  return text;
}

static std::string plain(int kind) {
  std::string text;
  const size_t size = below(4) ? below(6000) : below(80);
  if (kind == 0) return noise(size);
  while (text.size() < size) {
    if (kind == 1) text.push_back("abcd"[below(4)]);
    if (kind == 2 && (text.size() < 2 || below(3) == 0)) {
      text += noise(1 + below(20));
    } else if (kind == 2) {  // a copy, which may reach into itself
      const size_t back = 1 + below(text.size());
      for (size_t left = 1 + below(80); left > 0; left--) text.push_back(text[text.size() - back]);
    }
    if (kind == 3) text += "key " + std::to_string(below(1000)) + " value " + std::to_string(below(100));
    if (kind == 4) text.append(1 + below(500), (char)below(3));
  }
  return text;
}

static void put_varint(std::string& out, uint32_t n) {
  for (; n >= 128; n >>= 7) out.push_back((char)(n | 128));
  out.push_back((char)n);
}

// Elements by hand, with distances at the edge and beyond it, and lengths that may be wrong.
static std::string by_hand() {
  std::string body;
  size_t size = 0;
  for (int left = 1 + below(12); left > 0; left--) {
    int kind = size == 0 && below(9) ? 0 : below(4);
    size_t back = below(3) ? 1 + below(size + 1) : size + below(3);
    if (below(20) == 0) back = 0;
    size_t more = 1 + below(64);
    if (kind == 0) {
      if (more <= 60) {
        body.push_back((char)((more - 1) << 2));
      } else {
        body.push_back((char)(60 << 2));
        body.push_back((char)(more - 1));
      }
      body += noise(more);
    } else if (kind == 1) {
      more = 4 + more % 8;
      back &= 2047;
      body.push_back((char)(1 | ((more - 4) << 2) | ((back >> 8) << 5)));
      body.push_back((char)back);
    } else {
      body.push_back((char)(kind | ((more - 1) << 2)));
      for (int i = 0; i < (kind == 2 ? 2 : 4); i++) body.push_back((char)(back >> (8 * i)));
    }
    size += more;
  }
  if (below(6) == 0) size += below(5) - 2;
  std::string text;
  put_varint(text, (uint32_t)size);
  return text + body;
}

static std::string altered(std::string text) {
  switch (below(4)) {
    case 0: text[below(text.size())] ^= (char)(1 << below(8)); break;
    case 1: text.resize(below(text.size())); break;
    case 2: text += noise(1 + below(4)); break;
    default: text[below(text.size())] = (char)source();
  }
  return text;
}

int main(int, char** words) {
  source.seed(std::strtoull(words[1], nullptr, 10));
  const int count = std::atoi(words[2]);
  FILE* texts = std::fopen(words[3], "wb");
  FILE* wanted = std::fopen(words[4], "wb");
  int refused = 0;
  for (int i = 0; i < count; i++) {
    std::string text;
    if (i % 4 == 3) {
      text = by_hand();
    } else {
      const std::string from = plain(i % 5);
      snappy::Compress(from.data(), from.size(), &text);
      if (i % 4 == 2) text = altered(text);
    }
    const uint32_t size = (uint32_t)text.size();
    std::fwrite(&size, 4, 1, texts);
    std::fwrite(text.data(), 1, size, texts);
    std::string read;
    size_t stated = 0;
    const bool is_small = snappy::GetUncompressedLength(text.data(), size, &stated) && stated < (1u << 28);
    if (is_small && snappy::Uncompress(text.data(), size, &read)) {
      const uint64_t length = read.size();
      std::fputc(1, wanted);
      std::fwrite(&length, 8, 1, wanted);
      std::fwrite(read.data(), 1, length, wanted);
    } else {
      std::fputc(0, wanted);
      refused++;
    }
  }
  std::fclose(texts);
  std::fclose(wanted);
  std::printf("%d texts, of which libsnappy refuses %d", count, refused);
}
