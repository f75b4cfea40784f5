// Tables by LevelDB's builder with Snappy, and the same entries in one without: tables SEED COUNT
// FLIPS TABLES WANTED. Some of the former have a bit flipped. Frames of a fixed32 and so many bytes;
// wanted are a byte 1, a fixed64 of the length and the bytes.
#include <leveldb/comparator.h>
#include <leveldb/env.h>
#include <leveldb/options.h>
#include <leveldb/table_builder.h>

#include <cstdint>
#include <cstdio>
#include <cstdlib>
#include <random>
#include <string>

using namespace leveldb;

static std::mt19937_64 source;

static uint64_t below(uint64_t n) { return source() % n; }

// Internal keys, without separators that are shortened: so index keys are last keys.
struct InternalKeys : Comparator {
  static uint64_t packed(const Slice& key) {
    uint64_t n = 0;
    for (int i = 7; i >= 0; i--) n = n << 8 | (unsigned char)key[key.size() - 8 + i];
    return n;
  }
  int Compare(const Slice& a, const Slice& b) const override {
    const int users = Slice(a.data(), a.size() - 8).compare(Slice(b.data(), b.size() - 8));
    if (users != 0) return users;
    return packed(a) > packed(b) ? -1 : packed(a) < packed(b);
  }
  const char* Name() const override { return "leveldb.InternalKeyComparator"; }
  void FindShortestSeparator(std::string*, const Slice&) const override {}
  void FindShortSuccessor(std::string*) const override {}
};

struct InMemory : WritableFile {
  std::string bytes;
  Status Append(const Slice& data) override {
    bytes.append(data.data(), data.size());
    return Status::OK();
  }
  Status Close() override { return Status::OK(); }
  Status Flush() override { return Status::OK(); }
  Status Sync() override { return Status::OK(); }
};

struct Shape {
  uint64_t seed;
  int entries;
  int value;
  int words;
};

static std::string table(const Shape& shape, CompressionType compression) {
  static InternalKeys keys;
  std::mt19937_64 drawn(shape.seed);
  Options options;
  options.comparator = &keys;
  options.compression = compression;
  InMemory file;
  TableBuilder builder(options, &file);
  for (int i = 0; i < shape.entries; i++) {
    char user[32];
    std::snprintf(user, sizeof user, "key%08d", i / 2);
    const uint64_t sequence = 2 * (uint64_t)shape.entries - (uint64_t)i;
    const int kind = drawn() % 9 != 0;
    std::string key = user;
    for (int b = 0; b < 8; b++) key.push_back((char)((sequence << 8 | (uint64_t)kind) >> (8 * b)));
    std::string value;
    if (kind) {
      while ((int)value.size() < shape.value) value += std::to_string(drawn() % (uint64_t)shape.words) + " ";
    }
    builder.Add(key, value);
  }
  builder.Finish();
  return file.bytes;
}

int main(int, char** words) {
  source.seed(std::strtoull(words[1], nullptr, 10));
  const int count = std::atoi(words[2]);
  const int flips = std::atoi(words[3]);
  FILE* tables = std::fopen(words[4], "wb");
  FILE* wanted = std::fopen(words[5], "wb");
  uint64_t compressed = 0, plain = 0;
  for (int i = 0; i < count + flips; i++) {
    const Shape shape = {source(), (int)(1 + below(i % 16 ? 100 : 2000)), (int)below(i % 8 ? 100 : 1500),
                         i % 3 ? 1 + (int)below(1000) : 1};
    std::string packed = table(shape, kSnappyCompression);
    const std::string want = table(shape, kNoCompression);
    compressed += packed.size();
    plain += want.size();
    if (i >= count) packed[below(packed.size())] ^= (char)(1 << below(8));
    const uint32_t size = (uint32_t)packed.size();
    const uint64_t length = want.size();
    std::fwrite(&size, 4, 1, tables);
    std::fwrite(packed.data(), 1, size, tables);
    std::fputc(1, wanted);
    std::fwrite(&length, 8, 1, wanted);
    std::fwrite(want.data(), 1, length, wanted);
  }
  std::fclose(tables);
  std::fclose(wanted);
  std::printf("%d tables of LevelDB's, %llu bytes that were %llu", count, (unsigned long long)compressed,
              (unsigned long long)plain);
}
