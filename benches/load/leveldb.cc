// The peer of `lsm load`, by LevelDB:
//
//   leveldb pairs COUNT SEED     prints so many lines KEY=VALUE: keys of 16 drawn digits, values of 100 letters
//   leveldb load DIR FILE        brings the lines of the file in, in synced batches of at most 65,536 lines and 4 MiB, and compacts the whole
//   leveldb print DIR            all pairs, ascending, each as KEY=VALUE
#include <leveldb/db.h>
#include <leveldb/iterator.h>
#include <leveldb/write_batch.h>

#include <cstdint>
#include <cstdio>
#include <cstdlib>
#include <cstring>
#include <memory>
#include <string>

static const size_t kLines = 65536, kBytes = 4 << 20;

static void check(const leveldb::Status& status) {
  if (status.ok()) return;
  fprintf(stderr, "leveldb: %s\n", status.ToString().c_str());
  exit(1);
}

static std::unique_ptr<leveldb::DB> open(const char* folder, bool begins) {
  leveldb::Options options;
  options.create_if_missing = begins;
  options.compression = leveldb::kNoCompression;
  leveldb::DB* db = nullptr;
  check(leveldb::DB::Open(options, folder, &db));
  return std::unique_ptr<leveldb::DB>(db);
}

static uint64_t draw(uint64_t* state) {  // xorshift64*
  uint64_t x = *state;
  x ^= x >> 12, x ^= x << 25, x ^= x >> 27;
  *state = x;
  return x * 2685821657736338717u;
}

static int pairs(uint64_t count, uint64_t seed) {
  uint64_t state = seed * 2 + 1;
  char line[118];
  for (uint64_t i = 0; i < count; ++i) {
    snprintf(line, 18, "%016llu=", (unsigned long long)(draw(&state) % 10000000000000000u));
    for (int at = 17; at < 117; ++at) line[at] = "abcdefghijklmnopqrstuvwxyz012345"[draw(&state) >> 59];
    line[117] = '\n';
    if (fwrite(line, 1, sizeof line, stdout) != sizeof line) return 1;
  }
  return fflush(stdout) != 0;
}

static int load(const char* folder, const char* file) {
  auto db = open(folder, true);
  FILE* in = fopen(file, "r");
  if (!in) return perror(file), 1;
  leveldb::WriteOptions synced;
  synced.sync = true;
  leveldb::WriteBatch batch;
  size_t lines = 0, bytes = 0, room = 0;
  char* line = nullptr;
  for (ssize_t n; (n = getline(&line, &room, in)) > 0;) {
    if (line[n - 1] == '\n') --n;
    const char* equals = static_cast<const char*>(memchr(line, '=', n));
    if (!equals) return fprintf(stderr, "leveldb: a line has no =\n"), 1;
    if (lines == kLines || bytes + n - 1 > kBytes) {
      check(db->Write(synced, &batch));
      batch.Clear();
      lines = bytes = 0;
    }
    batch.Put(leveldb::Slice(line, equals - line), leveldb::Slice(equals + 1, line + n - equals - 1));
    ++lines, bytes += n - 1;
  }
  check(db->Write(synced, &batch));
  db->CompactRange(nullptr, nullptr);
  return 0;
}

static int print(const char* folder) {
  auto db = open(folder, false);
  std::unique_ptr<leveldb::Iterator> it(db->NewIterator(leveldb::ReadOptions()));
  for (it->SeekToFirst(); it->Valid(); it->Next()) {
    const leveldb::Slice key = it->key(), value = it->value();
    fwrite(key.data(), 1, key.size(), stdout);
    putchar('=');
    fwrite(value.data(), 1, value.size(), stdout);
    putchar('\n');
  }
  check(it->status());
  return fflush(stdout) != 0;
}

int main(int count, char** words) {
  const std::string what = count > 1 ? words[1] : "";
  if (what == "pairs" && count == 4) return pairs(strtoull(words[2], nullptr, 10), strtoull(words[3], nullptr, 10));
  if (what == "load" && count == 4) return load(words[2], words[3]);
  if (what == "print" && count == 3) return print(words[2]);
  fprintf(stderr, "leveldb pairs COUNT SEED | load DIR FILE | print DIR\n");
  return 2;
}
