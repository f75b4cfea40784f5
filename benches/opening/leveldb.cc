// The peer of what `lsm` does with a folder that it did not open before, by LevelDB:
//
//   leveldb log DIR PAIRS        so many drawn pairs, all of them in a log that is not flushed
//   leveldb sorted DIR PAIRS     so many ascending pairs, compacted, not compressed
//   leveldb snappy DIR PAIRS     so many drawn pairs, whose values repeat themselves, compressed and compacted
//   leveldb open DIR             opens and closes it: its log is flushed into tables
//   leveldb get DIR KEY          opens it and prints the value of one key
//   leveldb print DIR            all pairs, ascending, each as KEY=VALUE in hex
#include <leveldb/db.h>
#include <leveldb/iterator.h>
#include <leveldb/write_batch.h>
#include <unistd.h>

#include <cstdint>
#include <cstdio>
#include <cstdlib>
#include <memory>
#include <string>

static void check(const leveldb::Status& status) {
  if (status.ok()) return;
  fprintf(stderr, "leveldb: %s\n", status.ToString().c_str());
  exit(1);
}

static std::unique_ptr<leveldb::DB> open(const char* folder, const std::string& what) {
  leveldb::Options options;
  options.create_if_missing = what == "log" || what == "sorted" || what == "snappy";
  options.compression = what == "snappy" ? leveldb::kSnappyCompression : leveldb::kNoCompression;
  if (what == "log") options.write_buffer_size = size_t{1} << 30;
  leveldb::DB* db = nullptr;
  check(leveldb::DB::Open(options, folder, &db));
  return std::unique_ptr<leveldb::DB>(db);
}

static uint64_t draw(uint64_t* state) {  // xorshift64*
  uint64_t x = *state;
  x ^= x >> 12, x ^= x << 25, x ^= x >> 27;
  *state = x;
  return x * 2685821657736338717u;
}

static void write(const char* folder, const std::string& what, uint64_t pairs) {
  auto db = open(folder, what);
  uint64_t state = 15;
  leveldb::WriteBatch batch;
  for (uint64_t i = 0; i < pairs; i++) {
    char key[24];
    snprintf(key, sizeof key, "%016llu", (unsigned long long)(what == "sorted" ? i : draw(&state) % 10000000000000000u));
    std::string value;
    while (value.size() < 100) {
      const char letter = "abcdefghijklmnopqrstuvwxyz012345"[draw(&state) >> 59];
      value.append(what == "snappy" ? 10 : 1, letter);
    }
    batch.Put(key, value);
    if (i % 100 == 99 || i + 1 == pairs) {
      check(db->Write(leveldb::WriteOptions(), &batch));
      batch.Clear();
    }
  }
  if (what == "log") {
    fflush(stdout);
    _exit(0);
  }
  db->CompactRange(nullptr, nullptr);
}

static void hex(const leveldb::Slice& bytes) {
  static const char digits[] = "0123456789abcdef";
  std::string text;
  for (size_t i = 0; i < bytes.size(); i++) {
    text.push_back(digits[static_cast<unsigned char>(bytes[i]) >> 4]);
    text.push_back(digits[bytes[i] & 15]);
  }
  if (text.empty()) text = ".";
  fwrite(text.data(), 1, text.size(), stdout);
}

static void print(leveldb::DB* db) {
  std::unique_ptr<leveldb::Iterator> it(db->NewIterator(leveldb::ReadOptions()));
  for (it->SeekToFirst(); it->Valid(); it->Next()) {
    hex(it->key());
    putchar('=');
    hex(it->value());
    putchar('\n');
  }
  check(it->status());
}

int main(int count, char** words) {
  const std::string what = count > 2 ? words[1] : "";
  if ((what == "log" || what == "sorted" || what == "snappy") && count == 4) {
    write(words[2], what, strtoull(words[3], nullptr, 10));
    return 0;
  }
  if (what != "open" && what != "get" && what != "print") {
    fprintf(stderr, "leveldb: see the head of leveldb.cc\n");
    return 2;
  }
  auto db = open(words[2], what);
  if (what == "get" && count == 4) {
    std::string value;
    leveldb::ReadOptions checked;
    checked.verify_checksums = true;
    check(db->Get(checked, words[3], &value));
    printf("value %s\n", value.c_str());
  }
  if (what == "print") print(db.get());
  return fflush(stdout) != 0;
}
