// What LevelDB reads of a folder as it is: `reader DIR`, by its default, which is not to be
// paranoid, but with each block's checksum looked at. Standard input has keys, in hex, a line
// each. Printed are a line for each, `value V`, `absent` or `refused`, and then each pair, as
// KEY=VALUE, and last `end`, or `refused` where something was passed over; or `unopened` alone. It
// writes into DIR, but compacts nothing.
#include <unistd.h>

#include <cstdio>
#include <iostream>
#include <memory>
#include <string>

#include "leveldb/db.h"
#include "leveldb/env.h"

class NoWork : public leveldb::EnvWrapper {
 public:
  explicit NoWork(leveldb::Env* env) : leveldb::EnvWrapper(env) {}
  void Schedule(void (*)(void*), void*) override {}
};

static std::string Bytes(const std::string& word) {
  std::string bytes;
  if (word == ".") return bytes;
  for (size_t i = 0; i + 1 < word.size(); i += 2) bytes += static_cast<char>(std::stoi(word.substr(i, 2), nullptr, 16));
  return bytes;
}

static void Print(const leveldb::Slice& bytes) {
  if (bytes.empty()) std::fputs(".", stdout);
  for (size_t i = 0; i < bytes.size(); i++) std::printf("%02x", static_cast<unsigned char>(bytes[i]));
}

static void Run(const char* folder) {
  NoWork without(leveldb::Env::Default());
  leveldb::Options options;
  options.env = &without;
  options.compression = leveldb::kNoCompression;
  leveldb::DB* database = nullptr;
  if (!leveldb::DB::Open(options, folder, &database).ok()) {
    std::puts("unopened");
    return;
  }
  leveldb::ReadOptions checked;
  checked.verify_checksums = true;
  std::string word, value;
  while (std::getline(std::cin, word)) {
    const leveldb::Status status = database->Get(checked, Bytes(word), &value);
    if (status.ok()) {
      std::fputs("value ", stdout);
      Print(value);
      std::fputs("\n", stdout);
    } else {
      std::puts(status.IsNotFound() ? "absent" : "refused");
    }
  }
  leveldb::Iterator* pairs = database->NewIterator(checked);
  for (pairs->SeekToFirst(); pairs->Valid(); pairs->Next()) {
    Print(pairs->key());
    std::fputs("=", stdout);
    Print(pairs->value());
    std::fputs("\n", stdout);
  }
  std::puts(pairs->status().ok() ? "end" : "refused");
}

int main(int count, char** words) {
  if (count != 2) {
    std::fprintf(stderr, "reader: see the head of reader.cc\n");
    return 2;
  }
  Run(words[1]);
  std::fflush(stdout);
  _exit(0);  // (it would wait for the compactions that were never begun)
}
