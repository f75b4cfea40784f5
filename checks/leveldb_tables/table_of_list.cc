// The real LevelDB's own builder and reader of tables, over the same entry list that `lsm mktable` reads and `lsm dump` prints.
//
//   table_of_list build BLOCK_SIZE RESTART_INTERVAL OUT < LIST      writes the table
//   table_of_list dump TABLE                                        prints the list, checksums verified
//
// The comparator is that of internal keys, and shortens no separator.
#include <cstdio>
#include <cstdlib>
#include <cstring>
#include <iostream>
#include <string>

#include "internal_keys.h"
#include "leveldb/env.h"
#include "leveldb/iterator.h"
#include "leveldb/options.h"
#include "leveldb/table.h"
#include "leveldb/table_builder.h"

namespace {

std::string FromHex(const std::string& word) {
  std::string bytes;
  if (word == ".") return bytes;
  for (size_t i = 0; i + 1 < word.size(); i += 2) bytes.push_back(static_cast<char>(std::stoi(word.substr(i, 2), nullptr, 16)));
  return bytes;
}

std::string ToHex(const leveldb::Slice& bytes) {
  static const char digits[] = "0123456789abcdef";
  if (bytes.empty()) return ".";
  std::string word;
  for (size_t i = 0; i < bytes.size(); i++) {
    word.push_back(digits[static_cast<unsigned char>(bytes[i]) >> 4]);
    word.push_back(digits[static_cast<unsigned char>(bytes[i]) & 15]);
  }
  return word;
}

int Fail(const leveldb::Status& status) {
  std::fprintf(stderr, "%s\n", status.ToString().c_str());
  return 1;
}

int Build(int block_size, int interval, const char* out) {
  InternalKeys keys;
  leveldb::Options options;
  options.comparator = &keys;
  options.compression = leveldb::kNoCompression;
  options.block_size = block_size;
  options.block_restart_interval = interval;
  leveldb::WritableFile* file;
  leveldb::Status status = leveldb::Env::Default()->NewWritableFile(out, &file);
  if (!status.ok()) return Fail(status);
  leveldb::TableBuilder builder(options, file);
  std::string line;
  while (std::getline(std::cin, line)) {
    size_t a = line.find(' '), b = line.find(' ', a + 1), c = line.find(' ', b + 1);
    bool put = c != std::string::npos;
    std::string key = FromHex(line.substr(0, a));
    uint64_t packed = std::stoull(line.substr(a + 1, b - a - 1)) << 8 | (put ? 1 : 0);
    for (int i = 0; i < 8; i++) key.push_back(static_cast<char>(packed >> (8 * i)));
    builder.Add(key, put ? FromHex(line.substr(c + 1)) : std::string());
  }
  status = builder.Finish();
  if (status.ok()) status = file->Close();
  delete file;
  return status.ok() ? 0 : Fail(status);
}

int Dump(const char* name) {
  InternalKeys keys;
  leveldb::Options options;
  options.comparator = &keys;
  options.paranoid_checks = true;
  uint64_t size;
  leveldb::RandomAccessFile* file;
  leveldb::Status status = leveldb::Env::Default()->GetFileSize(name, &size);
  if (status.ok()) status = leveldb::Env::Default()->NewRandomAccessFile(name, &file);
  if (!status.ok()) return Fail(status);
  leveldb::Table* table;
  status = leveldb::Table::Open(options, file, size, &table);
  if (!status.ok()) return Fail(status);
  leveldb::ReadOptions reads;
  reads.verify_checksums = true;
  leveldb::Iterator* at = table->NewIterator(reads);
  std::string text;
  for (at->SeekToFirst(); at->Valid(); at->Next()) {
    leveldb::Slice key = at->key();
    uint64_t packed = Packed(key);
    text = ToHex(leveldb::Slice(key.data(), key.size() - 8)) + " " + std::to_string(packed >> 8);
    if ((packed & 255) == 1) {
      text += " put " + ToHex(at->value());
    } else {
      text += " del";
    }
    std::puts(text.c_str());
  }
  status = at->status();
  delete at;
  delete table;
  delete file;
  return status.ok() ? 0 : Fail(status);
}

}  // namespace

int main(int count, char** words) {
  if (count == 5 && std::strcmp(words[1], "build") == 0) return Build(std::atoi(words[2]), std::atoi(words[3]), words[4]);
  if (count == 3 && std::strcmp(words[1], "dump") == 0) return Dump(words[2]);
  return 2;
}
