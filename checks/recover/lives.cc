// Writes into a folder as a LevelDB program does, or prints what is there:
//
//   lives write DIR BATCH   opens DIR, begun where it has no database, and brings in the lines of
//                           standard input, KEY=VALUE or KEY! in hex, `.` for no bytes, BATCH a batch
//   lives scan DIR          prints each live key with its value, as KEY=VALUE in hex
//
// Tables are not compressed, and a memtable is flushed at 64 KiB, so some lines come into tables, and
// the last ones stay in a log.
#include <cstdio>
#include <cstdlib>
#include <iostream>
#include <memory>
#include <string>

#include "leveldb/db.h"
#include "leveldb/write_batch.h"

static void Must(const leveldb::Status& status) {
  if (status.ok()) return;
  std::fprintf(stderr, "lives: %s\n", status.ToString().c_str());
  std::exit(1);
}

static std::string Bytes(const std::string& word) {
  std::string bytes;
  if (word == ".") return bytes;
  for (size_t i = 0; i < word.size(); i += 2) {
    bytes.push_back(static_cast<char>(std::stoi(word.substr(i, 2), nullptr, 16)));
  }
  return bytes;
}

static void Print(const leveldb::Slice& bytes) {
  if (bytes.empty()) std::fputs(".", stdout);
  for (size_t i = 0; i < bytes.size(); i++) std::printf("%02x", static_cast<unsigned char>(bytes[i]));
}

static void Write(leveldb::DB* db, int most) {
  std::string line;
  leveldb::WriteBatch batch;
  int count = 0;
  while (std::getline(std::cin, line)) {
    const size_t at = line.find_first_of("=!");
    if (line[at] == '=') {
      batch.Put(Bytes(line.substr(0, at)), Bytes(line.substr(at + 1)));
    } else {
      batch.Delete(Bytes(line.substr(0, at)));
    }
    if (++count % most == 0) {
      Must(db->Write(leveldb::WriteOptions(), &batch));
      batch.Clear();
    }
  }
  Must(db->Write(leveldb::WriteOptions(), &batch));
}

static void Scan(leveldb::DB* db) {
  std::unique_ptr<leveldb::Iterator> it(db->NewIterator(leveldb::ReadOptions()));
  for (it->SeekToFirst(); it->Valid(); it->Next()) {
    Print(it->key());
    std::fputs("=", stdout);
    Print(it->value());
    std::fputs("\n", stdout);
  }
  Must(it->status());
}

int main(int count, char** words) {
  const std::string word = count > 2 ? words[1] : "";
  leveldb::Options options;
  options.create_if_missing = word == "write";
  options.compression = leveldb::kNoCompression;
  options.write_buffer_size = 64 << 10;
  options.reuse_logs = std::getenv("REUSE_LOGS") != nullptr;
  leveldb::DB* opened = nullptr;
  if (word != "write" && word != "scan") {
    std::fprintf(stderr, "lives: see the head of lives.cc\n");
    return 2;
  }
  Must(leveldb::DB::Open(options, words[2], &opened));
  std::unique_ptr<leveldb::DB> db(opened);
  if (word == "scan") {
    Scan(db.get());
  } else {
    Write(db.get(), count > 3 ? std::atoi(words[3]) : 1);
  }
  return 0;
}
