// Directories of the real LevelDB, without compression: made of one of the kinds below, and printed as LevelDB reads them.
//
//   directory kinds          prints the names of the kinds
//   directory make DIR KIND  makes DIR; all that was written stands in tables, its log is empty
//   directory scan DIR       prints each live key with its value, as KEY=VALUE in hex, `.` for no bytes; it opens DIR to write
//   directory get DIR KEY..  prints the value of each key (hex), or `absent`
//   directory spans DIR      prints how often a user key goes on in the next file of a level from 1 on; it opens DIR to write
//   directory edits FILE     prints the edits of a manifest, as LevelDB's own DumpFile does
//   directory same DIR KIND LIST  opens DIR with the kind's options: whether it holds just the pairs of LIST (lines as `scan` prints
//                            them), forwards, backwards, and by a `Get` of each key and of one beside it
//   directory write DIR KIND COUNT  writes and deletes so many keys more, and compacts all; its log is empty then
//   directory put DIR KEY VALUE  writes one pair (hex), which stands in the log then
#include <cstdio>
#include <cstdlib>
#include <cstring>
#include <fstream>
#include <map>
#include <memory>
#include <string>
#include <vector>

#include "leveldb/db.h"
#include "leveldb/dumpfile.h"
#include "leveldb/env.h"
#include "leveldb/filter_policy.h"
#include "leveldb/options.h"

namespace {

struct Kind {
  const char* name;
  int writes;          // in all
  int keys;            // how many different ones
  int value;           // bytes of a value at most
  int delete_each;     // each so many writes one is a deletion; 0: none
  int snapshot_each;   // a snapshot is held from each so many writes on; 0: none
  int reopen;          // how often it is closed and opened in between
  bool bloom;
  bool compact;        // whole, at the end, the snapshots still held
  int key;             // bytes of a key at least
  int block;           // bytes of a block
  int restart;         // entries a restart
};

const Kind kKinds[] = {
    {"empty", 0, 1, 0, 0, 0, 0, false, false, 1, 4096, 16},
    {"one_key", 1, 1, 10, 0, 0, 0, false, false, 1, 4096, 16},
    {"one_deletion", 2, 1, 10, 2, 0, 0, false, false, 1, 4096, 16},
    {"small", 300, 100, 20, 7, 0, 0, false, false, 3, 4096, 16},
    {"small_compacted", 300, 100, 20, 7, 0, 0, false, true, 3, 4096, 16},
    {"empty_values", 5000, 5000, 0, 0, 0, 1, false, true, 3, 4096, 16},
    {"fresh_keys", 60000, 60000, 100, 0, 0, 0, false, false, 16, 4096, 16},
    {"fresh_keys_compacted", 60000, 60000, 100, 0, 0, 0, false, true, 16, 4096, 16},
    {"written_over", 90000, 3000, 100, 0, 0, 0, false, false, 16, 4096, 16},
    {"written_over_compacted", 90000, 3000, 100, 0, 0, 0, false, true, 16, 4096, 16},
    {"with_deletions", 90000, 20000, 100, 5, 0, 0, false, false, 16, 4096, 16},
    {"with_deletions_compacted", 90000, 20000, 100, 5, 0, 0, false, true, 16, 4096, 16},
    {"all_deleted", 40000, 10, 30, 2, 0, 0, false, true, 4, 4096, 16},
    {"bloom", 60000, 30000, 60, 9, 0, 0, true, false, 16, 4096, 16},
    {"bloom_compacted", 60000, 30000, 60, 9, 0, 2, true, true, 16, 4096, 16},
    {"reopened_often", 20000, 5000, 80, 11, 0, 25, false, false, 8, 4096, 16},
    {"reopened_often_compacted", 20000, 5000, 80, 11, 0, 25, false, true, 8, 4096, 16},
    {"keys_span_files", 60000, 3, 100, 0, 10, 0, false, true, 4, 4096, 16},
    {"keys_span_files_deleted", 80000, 4, 100, 3, 10, 1, false, true, 4, 4096, 16},
    {"one_key_spans_files", 60000, 1, 90, 0, 7, 0, false, true, 20, 4096, 16},
    {"span_not_compacted", 80000, 5, 100, 6, 15, 3, false, false, 4, 4096, 16},
    {"span_with_bloom", 80000, 6, 100, 6, 15, 3, true, true, 4, 4096, 16},
    {"small_blocks", 30000, 10000, 50, 8, 0, 1, false, true, 12, 256, 4},
    {"no_restarts", 30000, 10000, 50, 8, 0, 1, false, true, 12, 4096, 1000},
    {"huge_values", 400, 200, 200000, 9, 0, 1, false, false, 8, 4096, 16},
    {"long_keys", 4000, 2000, 10, 9, 0, 1, true, true, 5000, 4096, 16},
};

leveldb::DB* Open(const Kind& kind, const std::string& folder) {
  leveldb::Options options;
  options.create_if_missing = true;
  options.compression = leveldb::kNoCompression;
  options.write_buffer_size = 64 << 10;
  options.max_file_size = 1 << 20;
  options.block_size = kind.block;
  options.block_restart_interval = kind.restart;
  if (kind.bloom) options.filter_policy = leveldb::NewBloomFilterPolicy(10);
  leveldb::DB* database = nullptr;
  leveldb::Status status = leveldb::DB::Open(options, folder, &database);
  if (!status.ok()) {
    std::fprintf(stderr, "%s\n", status.ToString().c_str());
    std::exit(1);
  }
  return database;
}

void Check(const leveldb::Status& status) {
  if (status.ok()) return;
  std::fprintf(stderr, "%s\n", status.ToString().c_str());
  std::exit(1);
}

void Make(const Kind& kind, const std::string& folder) {
  leveldb::DB* database = Open(kind, folder);
  unsigned state = 12345;
  for (int i = 0; i < kind.writes; i++) {
    state = state * 1664525u + 1013904223u;
    std::string key = std::to_string((state >> 8) % static_cast<unsigned>(kind.keys));
    if (static_cast<int>(key.size()) < kind.key) key.insert(0, kind.key - key.size(), 'k');
    if (kind.delete_each != 0 && i % kind.delete_each == kind.delete_each - 1) {
      Check(database->Delete(leveldb::WriteOptions(), key));
    } else {
      std::string value = std::to_string(i);
      value.resize(kind.value == 0 ? 0 : (state >> 4) % static_cast<unsigned>(kind.value + 1), 'v');
      Check(database->Put(leveldb::WriteOptions(), key, value));
    }
    if (kind.snapshot_each != 0 && i % kind.snapshot_each == 0) database->GetSnapshot();
    if (kind.reopen != 0 && i % (kind.writes / (kind.reopen + 1) + 1) == kind.writes / (kind.reopen + 1)) {
      delete database;
      database = Open(kind, folder);
    }
  }
  if (kind.compact) database->CompactRange(nullptr, nullptr);
  delete database;
  delete Open(kind, folder);  // what its log had is in a table then
}

std::string Hex(const leveldb::Slice& bytes) {
  if (bytes.empty()) return ".";
  static const char kDigits[] = "0123456789abcdef";
  std::string hex;
  for (size_t i = 0; i < bytes.size(); i++) {
    unsigned char byte = static_cast<unsigned char>(bytes[i]);
    hex += kDigits[byte >> 4];
    hex += kDigits[byte & 15];
  }
  return hex;
}

void Scan(const std::string& folder) {
  std::unique_ptr<leveldb::DB> database(Open(kKinds[0], folder));
  leveldb::ReadOptions options;
  options.verify_checksums = true;
  std::unique_ptr<leveldb::Iterator> place(database->NewIterator(options));
  for (place->SeekToFirst(); place->Valid(); place->Next()) {
    std::printf("%s=%s\n", Hex(place->key()).c_str(), Hex(place->value()).c_str());
  }
  Check(place->status());
}

void Get(const std::string& folder, int count, char** keys) {
  std::unique_ptr<leveldb::DB> database(Open(kKinds[0], folder));
  for (int i = 0; i < count; i++) {
    std::string value;
    leveldb::Status status = database->Get(leveldb::ReadOptions(), keys[i], &value);
    if (!status.IsNotFound()) Check(status);
    std::printf("%s\n", status.ok() ? Hex(value).c_str() : "absent");
  }
}

// The first and the last user key of a line of LevelDB's list of files: ` 7:1234['a' @ 9 : 1 .. 'b' @ 8 : 1]`.
std::vector<std::string> Ends(const std::string& line) {
  std::vector<std::string> ends;
  for (size_t from = line.find('\''); from != std::string::npos && ends.size() < 2; from = line.find('\'', from + 1)) {
    size_t end = line.find("' @ ", from + 1);
    if (end == std::string::npos) break;
    ends.push_back(line.substr(from + 1, end - from - 1));
    from = end;
  }
  return ends;
}

void Spans(const std::string& folder) {
  std::unique_ptr<leveldb::DB> database(Open(kKinds[0], folder));
  std::string files, line, last;
  database->GetProperty("leveldb.sstables", &files);
  int level = -1, spans = 0;
  for (char c : files) {
    if (c != '\n') {
      line += c;
      continue;
    }
    std::vector<std::string> ends = Ends(line);
    if (ends.size() == 2) {
      if (level > 0 && ends[0] == last) spans++;
      last = ends[1];
    } else {
      level++;
      last.clear();
    }
    line.clear();
  }
  std::printf("%d\n", spans);
}

class Printed : public leveldb::WritableFile {
 public:
  leveldb::Status Append(const leveldb::Slice& data) override {
    std::fwrite(data.data(), 1, data.size(), stdout);
    return leveldb::Status::OK();
  }
  leveldb::Status Close() override { return leveldb::Status::OK(); }
  leveldb::Status Flush() override { return leveldb::Status::OK(); }
  leveldb::Status Sync() override { return leveldb::Status::OK(); }
};

std::string Bytes(const std::string& hex) {
  std::string bytes;
  if (hex == ".") return bytes;
  for (size_t i = 0; i + 1 < hex.size(); i += 2) bytes += static_cast<char>(std::stoi(hex.substr(i, 2), nullptr, 16));
  return bytes;
}

using Pairs = std::map<std::string, std::string>;  // std::string compares bytes as unsigned, as LevelDB does

Pairs Listed(const char* name) {
  Pairs pairs;
  std::ifstream lines(name);
  std::string line;
  while (std::getline(lines, line)) {
    size_t at = line.find('=');
    pairs[Bytes(line.substr(0, at))] = Bytes(line.substr(at + 1));
  }
  return pairs;
}

[[noreturn]] void Differs(const char* how, const leveldb::Slice& key) {
  std::printf("%s at the key %s\n", how, Hex(key).c_str());
  std::exit(1);
}

void Walk(leveldb::DB* database, const Pairs& pairs) {
  leveldb::ReadOptions options;
  options.verify_checksums = true;
  std::unique_ptr<leveldb::Iterator> place(database->NewIterator(options));
  place->SeekToFirst();
  for (const auto& pair : pairs) {
    if (!place->Valid()) Differs("LevelDB ends forwards", pair.first);
    if (place->key() != pair.first || place->value() != pair.second) Differs("LevelDB differs forwards", place->key());
    place->Next();
  }
  if (place->Valid()) Differs("LevelDB goes on forwards", place->key());
  place->SeekToLast();
  for (auto pair = pairs.rbegin(); pair != pairs.rend(); ++pair) {
    if (!place->Valid()) Differs("LevelDB ends backwards", pair->first);
    if (place->key() != pair->first || place->value() != pair->second) Differs("LevelDB differs backwards", place->key());
    place->Prev();
  }
  if (place->Valid()) Differs("LevelDB goes on backwards", place->key());
  Check(place->status());
}

void Ask(leveldb::DB* database, const Pairs& pairs, const std::string& key) {
  leveldb::ReadOptions options;
  options.verify_checksums = true;
  std::string value;
  leveldb::Status status = database->Get(options, key, &value);
  if (!status.IsNotFound()) Check(status);
  auto pair = pairs.find(key);
  if (status.ok() != (pair != pairs.end())) Differs(status.ok() ? "LevelDB finds a key that is not listed" : "LevelDB finds nothing", key);
  if (status.ok() && value != pair->second) Differs("LevelDB finds another value", key);
}

void Same(const Kind& kind, const std::string& folder, const char* list) {
  std::unique_ptr<leveldb::DB> database(Open(kind, folder));
  Pairs pairs = Listed(list);
  Walk(database.get(), pairs);
  for (const auto& pair : pairs) {
    Ask(database.get(), pairs, pair.first);
    Ask(database.get(), pairs, pair.first + '\0');
  }
  Ask(database.get(), pairs, "");
}

void WriteMore(const Kind& kind, const std::string& folder, int count) {
  leveldb::DB* database = Open(kind, folder);
  for (int i = 0; i < count; i++) {
    std::string key = std::to_string(i * 7919 % (count + 1));
    if (static_cast<int>(key.size()) < kind.key) key.insert(0, kind.key - key.size(), 'k');
    Check(i % 3 == 2 ? database->Delete(leveldb::WriteOptions(), key) : database->Put(leveldb::WriteOptions(), key, "more" + std::to_string(i)));
  }
  database->CompactRange(nullptr, nullptr);
  delete database;
  delete Open(kind, folder);
}

void PutOne(const std::string& folder, const std::string& key, const std::string& value) {
  std::unique_ptr<leveldb::DB> database(Open(kKinds[0], folder));
  Check(database->Put(leveldb::WriteOptions(), key, value));
}

const Kind& Named(const char* name) {
  for (const Kind& kind : kKinds) {
    if (std::strcmp(kind.name, name) == 0) return kind;
  }
  std::fprintf(stderr, "no kind %s\n", name);
  std::exit(2);
}

}  // namespace

int main(int count, char** words) {
  std::string what = count > 1 ? words[1] : "";
  if (what == "kinds" && count == 2) {
    for (const Kind& kind : kKinds) std::printf("%s\n", kind.name);
    return 0;
  }
  if (what == "scan" && count == 3) {
    Scan(words[2]);
    return 0;
  }
  if (what == "spans" && count == 3) {
    Spans(words[2]);
    return 0;
  }
  if (what == "get" && count >= 4) {
    Get(words[2], count - 3, words + 3);
    return 0;
  }
  if (what == "make" && count == 4) {
    Make(Named(words[3]), words[2]);
    return 0;
  }
  if (what == "edits" && count == 3) {
    Printed out;
    Check(leveldb::DumpFile(leveldb::Env::Default(), words[2], &out));
    return 0;
  }
  if (what == "same" && count == 5) {
    Same(Named(words[3]), words[2], words[4]);
    return 0;
  }
  if (what == "write" && count == 5) {
    WriteMore(Named(words[3]), words[2], std::atoi(words[4]));
    return 0;
  }
  if (what == "put" && count == 5) {
    PutOne(words[2], Bytes(words[3]), Bytes(words[4]));
    return 0;
  }
  std::fprintf(stderr, "usage: directory kinds | make DIR KIND | scan DIR | get DIR KEY.. | spans DIR | edits FILE | same DIR KIND LIST | write DIR KIND COUNT | put DIR KEY VALUE\n");
  return 2;
}
