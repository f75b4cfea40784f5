// Folders of the real LevelDB with its default options, where nothing else is said: blocks that
// Snappy compressed, and a log that is not flushed.
//
//   folders kinds           prints the names of the kinds
//   folders make DIR KIND   makes DIR of that kind
//   folders scan DIR        prints each live key with its value, as KEY=VALUE in hex, `.` for no
//                           bytes; it opens DIR to write
#include <unistd.h>

#include <cstdio>
#include <cstdlib>
#include <cstring>
#include <string>
#include <vector>

#include "leveldb/db.h"
#include "leveldb/env.h"
#include "leveldb/filter_policy.h"
#include "leveldb/options.h"
#include "leveldb/write_batch.h"

namespace {

struct Kind {
  const char* name;
  int writes;       // in all
  int keys;         // how many different ones
  int value;        // bytes of a value at most
  int drawn;        // of a value's bytes one in so many is drawn, the others repeat; 1: all
  int delete_each;  // each so many writes one is a deletion; 0: none
  int batch;        // writes in a batch
  int reopen;       // how often it is closed and opened in between
  bool bloom;
  bool flushed;     // all but the last hundredth is compacted, and so in tables
  int buffer;       // bytes of a write buffer; 0: LevelDB's 4 MiB
  int block;        // bytes of a block
  int restart;      // entries a restart
  bool killed;      // two logs: nothing is flushed, and LevelDB is killed
};

const Kind kKinds[] = {
    {"empty", 0, 1, 0, 1, 0, 1, 0, false, false, 0, 4096, 16, false},
    {"one_in_a_log", 1, 1, 9, 1, 0, 1, 0, false, false, 0, 4096, 16, false},
    {"one_deletion", 2, 1, 9, 1, 2, 1, 0, false, false, 0, 4096, 16, false},
    {"log_alone", 4000, 1500, 60, 4, 7, 1, 0, false, false, 0, 4096, 16, false},
    {"batches", 20000, 6000, 60, 4, 7, 37, 0, false, false, 0, 4096, 16, false},
    {"tables_and_a_log", 90000, 30000, 200, 8, 0, 1, 0, false, false, 1 << 18, 4096, 16, false},
    {"deletions", 90000, 20000, 100, 8, 5, 10, 0, false, true, 1 << 18, 4096, 16, false},
    {"written_over", 90000, 3000, 100, 8, 0, 1, 0, false, true, 1 << 17, 4096, 16, false},
    {"defaults", 200000, 100000, 300, 8, 9, 20, 0, false, false, 0, 4096, 16, false},
    {"not_compressible", 20000, 9000, 400, 1, 9, 1, 0, false, false, 1 << 20, 4096, 16, false},
    {"bloom", 60000, 30000, 60, 8, 9, 1, 2, true, true, 1 << 18, 4096, 16, false},
    {"values_over_blocks", 300, 120, 200000, 16, 9, 1, 1, false, false, 1 << 20, 4096, 16, false},
    {"reopened_often", 20000, 5000, 80, 8, 11, 1, 25, false, false, 1 << 17, 4096, 16, false},
    {"small_blocks", 30000, 10000, 50, 8, 8, 1, 1, false, true, 1 << 17, 256, 4, false},
    {"no_restarts", 30000, 10000, 50, 8, 8, 1, 1, false, true, 1 << 17, 4096, 1000, false},
    {"two_logs", 3000, 900, 60, 8, 7, 3, 0, false, false, 1 << 16, 4096, 16, true},
    {"tables_and_two_logs", 40000, 9000, 60, 8, 7, 3, 3, false, false, 1 << 17, 4096, 16, true},
    {"log_of_64_mib", 20000, 8000, 7000, 8, 9, 5, 0, false, false, 1 << 28, 4096, 16, false},
};

// LevelDB asks for its flushes here, and they are not done.
class NoFlushes : public leveldb::EnvWrapper {
 public:
  explicit NoFlushes(leveldb::Env* env) : leveldb::EnvWrapper(env) {}
  void Schedule(void (*)(void*), void*) override {}
};

int Logs(const std::string& folder) {
  std::vector<std::string> names;
  leveldb::Env::Default()->GetChildren(folder, &names);
  int logs = 0;
  for (const std::string& name : names) {
    if (name.size() > 4 && name.substr(name.size() - 4) == ".log") logs++;
  }
  return logs;
}

void Check(const leveldb::Status& status) {
  if (status.ok()) return;
  std::fprintf(stderr, "%s\n", status.ToString().c_str());
  std::exit(1);
}

leveldb::DB* Open(const Kind& kind, const std::string& folder, leveldb::Env* env) {
  leveldb::Options options;
  options.create_if_missing = true;
  options.env = env;
  if (kind.buffer != 0) options.write_buffer_size = kind.buffer;
  options.block_size = kind.block;
  options.block_restart_interval = kind.restart;
  if (kind.bloom) options.filter_policy = leveldb::NewBloomFilterPolicy(10);
  leveldb::DB* database = nullptr;
  Check(leveldb::DB::Open(options, folder, &database));
  return database;
}

class Writer {
 public:
  explicit Writer(const Kind& kind) : kind_(kind) {}

  // One batch of writes.
  void Write(leveldb::DB* database) {
    leveldb::WriteBatch batch;
    for (int i = 0; i < kind_.batch && done_ < kind_.writes; i++, done_++) {
      std::string key = std::to_string(Drawn() % static_cast<unsigned>(kind_.keys));
      if (kind_.delete_each != 0 && done_ % kind_.delete_each == kind_.delete_each - 1) {
        batch.Delete(key);
      } else {
        batch.Put(key, Value());
      }
    }
    Check(database->Write(leveldb::WriteOptions(), &batch));
  }

  int done() const { return done_; }

 private:
  unsigned Drawn() {
    state_ = state_ * 6364136223846793005ull + 1442695040888963407ull;
    return static_cast<unsigned>(state_ >> 33);
  }

  std::string Value() {
    std::string value = std::to_string(done_);
    const size_t size = kind_.value == 0 ? 0 : Drawn() % static_cast<unsigned>(kind_.value + 1);
    while (value.size() < size) {
      value.push_back(value.size() % kind_.drawn == 0 ? static_cast<char>(Drawn()) : 'v');
    }
    value.resize(size);
    return value;
  }

  const Kind& kind_;
  int done_ = 0;
  unsigned long long state_ = 12345;
};

void Make(const Kind& kind, const std::string& folder) {
  leveldb::Env* env = leveldb::Env::Default();
  leveldb::DB* database = Open(kind, folder, env);
  Writer writer(kind);
  const int turn = kind.writes / (kind.reopen + 1) + 1;
  const int end = kind.killed ? kind.writes / 2 : kind.writes;
  bool compacted = false;
  for (int last = 0; writer.done() < end;) {
    writer.Write(database);
    if (kind.flushed && !compacted && writer.done() > kind.writes / 100 * 99) {
      database->CompactRange(nullptr, nullptr);
      compacted = true;
    }
    if (kind.reopen != 0 && writer.done() / turn > last) {
      last = writer.done() / turn;
      delete database;
      database = Open(kind, folder, env);
    }
  }
  delete database;
  if (!kind.killed) return;
  NoFlushes without(env);
  database = Open(kind, folder, &without);
  while (Logs(folder) < 2 && writer.done() < kind.writes) writer.Write(database);
  for (int i = 0; i < 50; i++) writer.Write(database);
  _exit(0);
}

std::string Hex(const leveldb::Slice& bytes) {
  static const char digits[] = "0123456789abcdef";
  if (bytes.empty()) return ".";
  std::string text;
  for (size_t i = 0; i < bytes.size(); i++) {
    text.push_back(digits[static_cast<unsigned char>(bytes[i]) >> 4]);
    text.push_back(digits[static_cast<unsigned char>(bytes[i]) & 15]);
  }
  return text;
}

void Scan(const std::string& folder) {
  leveldb::Options options;
  options.filter_policy = leveldb::NewBloomFilterPolicy(10);
  leveldb::DB* database = nullptr;
  Check(leveldb::DB::Open(options, folder, &database));
  leveldb::Iterator* pairs = database->NewIterator(leveldb::ReadOptions());
  for (pairs->SeekToFirst(); pairs->Valid(); pairs->Next()) {
    std::printf("%s=%s\n", Hex(pairs->key()).c_str(), Hex(pairs->value()).c_str());
  }
  Check(pairs->status());
  delete pairs;
  delete database;
}

}  // namespace

int main(int count, char** words) {
  const std::string word = count > 1 ? words[1] : "";
  if (word == "kinds") {
    for (const Kind& kind : kKinds) std::printf("%s\n", kind.name);
    return 0;
  }
  if (word == "scan" && count == 3) {
    Scan(words[2]);
    return 0;
  }
  if (word == "make" && count == 4) {
    for (const Kind& kind : kKinds) {
      if (std::strcmp(kind.name, words[3]) != 0) continue;
      Make(kind, words[2]);
      return 0;
    }
  }
  std::fprintf(stderr, "folders: see the head of folders.cc\n");
  return 2;
}
