// The same work as version.rattle with the real LevelDB (Debian's libleveldb-dev), over the directory that version.rattle made, so
// over the same tables at the same levels: reads of single keys and a scan, checksums verified. No compaction begins.
#include <unistd.h>

#include <chrono>
#include <cstdio>
#include <string>

#include "leveldb/db.h"
#include "leveldb/env.h"

namespace {

// Begins no work in the background.
class Still : public leveldb::EnvWrapper {
 public:
  Still() : EnvWrapper(leveldb::Env::Default()) {}
  void Schedule(void (*)(void*), void*) override {}
};

void PutKey(char* out, uint64_t number) {
  uint64_t rest = number * 4001;
  for (int i = 15; i >= 0; i--, rest >>= 4) out[i] = "0123456789abcdef"[rest & 15];
}

class Clock {
 public:
  void Print(const char* what, uint32_t times) {
    auto spent = std::chrono::steady_clock::now() - from_;
    std::printf("leveldb %s %lld\n", what, static_cast<long long>(std::chrono::nanoseconds(spent).count() / times));
  }

 private:
  std::chrono::steady_clock::time_point from_ = std::chrono::steady_clock::now();
};

}  // namespace

int main(int count, char** words) {
  if (count != 2) return 2;
  Still env;
  leveldb::Options options;
  options.env = &env;
  options.compression = leveldb::kNoCompression;
  leveldb::DB* db;
  leveldb::Status opened = leveldb::DB::Open(options, words[1], &db);
  if (!opened.ok()) {
    std::fprintf(stderr, "%s\n", opened.ToString().c_str());
    return 1;
  }
  leveldb::ReadOptions reads;
  reads.verify_checksums = true;
  const uint32_t kReads = 10000, kEntries = 1000000;
  char key[16];
  for (int turn = 0; turn < 3; turn++) {
    uint64_t lent = 0, pairs = 0, read = 0;
    Clock scan_lent;
    leveldb::Iterator* at = db->NewIterator(reads);
    for (at->SeekToFirst(); at->Valid(); at->Next()) lent += at->value().size();
    delete at;
    scan_lent.Print("scan_lent", kEntries);
    Clock scan;
    at = db->NewIterator(reads);
    for (at->SeekToFirst(); at->Valid(); at->Next()) {
      std::pair<std::string, std::string> pair(at->key().ToString(), at->value().ToString());
      pairs += pair.second.size() == 100;
    }
    delete at;
    scan.Print("scan", kEntries);
    std::string found;
    Clock get;
    for (uint32_t i = 0; i < kReads; i++) {
      PutKey(key, (i * 2654435761u >> 3) % 900000);
      if (db->Get(reads, leveldb::Slice(key, 16), &found).ok()) read += found.size();
    }
    get.Print("get", kReads);
    std::printf("leveldb values %llu %llu %llu\n", static_cast<unsigned long long>(pairs), static_cast<unsigned long long>(lent),
                static_cast<unsigned long long>(read));
  }
  std::fflush(stdout);
  _exit(0);  // its destructor would wait for the work that was not begun
}
