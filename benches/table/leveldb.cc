// The same work as table.rattle with the real LevelDB (Debian's libleveldb-dev), the table in memory, checksums verified in the scan
// and in the reads, as the others verify them when they check. No block cache.
#include <chrono>
#include <cstdio>
#include <cstring>
#include <string>

#include "../leveldb/internal_keys.h"
#include "leveldb/env.h"
#include "leveldb/iterator.h"
#include "leveldb/options.h"
#include "leveldb/table.h"
#include "leveldb/table_builder.h"

namespace {

class Written : public leveldb::WritableFile {
 public:
  leveldb::Status Append(const leveldb::Slice& data) override {
    bytes.append(data.data(), data.size());
    return leveldb::Status::OK();
  }
  leveldb::Status Close() override { return leveldb::Status::OK(); }
  leveldb::Status Flush() override { return leveldb::Status::OK(); }
  leveldb::Status Sync() override { return leveldb::Status::OK(); }
  std::string bytes;
};

// Lends its bytes, as a file that is mapped into memory does.
class Lent : public leveldb::RandomAccessFile {
 public:
  explicit Lent(const std::string& bytes) : bytes_(bytes) {}
  leveldb::Status Read(uint64_t offset, size_t n, leveldb::Slice* result, char*) const override {
    *result = leveldb::Slice(bytes_.data() + offset, n);
    return leveldb::Status::OK();
  }

 private:
  const std::string& bytes_;
};

void PutKey(char* out, uint64_t number, uint64_t seq) {
  uint64_t rest = number * 4001;
  for (int i = 15; i >= 0; i--, rest >>= 4) out[i] = "0123456789abcdef"[rest & 15];
  uint64_t packed = seq << 8 | 1;
  std::memcpy(out + 16, &packed, 8);
}

const uint32_t kEntries = 1000000, kReads = 500000;


class Clock {
 public:
  void Print(const char* what, uint32_t times) {
    auto spent = std::chrono::steady_clock::now() - from_;
    std::printf("leveldb %s %lld\n", what, static_cast<long long>(std::chrono::nanoseconds(spent).count() / times));
  }

 private:
  std::chrono::steady_clock::time_point from_ = std::chrono::steady_clock::now();
};

}  // namespace

int main() {
  std::string text;
  for (uint32_t i = 0; i < 65536; i++) text.push_back(static_cast<char>(i * 2654435761u >> 24));
  InternalKeys keys;
  leveldb::Options options;
  options.comparator = &keys;
  options.compression = leveldb::kNoCompression;
  options.paranoid_checks = true;
  leveldb::ReadOptions reads;
  reads.verify_checksums = true;
  char key[24];
  for (int turn = 0; turn < 5; turn++) {
    Written file;
    Clock build;
    leveldb::TableBuilder builder(options, &file);
    for (uint32_t i = 0; i < kEntries; i++) {
      PutKey(key, i, i);
      builder.Add(leveldb::Slice(key, 24), leveldb::Slice(text.data() + (i * 101 & 0x7fff), 100));
    }
    if (!builder.Finish().ok()) return 1;
    build.Print("build", kEntries);
    std::printf("leveldb bytes %zu\n", file.bytes.size());
    Lent lent(file.bytes);
    leveldb::Table* table;
    if (!leveldb::Table::Open(options, &lent, file.bytes.size(), &table).ok()) return 1;
    uint64_t scanned = 0, read = 0;
    Clock scan;
    leveldb::Iterator* at = table->NewIterator(reads);
    for (at->SeekToFirst(); at->Valid(); at->Next()) scanned += at->value().size();
    delete at;
    scan.Print("verified_scan", kEntries);
    // A table of its own has no call for one key: an iterator that is made once seeks, as LevelDB's reads do inside.
    Clock get;
    at = table->NewIterator(reads);
    for (uint32_t i = 0; i < kReads; i++) {
      PutKey(key, (i * 2654435761u >> 3) % kEntries, (uint64_t{1} << 56) - 1);
      at->Seek(leveldb::Slice(key, 24));
      if (at->Valid() && std::memcmp(at->key().data(), key, 16) == 0) read += std::string(at->value().data(), at->value().size()).size();
    }
    delete at;
    get.Print("verified_get", kReads);
    std::printf("leveldb values %llu %llu\n", static_cast<unsigned long long>(scanned), static_cast<unsigned long long>(read));
    delete table;
  }
}
