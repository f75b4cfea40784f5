// The work of table.sh by the real LevelDB (Debian's libleveldb-dev), each in a process of its own, as `lsm` does it: checksums are verified,
// nothing is compressed.
//
//   leveldb sorted DIR ENTRIES          makes a database of so many entries of 16 + 100 bytes, written in order
//   leveldb young DIR GROUPS ENTRIES    makes one of four tables of level 0 for each group, of so many entries and the same keys; no two
//                                       groups have keys in common
//   leveldb scan DIR                    opens and reads all; prints how many bytes
//   leveldb print DIR                   the same, and prints the pairs as `lsm scan` does
//   leveldb get DIR KEY                 opens and reads one key, in hex; prints as `lsm get` does
//   leveldb compact DIR                 opens, and waits until no level is too large
//   leveldb mktable < LIST              the table of a list, as `lsm mktable` reads it
//   leveldb dump < TABLE                the list of a table, as `lsm dump` prints it
//   leveldb alone DIR KEYS READS        times what the program of reading.rattle times under these words, and prints the same lines;
//   leveldb cached DIR KEYS READS       `verified_1` is a first scan, of files that were not mapped yet, `scan_1` a second one
//   leveldb uncached DIR KEYS READS
//   leveldb compact1 DIR KEYS 0         as `compact`, timed within the process, opening included
#include <sys/wait.h>
#include <unistd.h>

#include <algorithm>
#include <atomic>
#include <chrono>
#include <condition_variable>
#include <cstdint>
#include <cstdio>
#include <cstdlib>
#include <cstring>
#include <memory>
#include <mutex>
#include <string>
#include <thread>
#include <vector>

#include "../../checks/leveldb_tables/internal_keys.h"
#include "leveldb/cache.h"
#include "leveldb/db.h"
#include "leveldb/env.h"
#include "leveldb/iterator.h"
#include "leveldb/table.h"
#include "leveldb/table_builder.h"
#include "leveldb/write_batch.h"

namespace {

void Check(const leveldb::Status& status) {
  if (status.ok()) return;
  std::fprintf(stderr, "%s\n", status.ToString().c_str());
  std::exit(1);
}

// Knows when nothing is left to do in the background, or lets nothing be done there.
class Watched : public leveldb::EnvWrapper {
 public:
  explicit Watched(bool idle) : EnvWrapper(leveldb::Env::Default()), idle_(idle) {}

  void Schedule(void (*work)(void*), void* of) override {
    std::lock_guard<std::mutex> guard(lock_);
    left_++;
    if (idle_) return;
    works_.push_back({work, of});
    target()->Schedule([](void* self) { static_cast<Watched*>(self)->Work(); }, this);
  }

  // With eight tables at level 0 LevelDB lets each write wait a millisecond for a compaction. Where none is let be done it would wait
  // for nothing, at each entry.
  void SleepForMicroseconds(int micros) override {
    if (!idle_) target()->SleepForMicroseconds(micros);
  }

  void Wait() {
    std::unique_lock<std::mutex> guard(lock_);
    changed_.wait(guard, [this] { return left_ == 0; });
  }

 private:
  void Work() {
    std::pair<void (*)(void*), void*> next;
    {
      std::lock_guard<std::mutex> guard(lock_);
      next = works_.front();
      works_.erase(works_.begin());
    }
    next.first(next.second);
    std::lock_guard<std::mutex> guard(lock_);
    left_--;
    changed_.notify_all();
  }

  bool idle_;
  std::mutex lock_;
  std::condition_variable changed_;
  std::vector<std::pair<void (*)(void*), void*>> works_;
  int left_ = 0;
};

leveldb::DB* Open(const std::string& folder, leveldb::Env* env = nullptr, size_t buffer = 4 << 20) {
  leveldb::Options options;
  if (env != nullptr) options.env = env;
  options.create_if_missing = true;
  options.compression = leveldb::kNoCompression;
  options.paranoid_checks = true;
  options.write_buffer_size = buffer;
  leveldb::DB* database;
  Check(leveldb::DB::Open(options, folder, &database));
  return database;
}

void PutKey(char* out, uint64_t number) {
  uint64_t rest = number * 4001;
  for (int i = 15; i >= 0; i--, rest >>= 4) out[i] = "0123456789abcdef"[rest & 15];
}

std::string Text() {
  std::string text;
  for (uint32_t i = 0; i < 65536; i++) text.push_back(static_cast<char>(i * 2654435761u >> 24));
  return text;
}

void Put(leveldb::DB* database, const std::string& text, uint64_t number) {
  char key[16];
  PutKey(key, number);
  Check(database->Put({}, leveldb::Slice(key, 16), leveldb::Slice(text.data() + (number * 101 & 0x7fff), 100)));
}

void MakeSorted(const std::string& folder, uint64_t entries) {
  std::string text = Text();
  Watched env(false);
  std::unique_ptr<leveldb::DB> database(Open(folder, &env));
  for (uint64_t i = 0; i < entries; i++) Put(database.get(), text, i);
  database.reset();
  database.reset(Open(folder, &env));  // what its log has comes into a table
  env.Wait();
}

// What is written before a database is opened stands in a table of level 0 afterwards. Its destructor waits for what is not done.
void MakeYoung(const std::string& folder, uint64_t groups, uint64_t entries) {
  std::string text = Text();
  for (uint64_t table = 0; table <= 4 * groups; table++) {
    pid_t child = fork();
    if (child == 0) {
      Watched env(true);
      leveldb::DB* database = Open(folder, &env, size_t{1} << 30);
      for (uint64_t i = 0; table < 4 * groups && i < entries; i++) Put(database, text, table / 4 * entries + i);
      _exit(0);
    }
    int status = 0;
    if (child < 0 || waitpid(child, &status, 0) != child || status != 0) std::exit(1);
  }
}

std::string ToHex(const leveldb::Slice& bytes) {
  if (bytes.empty()) return ".";
  std::string word(2 * bytes.size(), ' ');
  for (size_t i = 0; i < bytes.size(); i++) {
    word[2 * i] = "0123456789abcdef"[static_cast<unsigned char>(bytes[i]) >> 4];
    word[2 * i + 1] = "0123456789abcdef"[static_cast<unsigned char>(bytes[i]) & 15];
  }
  return word;
}

int Digit(char c) { return c <= '9' ? c - '0' : (c | 32) - 'a' + 10; }

std::string FromHex(const char* from, const char* to) {
  std::string bytes;
  if (to - from == 1) return bytes;
  for (; from < to; from += 2) bytes.push_back(static_cast<char>(Digit(from[0]) << 4 | Digit(from[1])));
  return bytes;
}

void Write(const std::string& bytes) {
  if (std::fwrite(bytes.data(), 1, bytes.size(), stdout) != bytes.size()) std::exit(1);
}

void Scan(const std::string& folder, bool print) {
  std::unique_ptr<leveldb::DB> database(Open(folder));
  leveldb::ReadOptions options;
  options.verify_checksums = true;
  options.fill_cache = false;
  std::unique_ptr<leveldb::Iterator> place(database->NewIterator(options));
  unsigned long long bytes = 0;
  for (place->SeekToFirst(); place->Valid(); place->Next()) {
    bytes += place->key().size() + place->value().size();
    if (print) Write(ToHex(place->key()) + "=" + ToHex(place->value()) + "\n");
  }
  Check(place->status());
  if (!print) std::printf("%llu\n", bytes);
}

void Get(const std::string& folder, const char* word) {
  std::unique_ptr<leveldb::DB> database(Open(folder));
  leveldb::ReadOptions options;
  options.verify_checksums = true;
  std::string value;
  Check(database->Get(options, FromHex(word, word + std::strlen(word)), &value));
  Write("value " + ToHex(value) + "\n");
}

void Compact(const std::string& folder) {
  Watched env(false);
  std::unique_ptr<leveldb::DB> database(Open(folder, &env));
  env.Wait();
}

// A table in memory.
class Bytes : public leveldb::WritableFile, public leveldb::RandomAccessFile {
 public:
  leveldb::Status Append(const leveldb::Slice& more) override {
    text.append(more.data(), more.size());
    return leveldb::Status::OK();
  }
  leveldb::Status Close() override { return leveldb::Status::OK(); }
  leveldb::Status Flush() override { return leveldb::Status::OK(); }
  leveldb::Status Sync() override { return leveldb::Status::OK(); }
  leveldb::Status Read(uint64_t offset, size_t count, leveldb::Slice* result, char*) const override {
    *result = leveldb::Slice(text.data() + offset, count);
    return leveldb::Status::OK();
  }

  std::string text;
};

std::string Input() {
  std::string bytes;
  char part[65536];
  while (size_t count = std::fread(part, 1, sizeof part, stdin)) bytes.append(part, count);
  return bytes;
}

void MakeTable() {
  InternalKeys order;
  leveldb::Options options;
  options.comparator = &order;
  options.compression = leveldb::kNoCompression;
  Bytes file;
  leveldb::TableBuilder builder(options, &file);
  std::string list = Input(), key, value;
  for (const char *line = list.data(), *all = line + list.size(); line < all;) {
    const char* end = static_cast<const char*>(std::memchr(line, '\n', all - line));
    const char* a = static_cast<const char*>(std::memchr(line, ' ', end - line));
    char* b;
    uint64_t packed = std::strtoull(a + 1, &b, 10) << 8;
    bool put = b[1] == 'p';
    key = FromHex(line, a);
    packed |= put;
    for (int i = 0; i < 8; i++) key.push_back(static_cast<char>(packed >> (8 * i)));
    value = put ? FromHex(b + 5, end) : std::string();
    builder.Add(key, value);
    line = end + 1;
  }
  Check(builder.Finish());
  Write(file.text);
}

void Dump() {
  InternalKeys order;
  leveldb::Options options;
  options.comparator = &order;
  options.paranoid_checks = true;
  Bytes file;
  file.text = Input();
  leveldb::Table* opened;
  Check(leveldb::Table::Open(options, &file, file.text.size(), &opened));
  std::unique_ptr<leveldb::Table> table(opened);
  leveldb::ReadOptions reads;
  reads.verify_checksums = true;
  std::unique_ptr<leveldb::Iterator> place(table->NewIterator(reads));
  for (place->SeekToFirst(); place->Valid(); place->Next()) {
    uint64_t packed = Packed(place->key());
    std::string line = ToHex(leveldb::Slice(place->key().data(), place->key().size() - 8)) + " " + std::to_string(packed >> 8);
    Write((packed & 255) == 1 ? line + " put " + ToHex(place->value()) + "\n" : line + " del\n");
  }
  Check(place->status());
}

// What reading.rattle times. A database with a cache that holds all blocks of the first keys, or none at all; it always holds the indexes
// of its tables.
constexpr uint64_t kCached = 100000, kBatch = 10000;

class Reading {
 public:
  Reading(const std::string& folder, uint64_t keys, bool cached)
      : name_(cached ? "cached" : "uncached"),
        keys_(keys),
        read_(cached ? std::min(keys, kCached) : keys),
        cache_(leveldb::NewLRUCache(cached ? 64 << 20 : 0)) {
    leveldb::Options options;
    options.compression = leveldb::kNoCompression;
    options.paranoid_checks = true;
    options.block_cache = cache_.get();
    reads_.verify_checksums = true;
    reads_.fill_cache = cached;
    leveldb::DB* database;
    Check(leveldb::DB::Open(options, folder, &database));
    database_.reset(database);
  }

  // Reads each key once that is so many numbers behind the one before.
  void Warm(uint64_t apart) {
    std::string value;
    for (uint64_t number = 0; number < read_ / apart * apart; number += apart) Mark(number, &value);
  }

  void TimeScan(const char* name) {
    Clock::time_point from = Clock::now();
    leveldb::ReadOptions options = reads_;
    options.fill_cache = false;
    std::unique_ptr<leveldb::Iterator> place(database_->NewIterator(options));
    uint64_t count = 0, sum = 0;
    for (place->SeekToFirst(); place->Valid(); place->Next(), count++) {
      leveldb::Slice key = place->key();
      sum = sum * 31 + Word(key.data() + key.size() - 8) + MarkOf(place->value());
    }
    Check(place->status());
    Tell(name, 1, count, from, sum);
  }

  // So many drawn keys by each of so many threads.
  void TimeReads(const char* when, int by, uint64_t reads) {
    std::atomic<uint64_t> sum{0};
    Clock::time_point from = Clock::now();
    std::vector<std::thread> readers;
    for (int seed = 1; seed <= by; seed++) readers.emplace_back([this, &sum, seed, reads] { sum += Read(seed, reads); });
    for (std::thread& reader : readers) reader.join();
    Tell((name_ + when).c_str(), by, by * reads, from, sum);
  }

  void TimeBeside(int by, uint64_t reads) {
    std::atomic<bool> stop{false};
    uint64_t written = 0;
    Clock::time_point from = Clock::now();
    std::thread writer([&] { written = Rewrite(&stop); });
    TimeReads("_beside", by, reads);
    stop = true;
    writer.join();
    Tell((name_ + "_writer").c_str(), by, written, from, 0);
  }

 private:
  using Clock = std::chrono::steady_clock;

  static void Tell(const char* name, int by, uint64_t count, Clock::time_point from, uint64_t sum) {
    long long spent = std::chrono::nanoseconds(Clock::now() - from).count();
    std::printf("%s_%d %llu %lld %llu\n", name, by, static_cast<unsigned long long>(count), spent, static_cast<unsigned long long>(sum));
  }

  static uint64_t Word(const char* bytes) {
    uint64_t word;
    std::memcpy(&word, bytes, 8);
    return word;
  }

  static uint64_t MarkOf(const leveldb::Slice& value) { return Word(value.data()) + value.size(); }

  uint64_t Mark(uint64_t number, std::string* value) {
    char key[16];
    PutKey(key, number);
    Check(database_->Get(reads_, leveldb::Slice(key, 16), value));
    return MarkOf(*value);
  }

  uint64_t Read(uint64_t seed, uint64_t reads) {
    uint64_t sum = 0, state = seed;
    std::string value;
    for (uint64_t i = 0; i < reads; i++) {
      state = state * 6364136223846793005u + 1442695040888963407u;
      sum += Mark((state >> 33) % read_, &value);
    }
    return sum;
  }

  // Writes values that are there again until it is to stop, a batch each tenth of a second where it can: how many entries.
  uint64_t Rewrite(const std::atomic<bool>* stop) {
    std::string text = Text();
    uint64_t rounds = 0, apart = std::max<uint64_t>(keys_ / kBatch, 1);
    leveldb::WriteOptions options;
    options.sync = true;
    Clock::time_point from = Clock::now();
    for (;; rounds++) {
      std::this_thread::sleep_until(from + rounds * std::chrono::milliseconds(100));
      if (*stop) return rounds * kBatch;
      leveldb::WriteBatch batch;
      for (uint64_t i = 0; i < kBatch; i++) {
        uint64_t number = i * apart + rounds % apart;
        char key[16];
        PutKey(key, number);
        batch.Put(leveldb::Slice(key, 16), leveldb::Slice(text.data() + (number * 101 & 0x7fff), 100));
      }
      Check(database_->Write(options, &batch));
    }
  }

  std::string name_;
  uint64_t keys_, read_;
  std::unique_ptr<leveldb::Cache> cache_;
  leveldb::ReadOptions reads_;
  std::unique_ptr<leveldb::DB> database_;
};

void Alone(const std::string& folder, uint64_t keys, uint64_t reads) {
  {
    Reading reading(folder, keys, true);
    reading.TimeScan("verified");
    reading.Warm(1);
    for (int by : {1, 4}) reading.TimeReads("", by, reads);
  }
  Reading reading(folder, keys, false);
  reading.Warm(1000);
  for (int by : {1, 4}) reading.TimeReads("", by, reads / 5);
  reading.TimeScan("scan");
}

void Compact1(const std::string& folder, uint64_t keys) {
  auto from = std::chrono::steady_clock::now();
  Watched env(false);
  std::unique_ptr<leveldb::DB> database(Open(folder, &env));
  env.Wait();
  long long spent = std::chrono::nanoseconds(std::chrono::steady_clock::now() - from).count();
  std::printf("compact_1 %llu %lld 0\n", static_cast<unsigned long long>(keys), spent);
}

void Beside(const std::string& folder, uint64_t keys, uint64_t reads, bool cached) {
  Reading reading(folder, keys, cached);
  reading.Warm(cached ? 1 : 1000);
  uint64_t count = (cached ? reads : reads / 5) / 2;
  for (int by : {1, 4}) reading.TimeReads("_newest", by, count);
  for (int by : {1, 4}) reading.TimeBeside(by, count);
}

}  // namespace

int main(int count, char** words) {
  std::string what = count > 1 ? words[1] : "";
  if (what == "sorted" && count == 4) {
    MakeSorted(words[2], std::strtoull(words[3], nullptr, 10));
  } else if (what == "young" && count == 5) {
    MakeYoung(words[2], std::strtoull(words[3], nullptr, 10), std::strtoull(words[4], nullptr, 10));
  } else if ((what == "scan" || what == "print") && count == 3) {
    Scan(words[2], what == "print");
  } else if (what == "get" && count == 4) {
    Get(words[2], words[3]);
  } else if (what == "compact" && count == 3) {
    Compact(words[2]);
  } else if (what == "mktable" && count == 2) {
    MakeTable();
  } else if (what == "dump" && count == 2) {
    Dump();
  } else if (what == "compact1" && count == 5) {
    Compact1(words[2], std::strtoull(words[3], nullptr, 10));
  } else if (what == "alone" && count == 5) {
    Alone(words[2], std::strtoull(words[3], nullptr, 10), std::strtoull(words[4], nullptr, 10));
  } else if ((what == "cached" || what == "uncached") && count == 5) {
    Beside(words[2], std::strtoull(words[3], nullptr, 10), std::strtoull(words[4], nullptr, 10), what == "cached");
  } else {
    std::fprintf(stderr, "usage: see the head of leveldb.cc\n");
    return 2;
  }
  return 0;
}
