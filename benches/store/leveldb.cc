// The work of store.rattle by the real LevelDB (Debian's libleveldb-dev), over the directories that store.rattle makes: reads of single keys by
// 1, 2 and 4 threads, alone and beside a writer, and the compaction of four groups of tables by LevelDB's one thread. Checksums are
// verified, as store.rattle does.
//
//   leveldb reads DIR warm|cold     reads and entries a second; DIR is written to
//   leveldb compact DIR file|memory MB of input a second, in DIR itself or in a copy in memory
#include <atomic>
#include <chrono>
#include <condition_variable>
#include <cstdio>
#include <cstdlib>
#include <cstring>
#include <memory>
#include <mutex>
#include <string>
#include <thread>
#include <vector>

#include "leveldb/cache.h"
#include "leveldb/db.h"
#include "leveldb/env.h"
#include "leveldb/helpers/memenv.h"
#include "leveldb/write_batch.h"

namespace {

constexpr uint64_t kKeys = 200000;
constexpr uint64_t kBatch = 10000;

using Clock = std::chrono::steady_clock;

void Check(const leveldb::Status& status) {
  if (status.ok()) return;
  std::fprintf(stderr, "%s\n", status.ToString().c_str());
  std::exit(1);
}

long long Nanoseconds(Clock::time_point from, Clock::time_point to) {
  return std::chrono::nanoseconds(to - from).count();
}

uint64_t Rate(uint64_t count, long long nanoseconds) { return count * 1000000000 / nanoseconds; }

void PutKey(char* out, uint64_t number) {
  uint64_t rest = number * 4001;
  for (int i = 15; i >= 0; i--, rest >>= 4) out[i] = "0123456789abcdef"[rest & 15];
}

// Reads so many keys, in an order that the seed picks: how many bytes their values have.
uint64_t Read(leveldb::DB* database, uint64_t seed, uint32_t reads) {
  leveldb::ReadOptions options;
  options.verify_checksums = true;
  uint64_t bytes = 0, state = seed;
  std::string value;
  char key[16];
  for (uint32_t i = 0; i < reads; i++) {
    state = state * 6364136223846793005u + 1442695040888963407u;
    PutKey(key, (state >> 33) % kKeys);
    Check(database->Get(options, leveldb::Slice(key, 16), &value));
    bytes += value.size();
  }
  return bytes;
}

// Reads by so many threads at once: reads a second by all of them.
uint64_t TimeReads(leveldb::DB* database, int count, uint32_t reads) {
  std::atomic<uint64_t> bytes{0};
  auto from = Clock::now();
  std::vector<std::thread> readers;
  for (int i = 1; i <= count; i++) readers.emplace_back([&, i] { bytes += Read(database, i, reads); });
  for (std::thread& reader : readers) reader.join();
  long long spent = Nanoseconds(from, Clock::now());
  if (bytes != uint64_t{100} * count * reads) std::exit(1);
  return Rate(uint64_t{1} * count * reads, spent);
}

// Writes until it is to stop, a batch at each pause: how many entries.
uint64_t Write(leveldb::DB* database, std::chrono::milliseconds pause, const std::atomic<bool>* stop) {
  std::string text;
  for (uint32_t i = 0; i < 65536; i++) text.push_back(static_cast<char>(i * 2654435761u >> 24));
  uint64_t rounds = 0;
  char key[16];
  auto from = Clock::now();
  for (;; rounds++) {
    std::this_thread::sleep_until(from + rounds * pause);
    if (*stop) return rounds * kBatch;
    leveldb::WriteBatch batch;
    for (uint64_t i = 0; i < kBatch; i++) {
      uint64_t number = rounds % (kKeys / kBatch) + i * (kKeys / kBatch);
      PutKey(key, number);
      batch.Put(leveldb::Slice(key, 16), leveldb::Slice(text.data() + (number * 101 & 0x7fff), 100));
    }
    Check(database->Write({}, &batch));
  }
}

void TimeBeside(leveldb::DB* database, const char* name, int count, uint32_t reads, int pause, const char* beside) {
  std::atomic<bool> stop{false};
  uint64_t written = 0;
  auto from = Clock::now();
  std::thread writer([&] { written = Write(database, std::chrono::milliseconds(pause), &stop); });
  uint64_t rate = TimeReads(database, count, reads);
  stop = true;
  writer.join();
  long long spent = Nanoseconds(from, Clock::now());
  std::printf("leveldb %s_%d_beside_%s %llu\n", name, count, beside, static_cast<unsigned long long>(rate));
  std::printf("leveldb %s_%d_%s %llu\n", name, count, beside, static_cast<unsigned long long>(Rate(written, spent)));
}

leveldb::Options Sizes() {
  leveldb::Options options;
  options.compression = leveldb::kNoCompression;
  options.paranoid_checks = true;
  return options;
}

void Reads(const char* folder, const char* name) {
  bool warm = std::strcmp(name, "warm") == 0;
  uint32_t reads = warm ? 400000 : 50000;
  std::unique_ptr<leveldb::Cache> cache(leveldb::NewLRUCache((warm ? 4096 : 32) * 8192));
  leveldb::Options options = Sizes();
  options.block_size = 8192;
  options.block_cache = cache.get();
  leveldb::DB* opened;
  Check(leveldb::DB::Open(options, folder, &opened));
  std::unique_ptr<leveldb::DB> database(opened);
  TimeReads(database.get(), 4, reads);
  for (int count : {1, 2, 4}) {
    std::printf("leveldb %s_%d %llu\n", name, count, static_cast<unsigned long long>(TimeReads(database.get(), count, reads)));
  }
  for (int count : {1, 2, 4}) TimeBeside(database.get(), name, count, reads, 100, "writer");
  for (int count : {1, 2, 4}) TimeBeside(database.get(), name, count, reads, 0, "hurried");
}

// Keeps when work in the background began first and ended last, and whether some is still to be done.
class Timed : public leveldb::EnvWrapper {
 public:
  explicit Timed(leveldb::Env* env) : EnvWrapper(env) {}

  void Schedule(void (*work)(void*), void* of) override {
    std::lock_guard<std::mutex> guard(lock_);
    waiting_++;
    works_.push_back({work, of});
    target()->Schedule([](void* self) { static_cast<Timed*>(self)->Work(); }, this);
  }

  // Waits until nothing is to be done: nanoseconds from the first beginning to the last end.
  long long Spent() {
    std::unique_lock<std::mutex> guard(lock_);
    changed_.wait(guard, [this] { return begun_ && waiting_ == 0; });
    return Nanoseconds(from_, to_);
  }

 private:
  void Work() {
    std::pair<void (*)(void*), void*> next;
    {
      std::lock_guard<std::mutex> guard(lock_);
      if (!begun_) from_ = Clock::now();
      begun_ = true;
      next = works_.front();
      works_.erase(works_.begin());
    }
    next.first(next.second);
    std::lock_guard<std::mutex> guard(lock_);
    waiting_--;
    to_ = Clock::now();
    changed_.notify_all();
  }

  std::mutex lock_;
  std::condition_variable changed_;
  std::vector<std::pair<void (*)(void*), void*>> works_;
  int waiting_ = 0;
  bool begun_ = false;
  Clock::time_point from_, to_;
};

// Copies a folder's files into memory: how many bytes its tables have.
uint64_t Sum(leveldb::Env* from, leveldb::Env* to, const std::string& folder) {
  uint64_t tables = 0;
  std::vector<std::string> names;
  Check(from->GetChildren(folder, &names));
  for (const std::string& name : names) {
    if (name == "." || name == "..") continue;
    std::string bytes;
    Check(leveldb::ReadFileToString(from, folder + "/" + name, &bytes));
    if (to != from) Check(leveldb::WriteStringToFile(to, bytes, folder + "/" + name));
    if (name.size() > 4 && name.compare(name.size() - 4, 4, ".ldb") == 0) tables += bytes.size();
  }
  return tables;
}

void Compact(const char* folder, const char* place) {
  leveldb::Env* system = leveldb::Env::Default();
  std::unique_ptr<leveldb::Env> memory(leveldb::NewMemEnv(system));
  leveldb::Env* env = std::strcmp(place, "memory") == 0 ? memory.get() : system;
  uint64_t size = Sum(system, env, folder);
  Timed timed(env);
  leveldb::Options options = Sizes();
  options.env = &timed;
  leveldb::DB* opened;
  Check(leveldb::DB::Open(options, folder, &opened));
  std::unique_ptr<leveldb::DB> database(opened);
  long long spent = timed.Spent();
  std::printf("leveldb compact_%s %llu\n", place, static_cast<unsigned long long>(size * 1000 / spent));
  std::string left;
  for (int level = 0; level < 4; level++) {
    std::string files;
    database->GetProperty("leveldb.num-files-at-level" + std::to_string(level), &files);
    left += " " + files;
  }
  std::printf("leveldb files_%s%s\n", place, left.c_str());
}

}  // namespace

int main(int count, char** words) {
  if (count == 4 && std::strcmp(words[1], "reads") == 0) {
    Reads(words[2], words[3]);
    return 0;
  }
  if (count == 4 && std::strcmp(words[1], "compact") == 0) {
    Compact(words[2], words[3]);
    return 0;
  }
  return 2;
}
