// Batches of 1,000 pairs at random by LevelDB's library, each synced: leveldb DIR BATCHES. Prints for each
// how many seconds it took. The pairs are those of waits.py.
#include <chrono>
#include <cinttypes>
#include <cstdio>
#include <cstdlib>
#include <map>
#include <string>

#include "leveldb/db.h"
#include "leveldb/write_batch.h"

static std::uint64_t mixed(std::uint64_t x) {  // splitmix64
  x += 0x9e3779b97f4a7c15u;
  x = (x ^ (x >> 30)) * 0xbf58476d1ce4e5b9u;
  x = (x ^ (x >> 27)) * 0x94d049bb133111ebu;
  return x ^ (x >> 31);
}

int main(int count, char** words) {
  if (count != 3) return 2;
  leveldb::DB* db;
  leveldb::Options options;
  options.create_if_missing = true;
  options.compression = leveldb::kNoCompression;
  if (!leveldb::DB::Open(options, words[1], &db).ok()) return 1;
  leveldb::WriteOptions synced;
  synced.sync = true;
  const std::uint64_t batches = strtoull(words[2], nullptr, 10);
  for (std::uint64_t batch = 0; batch < batches; batch++) {
    leveldb::WriteBatch writes;
    for (std::uint64_t i = batch * 1000; i < (batch + 1) * 1000; i++) {
      char key[20], part[20];
      snprintf(key, sizeof key, "%016" PRIu64, mixed(i) % 10000000000000000u);
      snprintf(part, sizeof part, "%016" PRIx64, mixed(~i));
      std::string value;
      while (value.size() < 100) value += part;
      value.resize(100);
      writes.Put(key, value);
    }
    const auto start = std::chrono::steady_clock::now();
    if (!db->Write(synced, &writes).ok()) return 1;
    const std::chrono::duration<double> took = std::chrono::steady_clock::now() - start;
    printf("%.6f\n", took.count());
  }
  delete db;
  return 0;
}
