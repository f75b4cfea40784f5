// The writes of one kind of writer, by a LevelDB that stays open: leveldb DIR KIND BATCH SIZE. For each
// line `FIRST COUNT` of its input it writes so many from this one on, and prints a line: how many bytes
// the folder's files have after each eighth of them, and how many bytes it has written since it opened.
// From the second eighth on it holds a snapshot.
// The keys are those of soak.py.
#include <cinttypes>
#include <cstdio>
#include <cstdlib>
#include <cstring>
#include <filesystem>
#include <fstream>
#include <string>

#include "leveldb/db.h"
#include "leveldb/write_batch.h"

static unsigned long long written() {
  std::ifstream file("/proc/self/io");
  std::string name;
  unsigned long long count;
  while (file >> name >> count)
    if (name == "wchar:") return count;
  abort();
}

static unsigned long long used(const char* folder) {
  unsigned long long total = 0;
  std::error_code gone;
  for (const auto& entry : std::filesystem::directory_iterator(folder)) {
    const auto size = entry.file_size(gone);
    if (!gone) total += size;
  }
  return total;
}

static std::uint64_t mixed(std::uint64_t x) {  // splitmix64
  x += 0x9e3779b97f4a7c15u;
  x = (x ^ (x >> 30)) * 0xbf58476d1ce4e5b9u;
  x = (x ^ (x >> 27)) * 0x94d049bb133111ebu;
  return x ^ (x >> 31);
}

static std::uint64_t key_at(const std::string& kind, std::uint64_t i) {
  const std::uint64_t room = 10000000000000000u;
  if (kind == "ascending") return i;
  if (kind == "descending") return room - 1 - i;
  if (kind == "random") return mixed(i) % room;
  if (kind == "ends" || kind == "behind") {  // 200,000 loaded pairs in the middle half
    if (i < 200000) return 2500000000000000u + mixed(i) % 5000000000000000u;
    if (kind == "ends" && i % 24 == 0) return 2499999999999999u - i;
    return 7500000000000000u + i;
  }
  if (kind == "overwriting") return mixed(i) % 10000;
  if (kind == "streams") return i % 100 * 100000000000u + i / 100;
  abort();
}

// So many writes from this one on. Prints how many bytes the files have after each eighth.
static bool round_of(leveldb::DB* db, char** words, std::uint64_t first, std::uint64_t all) {
  const std::string kind = words[2];
  const std::uint64_t batch = strtoull(words[3], nullptr, 10), size = strtoull(words[4], nullptr, 10);
  leveldb::WriteBatch writes;
  const leveldb::Snapshot* held = nullptr;
  std::uint64_t eighths = 0;
  for (std::uint64_t i = first; i < first + all; i++) {
    char key[20], value[32];
    snprintf(key, sizeof key, "%016" PRIu64, key_at(kind, i));
    snprintf(value, sizeof value, "%016" PRIx64, mixed(~i));
    std::string text;
    while (text.size() < size) text += value;
    text.resize(size);
    writes.Put(key, text);
    if ((i - first + 1) % batch == 0 || i + 1 == first + all) {
      if (!db->Write(leveldb::WriteOptions(), &writes).ok()) return false;
      writes.Clear();
      const std::uint64_t done = i - first + 1;
      for (; eighths < 8 && done * 8 >= all * (eighths + 1); eighths++) {
        printf("%llu ", used(words[1]));
        if (eighths == 1) held = db->GetSnapshot();
      }
    }
  }
  if (held != nullptr) db->ReleaseSnapshot(held);
  return true;
}

int main(int count, char** words) {
  if (count != 5) return 2;
  leveldb::Options options;
  options.create_if_missing = true;
  options.compression = leveldb::kNoCompression;
  leveldb::DB* db;
  if (!leveldb::DB::Open(options, words[1], &db).ok()) return 1;
  const unsigned long long before = written();
  std::uint64_t first, all;
  while (scanf("%" SCNu64 " %" SCNu64, &first, &all) == 2) {
    if (!round_of(db, words, first, all)) return 1;
    printf("%llu\n", written() - before);
    fflush(stdout);
  }
  delete db;
}
