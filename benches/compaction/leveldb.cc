// The same compaction as compaction.rattle by the real LevelDB (Debian's libleveldb-dev): four tables of level 0 with the same entries
// and sequences, merged into level 1, no snapshot held; the folder may lie in memory.
//
//   leveldb make DIR ENTRIES disjoint|equal     makes the four tables, of so many entries each
//   leveldb compact DIR NAME [trusting]         merges them; prints MB of input a second. Checksums are verified, unless it is trusting
#include <dirent.h>
#include <sys/stat.h>
#include <unistd.h>

#include <chrono>
#include <cstdio>
#include <cstdlib>
#include <cstring>
#include <string>
#include <vector>

#include "leveldb/db.h"
#include "leveldb/env.h"

namespace {

// Begins work in the background a moment late, so that the compaction that is asked for comes before any other, and keeps how long
// the longest took.
class Timed : public leveldb::EnvWrapper {
 public:
  Timed() : EnvWrapper(leveldb::Env::Default()) {}

  void Schedule(void (*work)(void*), void* of) override {
    work_ = work;
    of_ = of;
    target()->Schedule([](void* self) { static_cast<Timed*>(self)->Work(); }, this);
  }

  long long longest() const { return longest_; }

 private:
  void Work() {
    usleep(300000);
    auto work = work_;
    auto from = std::chrono::steady_clock::now();
    work(of_);
    long long spent = std::chrono::nanoseconds(std::chrono::steady_clock::now() - from).count();
    if (longest_ < spent) longest_ = spent;
  }

  void (*work_)(void*) = nullptr;
  void* of_ = nullptr;
  long long longest_ = 0;
};

void Check(const leveldb::Status& status) {
  if (status.ok()) return;
  std::fprintf(stderr, "%s\n", status.ToString().c_str());
  std::exit(1);
}

leveldb::DB* Open(Timed* env, const char* folder, bool trusting) {
  leveldb::Options options;
  options.env = env;
  options.create_if_missing = true;
  options.compression = leveldb::kNoCompression;
  options.paranoid_checks = !trusting;
  options.write_buffer_size = size_t{1} << 30;
  leveldb::DB* database;
  Check(leveldb::DB::Open(options, folder, &database));
  return database;
}

void PutKey(char* out, uint64_t number) {
  uint64_t rest = number * 4001;
  for (int i = 15; i >= 0; i--, rest >>= 4) out[i] = "0123456789abcdef"[rest & 15];
}

// What is written before a database is opened stands in a table of level 0 afterwards.
void Make(const char* folder, uint64_t entries, bool equal) {
  std::string text;
  for (uint32_t i = 0; i < 65536; i++) text.push_back(static_cast<char>(i * 2654435761u >> 24));
  char key[16];
  Timed env;
  for (uint64_t table = 0; table < 4; table++) {
    leveldb::DB* database = Open(&env, folder, true);
    for (uint64_t i = 0; i < entries; i++) {
      uint64_t number = equal ? i : table * entries + i;
      PutKey(key, number);
      Check(database->Put({}, leveldb::Slice(key, 16), leveldb::Slice(text.data() + (number * 101 & 0x7fff), 100)));
    }
    delete database;
  }
  delete Open(&env, folder, true);
}

std::vector<long long> Sizes(const char* folder) {
  std::vector<long long> sizes;
  DIR* files = opendir(folder);
  while (dirent* file = readdir(files)) {
    std::string name = file->d_name;
    struct stat of;
    if (name.size() > 4 && name.substr(name.size() - 4) == ".ldb" && stat((std::string(folder) + "/" + name).c_str(), &of) == 0) {
      sizes.push_back(of.st_size);
    }
  }
  closedir(files);
  return sizes;
}

void Compact(const char* folder, const char* name, bool trusting) {
  long long size = 0, made = 0;
  for (long long one : Sizes(folder)) size += one;
  Timed env;
  leveldb::DB* database = Open(&env, folder, trusting);
  database->CompactRange(nullptr, nullptr);
  std::printf("leveldb %s %lld\n", name, size * 1000 / env.longest());
  std::vector<long long> sizes = Sizes(folder);
  for (long long one : sizes) made += one;
  std::printf("leveldb bytes_%s %lld %lld %zu\n", name, size, made, sizes.size());
  std::fflush(stdout);
  _exit(0);  // its destructor would wait for the compaction that it began next
}

}  // namespace

int main(int count, char** words) {
  if (count == 5 && std::strcmp(words[1], "make") == 0) {
    Make(words[2], std::strtoull(words[3], nullptr, 10), std::strcmp(words[4], "equal") == 0);
    return 0;
  }
  if (count >= 4 && std::strcmp(words[1], "compact") == 0) {
    Compact(words[2], words[3], count == 5);
    return 0;
  }
  return 2;
}
