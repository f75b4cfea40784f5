// Opens the LevelDB folder DIR, says `open`, and holds it until standard input ends: hold DIR.
#include <cstdio>
#include <memory>

#include "leveldb/db.h"

int main(int count, char** words) {
  leveldb::DB* database = nullptr;
  leveldb::Options options;
  options.compression = leveldb::kNoCompression;
  leveldb::Status status = count == 2 ? leveldb::DB::Open(options, words[1], &database) : leveldb::Status::InvalidArgument("hold DIR");
  if (!status.ok()) {
    std::fprintf(stderr, "%s\n", status.ToString().c_str());
    return 1;
  }
  std::unique_ptr<leveldb::DB> held(database);
  std::puts("open");
  std::fflush(stdout);
  while (std::getchar() != EOF) continue;
  return 0;
}
