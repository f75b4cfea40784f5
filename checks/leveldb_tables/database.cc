// Makes a directory by the real LevelDB, uncompressed or by Snappy: some thousand keys, some written over, some
// deleted, compacted to tables.
//
//   database DIR KEYS [compressed]
#include <cstdio>
#include <cstdlib>
#include <string>

#include "leveldb/db.h"
#include "leveldb/filter_policy.h"
#include "leveldb/options.h"

int main(int count, char** words) {
  if (count != 3 && count != 4) return 2;
  leveldb::Options options;
  options.create_if_missing = true;
  options.compression = count == 4 ? leveldb::kSnappyCompression : leveldb::kNoCompression;
  options.filter_policy = leveldb::NewBloomFilterPolicy(10);
  options.write_buffer_size = 64 << 10;
  leveldb::DB* db;
  leveldb::Status status = leveldb::DB::Open(options, words[1], &db);
  int keys = std::atoi(words[2]);
  for (int i = 0; status.ok() && i < 3 * keys; i++) {
    unsigned mixed = static_cast<unsigned>(i) * 2654435761u;
    std::string key = "key" + std::to_string(mixed % static_cast<unsigned>(keys));
    status = i % 7 == 6 ? db->Delete(leveldb::WriteOptions(), key) : db->Put(leveldb::WriteOptions(), key, std::string(i % 100, 'v') + std::to_string(i));
  }
  if (status.ok()) db->CompactRange(nullptr, nullptr);
  delete db;
  if (!status.ok()) std::fprintf(stderr, "%s\n", status.ToString().c_str());
  return status.ok() ? 0 : 1;
}
