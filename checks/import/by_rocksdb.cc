// Folders by RocksDB (Debian's librocksdb-dev), not compressed, in the oldest form of its tables;
// a log that is not flushed.
//
//   by_rocksdb kinds            the kinds that were never flushed; the other one is rocksdb_flushed
//   by_rocksdb make DIR KIND
//   by_rocksdb scan DIR         prints each live key with its value, as KEY=VALUE in hex
#include <rocksdb/db.h>
#include <rocksdb/options.h>
#include <rocksdb/table.h>

#include <cstdio>
#include <cstdlib>
#include <cstring>
#include <memory>
#include <string>

struct Kind {
  const char* name;
  int writes;
  int batch;
  bool flushed;
};

const Kind kKinds[] = {
    {"rocksdb_log_alone", 3000, 1, false},
    {"rocksdb_batches", 6000, 20, false},
    {"rocksdb_flushed", 3000, 1, true},
};

static void Must(const rocksdb::Status& status) {
  if (status.ok()) return;
  std::fprintf(stderr, "%s\n", status.ToString().c_str());
  std::exit(1);
}

static rocksdb::DB* Open(const char* folder) {
  rocksdb::BlockBasedTableOptions table;
  table.format_version = 0;
  table.checksum = rocksdb::kCRC32c;
  rocksdb::Options options;
  options.create_if_missing = true;
  options.compression = rocksdb::kNoCompression;
  options.table_factory.reset(rocksdb::NewBlockBasedTableFactory(table));
  rocksdb::DB* database = nullptr;
  Must(rocksdb::DB::Open(options, folder, &database));
  return database;
}

static void Make(const char* folder, const Kind& kind) {
  std::unique_ptr<rocksdb::DB> database(Open(folder));
  unsigned state = 12345;
  for (int done = 0; done < kind.writes;) {
    rocksdb::WriteBatch batch;
    for (int i = 0; i < kind.batch; i++, done++) {
      state = state * 1664525u + 1013904223u;
      const std::string key = std::to_string((state >> 8) % 1200);
      if (done % 7 == 6) {
        Must(batch.Delete(key));
      } else {
        Must(batch.Put(key, std::to_string(done) + std::string((state >> 4) % 60, 'v')));
      }
    }
    Must(database->Write(rocksdb::WriteOptions(), &batch));
    if (kind.flushed && done == kind.writes / 2) Must(database->Flush(rocksdb::FlushOptions()));
  }
}

static void Print(const rocksdb::Slice& bytes) {
  if (bytes.empty()) std::fputs(".", stdout);
  for (size_t i = 0; i < bytes.size(); i++) std::printf("%02x", static_cast<unsigned char>(bytes[i]));
}

int main(int count, char** words) {
  const std::string word = count > 1 ? words[1] : "";
  if (word == "kinds") {
    for (const Kind& kind : kKinds) {
      if (!kind.flushed) std::printf("%s\n", kind.name);
    }
    return 0;
  }
  if (word == "make" && count == 4) {
    for (const Kind& kind : kKinds) {
      if (std::strcmp(kind.name, words[3]) != 0) continue;
      Make(words[2], kind);
      return 0;
    }
  }
  if (word == "scan" && count == 3) {
    std::unique_ptr<rocksdb::DB> database(Open(words[2]));
    std::unique_ptr<rocksdb::Iterator> place(database->NewIterator(rocksdb::ReadOptions()));
    for (place->SeekToFirst(); place->Valid(); place->Next()) {
      Print(place->key());
      std::fputs("=", stdout);
      Print(place->value());
      std::fputs("\n", stdout);
    }
    Must(place->status());
    return 0;
  }
  std::fprintf(stderr, "by_rocksdb: see the head of by_rocksdb.cc\n");
  return 2;
}
