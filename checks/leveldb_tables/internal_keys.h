// LevelDB's order of internal keys, as a comparator that shortens no separator.
#pragma once
#include <cstdint>
#include <cstring>
#include <string>

#include "leveldb/comparator.h"
#include "leveldb/slice.h"

inline uint64_t Packed(const leveldb::Slice& key) {
  uint64_t packed;
  std::memcpy(&packed, key.data() + key.size() - 8, 8);
  return packed;
}

class InternalKeys : public leveldb::Comparator {
 public:
  int Compare(const leveldb::Slice& a, const leveldb::Slice& b) const override {
    int order = leveldb::Slice(a.data(), a.size() - 8).compare(leveldb::Slice(b.data(), b.size() - 8));
    if (order != 0) return order;
    uint64_t x = Packed(a), y = Packed(b);
    return x > y ? -1 : x < y ? 1 : 0;
  }
  const char* Name() const override { return "leveldb.InternalKeyComparator"; }
  void FindShortestSeparator(std::string*, const leveldb::Slice&) const override {}
  void FindShortSuccessor(std::string*) const override {}
};
