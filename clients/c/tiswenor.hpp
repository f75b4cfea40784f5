// A database of sorted keys in LevelDB's files, for C++17: types that own what tiswenor.h makes.
//
//   tiswenor::Database db("/tmp/fruit", tiswenor::Options().create_if_missing());
//   db.put("apple", "red");
//   std::optional<std::string> value = db.get("apple");
//
// Keys and values are bytes in string views. A call that is not done throws tiswenor::Error.
// Threads: as tiswenor.h says. A Snapshot or an Iterator ends before its Database.
#ifndef TISWENOR_HPP
#define TISWENOR_HPP

#include <cstdint>
#include <memory>
#include <new>
#include <optional>
#include <stdexcept>
#include <string>
#include <string_view>
#include <utility>
#include <vector>

#include "tiswenor.h"

namespace tiswenor {

// Why a call was not done: the text of tiswenor.h, and its number; of a call of the system that the
// text tells of, the call, the path of its file, and what the system answered, else nothing.
class Error : public std::runtime_error {
 public:
  explicit Error(const char* text)
      : std::runtime_error(text), number_(tiswenor_error_number(text)) {}
  int number() const noexcept { return number_; }
  std::string_view call() const noexcept {
    const tiswenor_cause_t it = cause();
    return {it.call, it.call_length};
  }
  std::string_view file() const noexcept {
    const tiswenor_cause_t it = cause();
    return {it.file, it.file_length};
  }
  std::string_view reason() const noexcept {
    const tiswenor_cause_t it = cause();
    return {it.reason, it.reason_length};
  }

 private:
  tiswenor_cause_t cause() const noexcept {
    tiswenor_cause_t it;
    tiswenor_error_cause(what(), &it);
    return it;
  }

  int number_;
};

namespace detail {

struct Free {
  void operator()(tiswenor_t* it) const noexcept { tiswenor_close(it); }
  void operator()(tiswenor_options_t* it) const noexcept { tiswenor_options_destroy(it); }
  void operator()(tiswenor_readoptions_t* it) const noexcept { tiswenor_readoptions_destroy(it); }
  void operator()(tiswenor_writebatch_t* it) const noexcept { tiswenor_writebatch_destroy(it); }
  void operator()(tiswenor_iterator_t* it) const noexcept { tiswenor_iter_destroy(it); }
  void operator()(char* it) const noexcept { tiswenor_free(it); }
};

template <class T>
using Owned = std::unique_ptr<T, Free>;

template <class T>
Owned<T> made(T* it) {
  if (it == nullptr) throw std::bad_alloc();
  return Owned<T>(it);
}

inline void check(char* error) {
  Owned<char> owned(error);
  if (error != nullptr) throw Error(error);
}

}  // namespace detail

// What the C calls tiswenor_options_set_.. set.
class Options {
 public:
  Options() : handle_(detail::made(tiswenor_options_create())) {}
  Options& create_if_missing(bool to = true) {
    tiswenor_options_set_create_if_missing(handle_.get(), to);
    return *this;
  }
  Options& error_if_exists(bool to = true) {
    tiswenor_options_set_error_if_exists(handle_.get(), to);
    return *this;
  }
  Options& workers(int count) {
    tiswenor_options_set_workers(handle_.get(), count);
    return *this;
  }
  Options& channels(int count) {
    tiswenor_options_set_channels(handle_.get(), count);
    return *this;
  }
  Options& server(std::string program) {
    server_ = std::make_unique<std::string>(std::move(program));
    tiswenor_options_set_server(handle_.get(), server_->c_str());
    return *this;
  }
  const tiswenor_options_t* handle() const noexcept { return handle_.get(); }

 private:
  detail::Owned<tiswenor_options_t> handle_;
  std::unique_ptr<std::string> server_;
};

// Writes that come in together or not at all. Of several of one key the last one counts.
class Batch {
 public:
  Batch() : handle_(detail::made(tiswenor_writebatch_create())) {}
  Batch& put(std::string_view key, std::string_view value) {
    tiswenor_writebatch_put(handle_.get(), key.data(), key.size(), value.data(), value.size());
    return *this;
  }
  Batch& remove(std::string_view key) {
    tiswenor_writebatch_delete(handle_.get(), key.data(), key.size());
    return *this;
  }
  void append(const Batch& other) {
    tiswenor_writebatch_append(handle_.get(), other.handle_.get());
  }
  void clear() { tiswenor_writebatch_clear(handle_.get()); }
  tiswenor_writebatch_t* handle() const noexcept { return handle_.get(); }

 private:
  detail::Owned<tiswenor_writebatch_t> handle_;
};

// The pairs of a database as it was when the iterator was made, or of a snapshot. What key() and
// value() give stays until the next call.
class Iterator {
 public:
  bool valid() const noexcept { return tiswenor_iter_valid(handle_.get()) != 0; }
  void seek_to_first() {
    tiswenor_iter_seek_to_first(handle_.get());
    check();
  }
  // To the first pair whose key is `key` or greater.
  void seek(std::string_view key) {
    tiswenor_iter_seek(handle_.get(), key.data(), key.size());
    check();
  }
  void seek_to_last() {
    tiswenor_iter_seek_to_last(handle_.get());
    check();
  }
  void next() {
    tiswenor_iter_next(handle_.get());
    check();
  }
  void prev() {
    tiswenor_iter_prev(handle_.get());
    check();
  }
  std::string_view key() const noexcept {
    std::size_t length = 0;
    const char* bytes = tiswenor_iter_key(handle_.get(), &length);
    return {bytes, length};
  }
  std::string_view value() const noexcept {
    std::size_t length = 0;
    const char* bytes = tiswenor_iter_value(handle_.get(), &length);
    return {bytes, length};
  }

 private:
  friend class Database;
  explicit Iterator(tiswenor_iterator_t* handle) : handle_(detail::made(handle)) { check(); }
  void check() const {
    char* error = nullptr;
    tiswenor_iter_get_error(handle_.get(), &error);
    detail::check(error);
  }

  detail::Owned<tiswenor_iterator_t> handle_;
};

// A state of the database that does not change.
class Snapshot {
 public:
  Snapshot(Snapshot&&) = default;
  Snapshot& operator=(Snapshot&&) = default;

 private:
  friend class Database;
  struct Release {
    tiswenor_t* db;
    void operator()(const tiswenor_snapshot_t* it) const noexcept {
      tiswenor_release_snapshot(db, it);
    }
  };
  Snapshot(tiswenor_t* db, const tiswenor_snapshot_t* handle)
      : handle_(handle, Release{db}), options_(detail::made(tiswenor_readoptions_create())) {
    tiswenor_readoptions_set_snapshot(options_.get(), handle);
  }

  std::unique_ptr<const tiswenor_snapshot_t, Release> handle_;
  detail::Owned<tiswenor_readoptions_t> options_;
};

class Database {
 public:
  explicit Database(const std::string& folder, const Options& options = Options()) {
    char* error = nullptr;
    handle_.reset(tiswenor_open(options.handle(), folder.c_str(), &error));
    detail::check(error);
  }

  // The value of a key, if it has one; now, or in a snapshot.
  std::optional<std::string> get(std::string_view key) const { return get_by(nullptr, key); }
  std::optional<std::string> get(const Snapshot& then, std::string_view key) const {
    return get_by(then.options_.get(), key);
  }

  // The values of several keys, in their order, all of one state.
  std::vector<std::optional<std::string>> get_many(
      const std::vector<std::string_view>& keys) const {
    return get_many_by(nullptr, keys);
  }
  std::vector<std::optional<std::string>> get_many(
      const Snapshot& then, const std::vector<std::string_view>& keys) const {
    return get_many_by(then.options_.get(), keys);
  }

  // Each write is on the disk when its call returns.
  void put(std::string_view key, std::string_view value) {
    char* error = nullptr;
    tiswenor_put(handle_.get(), nullptr, key.data(), key.size(), value.data(), value.size(),
                 &error);
    detail::check(error);
  }
  void remove(std::string_view key) {
    char* error = nullptr;
    tiswenor_delete(handle_.get(), nullptr, key.data(), key.size(), &error);
    detail::check(error);
  }
  void write(const Batch& batch) {
    char* error = nullptr;
    tiswenor_write(handle_.get(), nullptr, batch.handle(), &error);
    detail::check(error);
  }

  // It is not valid before it is sent somewhere.
  Iterator iterator() const { return Iterator(tiswenor_create_iterator(handle_.get(), nullptr)); }
  Iterator iterator(const Snapshot& then) const {
    return Iterator(tiswenor_create_iterator(handle_.get(), then.options_.get()));
  }

  Snapshot snapshot() const {
    char* error = nullptr;
    const tiswenor_snapshot_t* it = tiswenor_create_snapshot(handle_.get(), &error);
    detail::check(error);
    return Snapshot(handle_.get(), it);
  }

  // Returns once the server finds nothing to compact.
  void compact() {
    char* error = nullptr;
    tiswenor_compact(handle_.get(), &error);
    detail::check(error);
  }
  // The keys from one to another, both included, due or not, down to the deepest level that has some
  // of them; none is no bound.
  void compact_range(std::optional<std::string_view> start = std::nullopt,
                     std::optional<std::string_view> limit = std::nullopt) {
    char* error = nullptr;
    tiswenor_compact_range(handle_.get(), at(start), start ? start->size() : 0, at(limit),
                           limit ? limit->size() : 0, &error);
    detail::check(error);
  }
  // Removes the files of tables that are not needed any more, and gives their number.
  std::uint64_t collect() {
    char* error = nullptr;
    std::uint64_t removed = tiswenor_collect(handle_.get(), &error);
    detail::check(error);
    return removed;
  }
  tiswenor_statistics_t statistics() const {
    char* error = nullptr;
    tiswenor_statistics_t statistics;
    tiswenor_statistics(handle_.get(), &statistics, &error);
    detail::check(error);
    return statistics;
  }
  // The files that are in the folder, which is counted by calls of the system.
  tiswenor_folder_t folder() const {
    char* error = nullptr;
    tiswenor_folder_t folder;
    tiswenor_folder(handle_.get(), &folder, &error);
    detail::check(error);
    return folder;
  }

 private:
  // A bound's bytes, which are somewhere also where it is empty; null where there is none.
  static const char* at(const std::optional<std::string_view>& bound) {
    if (!bound) return nullptr;
    return bound->data() ? bound->data() : "";
  }

  std::optional<std::string> get_by(const tiswenor_readoptions_t* options,
                                    std::string_view key) const {
    char* error = nullptr;
    std::size_t length = 0;
    detail::Owned<char> value(
        tiswenor_get(handle_.get(), options, key.data(), key.size(), &length, &error));
    detail::check(error);
    if (!value) return std::nullopt;
    return std::string(value.get(), length);
  }

  std::vector<std::optional<std::string>> get_many_by(
      const tiswenor_readoptions_t* options, const std::vector<std::string_view>& keys) const {
    std::vector<const char*> at;
    std::vector<std::size_t> lengths;
    for (std::string_view key : keys) {
      at.push_back(key.data());
      lengths.push_back(key.size());
    }
    std::vector<char*> values(keys.size());
    std::vector<std::size_t> found(keys.size());
    char* error = nullptr;
    tiswenor_get_many(handle_.get(), options, keys.size(), at.data(), lengths.data(), values.data(),
                      found.data(), &error);
    std::vector<detail::Owned<char>> owned(values.begin(), values.end());
    detail::check(error);
    std::vector<std::optional<std::string>> all(keys.size());
    for (std::size_t i = 0; i < keys.size(); i++)
      if (owned[i]) all[i].emplace(owned[i].get(), found[i]);
    return all;
  }

  detail::Owned<tiswenor_t> handle_;
};

}  // namespace tiswenor

#endif
