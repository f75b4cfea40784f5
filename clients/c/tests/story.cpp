// Each call of tiswenor.hpp: story_cpp FOLDER, a folder that is empty.
#include <cstdio>
#include <cstdlib>
#include <thread>

#include "tiswenor.hpp"

#define CHECK(fact)                                                           \
  do {                                                                        \
    if (!(fact)) {                                                            \
      std::fprintf(stderr, "%s:%d: not so: %s\n", __FILE__, __LINE__, #fact); \
      std::exit(1);                                                           \
    }                                                                         \
  } while (0)

using namespace std::string_literals;
using tiswenor::Batch, tiswenor::Database, tiswenor::Error, tiswenor::Iterator, tiswenor::Options,
    tiswenor::Snapshot;

static std::string shown_backward(Iterator iterator) {
  std::string text;
  for (iterator.seek_to_last(); iterator.valid(); iterator.prev())
    text.append(iterator.key()).append("=").append(iterator.value()).append(" ");
  return text;
}

static std::string shown(Iterator iterator, const std::string& from) {
  std::string text;
  for (iterator.seek(from); iterator.valid(); iterator.next())
    text.append(iterator.key()).append("=").append(iterator.value()).append(" ");
  return text;
}

template <class Call>
static int error_of(Call call) {
  try {
    call();
  } catch (const Error& error) {
    return error.number();
  }
  return 0;
}

int main(int argc, char** argv) {
  CHECK(argc == 2);
  std::string folder = argv[1] + "/db"s;
  CHECK(error_of([&] { Database none(argv[1]); }) == tiswenor_no_database);
  try {
    Database file("/dev/null");
    CHECK(false);
  } catch (const Error& error) {
    CHECK(error.call() == "open" && error.file() == "/dev/null");
    CHECK(error.reason() == "Not a directory (os error 20)");
  }
  CHECK(Error("9 Device: /db: a call of the system failed").call().empty());
  Options options;
  options.create_if_missing().channels(3).workers(2);
  {
    Database db(folder, options);
    CHECK(error_of([&] { Database again(folder, options); }) == tiswenor_locked);
    db.put("cherry", "dark");
    db.write(Batch().put("banana", "yellow").put("apple", "red").remove("cherry").put("bean", ""));
    CHECK(db.get("apple") == "red" && db.get("bean") == "" && !db.get("cherry"));
    CHECK(db.get_many({"bean", "none", "apple"}) ==
          (std::vector<std::optional<std::string>>{"", std::nullopt, "red"}));
    CHECK(shown(db.iterator(), "") == "apple=red banana=yellow bean= ");
    CHECK(shown(db.iterator(), "b") == "banana=yellow bean= ");
    CHECK(shown_backward(db.iterator()) == "bean= banana=yellow apple=red ");
    Snapshot then = db.snapshot();
    db.remove("apple");
    Batch batch;
    batch.put("long", std::string(1 << 20, 'x'));
    Batch other;
    other.append(batch);
    batch.clear();
    db.write(batch);
    CHECK(!db.get("long"));
    db.write(other);
    CHECK(db.get("long") == std::string(1 << 20, 'x'));
    CHECK(db.get(then, "apple") == "red" && !db.get("apple"));
    CHECK(db.get_many(then, {"apple"})[0] == "red");
    CHECK(shown(db.iterator(then), "") == "apple=red banana=yellow bean= ");
    Snapshot moved = std::move(then);
    CHECK(db.get(moved, "apple") == "red");
    std::vector<std::thread> threads;
    for (int i = 0; i < 6; i++)
      threads.emplace_back([&db] {
        for (int turn = 0; turn < 200; turn++) CHECK(db.get("banana") == "yellow");
      });
    db.compact();
    for (std::thread& thread : threads) thread.join();
    db.compact_range();
    db.compact_range("a", std::nullopt);
    db.compact_range(std::nullopt, "b");
    db.compact_range("", std::string_view());
    CHECK(db.get("banana") == "yellow" && !db.get("cherry"));
    db.collect();
    tiswenor_statistics_t statistics = db.statistics();
    tiswenor_folder_t found = db.folder();
    CHECK(statistics.last_sequence == 7 && tiswenor_statistics_tables(&statistics) >= 1);
    CHECK(found.tables == tiswenor_statistics_tables(&statistics) && found.manifests == 1);
    CHECK(found.table_bytes == tiswenor_statistics_bytes(&statistics) && found.others == 2);
    CHECK(found.least_table <= tiswenor_statistics_mean(&statistics) && found.least_table > 0);
    CHECK(found.bytes > found.table_bytes);
    CHECK(std::rename(folder.c_str(), (folder + "-away").c_str()) == 0);
    CHECK(error_of([&] { db.folder(); }) == tiswenor_device);
    CHECK(std::rename((folder + "-away").c_str(), folder.c_str()) == 0);
  }
  options.error_if_exists();
  CHECK(error_of([&] { Database again(folder, options); }) == tiswenor_is_there);
  Database moved = Database(folder);
  CHECK(moved.get("banana") == "yellow");
  std::puts("story_cpp: ok");
}
