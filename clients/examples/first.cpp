#include <iostream>
#include <tiswenor.hpp>

int main() {
  tiswenor::Database db("/tmp/fruit", tiswenor::Options().create_if_missing());
  db.write(tiswenor::Batch().put("apple", "red").put("banana", "yellow"));
  auto iterator = db.iterator();
  for (iterator.seek_to_first(); iterator.valid(); iterator.next())
    std::cout << iterator.key() << " is " << iterator.value() << '\n';
}
