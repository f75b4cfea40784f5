"""What plyvel's own tests ask for that `tiswenor` has not: each of these must fail, and no other."""

import pytest

OPTIONS = "sets a cache, blocks, compression or filters"
ABSENT = {
    "test_version": "LevelDB's version",
    "test_open_no_compression": OPTIONS,
    "test_open_many_options": OPTIONS,
    "test_invalid_open": OPTIONS,
    "test_open_close": OPTIONS,
    "test_large_lru_cache": OPTIONS,
    "test_threading": "writes for long",
    "test_property": "leveldb.sstables",
    "test_approximate_sizes": "approximate_size",
    "test_repair_db": "repair_db",
    "test_destroy_db": "destroy_db",
    "test_invalid_comparator": "comparators",
    "test_comparator": "comparators",
    "test_raw_iterator": "raw_iterator",
    "test_raw_iterator_empty_db": "raw_iterator",
    "test_raw_iterator_snapshot": "raw_iterator",
    "test_raw_iterator_closing": "raw_iterator",
}


def pytest_collection_modifyitems(items):
    for item in items:
        reason = ABSENT.get(item.name)
        if item.name == "test_threading":  # it writes for long before its threads iterate
            item.add_marker(pytest.mark.skip(reason=reason))
        elif reason:
            item.add_marker(pytest.mark.xfail(reason=reason, strict=True))
