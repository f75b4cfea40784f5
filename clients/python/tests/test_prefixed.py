"""Parts of a database: the keys that begin with a prefix."""

import pytest

import tiswenor


@pytest.fixture
def parts(db):
    with db.write_batch() as batch:
        for key in (b"a", b"b1", b"b2", b"b2x", b"b3", b"b\xff", b"c", b"\xff\xff", b"\xff\xff1"):
            batch.put(key, b"v" + key)
    return db


def test_reads(parts):
    part = parts.prefixed_db(b"b")
    assert (part.db, part.prefix) == (parts, b"b")
    assert part.get(b"1") == b"vb1"
    assert part.get(b"4") is None
    assert part.get(b"4", b"no") == b"no"
    assert part.get_many([b"2", b"", b"3"]) == [b"vb2", None, b"vb3"]


def test_iterators(parts):
    part = parts.prefixed_db(b"b")
    keys = [b"1", b"2", b"2x", b"3", b"\xff"]
    assert [key for key, _ in part] == keys
    assert list(part.iterator(include_value=False)) == keys
    assert list(part.iterator(include_key=False)) == [b"vb" + key for key in keys]
    assert list(part.iterator(start=b"2", stop=b"3", include_value=False)) == [b"2", b"2x"]
    assert list(part.iterator(start=b"2", include_start=False, include_value=False)) == keys[2:]
    assert list(part.iterator(stop=b"3", include_stop=True, include_value=False)) == keys[:4]
    assert list(part.iterator(prefix=b"2", include_value=False)) == [b"2", b"2x"]
    iterator = part.iterator(include_value=False)
    iterator.seek(b"3")
    assert list(iterator) == [b"3", b"\xff"]
    iterator.seek_to_start()
    assert next(iterator) == b"1"
    last = parts.prefixed_db(b"\xff\xff")
    assert list(last.iterator(include_value=False)) == [b"", b"1"]


def test_writes(parts):
    part = parts.prefixed_db(b"b")
    part.put(b"4", b"new")
    part.delete(b"1")
    with part.write_batch() as batch:
        batch.put(b"5", b"newer")
        batch.delete(b"2")
    assert parts.get_many([b"b4", b"b1", b"b5", b"b2"]) == [b"new", None, b"newer", None]
    assert parts.get_many([b"a", b"c"]) == [b"va", b"vc"]


def test_snapshots(parts):
    part = parts.prefixed_db(b"b")
    with part.snapshot() as snapshot:
        part.put(b"1", b"new")
        assert snapshot.get(b"1") == b"vb1"
        assert list(snapshot.iterator(start=b"2x", include_value=False)) == [b"2x", b"3", b"\xff"]


def test_parts_of_parts(parts):
    part = parts.prefixed_db(b"b").prefixed_db(b"2")
    assert part.prefix == b"b2"
    assert list(part) == [(b"", b"vb2"), (b"x", b"vb2x")]
    parts.close()
    with pytest.raises(tiswenor.Closed):
        part.get(b"x")
