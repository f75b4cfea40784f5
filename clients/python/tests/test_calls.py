"""Each call once, and what it refuses."""

import errno
import os
import shutil

import pytest

import tiswenor

PAIRS = [(b"apple", b"red"), (b"banana", b"yellow"), (b"bean", b""), (b"cherry", b"dark")]


@pytest.fixture
def fruit(db):
    with db.write_batch() as batch:
        for key, value in reversed(PAIRS):
            batch.put(key, value)
    return db


def test_put_get_delete(db):
    assert db.get(b"apple") is None
    assert db.get(b"apple", b"none") == b"none"
    db.put(b"apple", b"green")
    db.put(b"apple", b"red")
    assert db.get(b"apple") == b"red"
    db.put(b"empty", b"")
    assert db.get(b"empty", b"none") == b""
    db.delete(b"apple")
    db.delete(b"never there")
    assert db.get(b"apple") is None


def test_bytes_of_all_kinds(db):
    db.put(bytearray(b"\0\xff"), memoryview(bytes(range(256))))
    assert db.get(memoryview(b"\0\xff")) == bytes(range(256))
    for wrong in ("text", 7, None):
        with pytest.raises(TypeError):
            db.get(wrong)
        with pytest.raises(TypeError):
            db.put(b"key", wrong)
    assert db.get(b"") is None


def test_get_many(fruit):
    assert fruit.get_many([b"cherry", b"none", b"apple", b"cherry"]) == [
        b"dark",
        None,
        b"red",
        b"dark",
    ]
    assert fruit.get_many([b"none"], default=b"?") == [b"?"]
    assert fruit.get_many([]) == []


def test_last_write_of_a_key_counts(db):
    batch = db.write_batch()
    batch.put(b"b", b"1")
    batch.put(b"a", b"1")
    batch.put(b"b", b"2")
    batch.put(b"c", b"1")
    batch.delete(b"a")
    batch.delete(b"b")
    batch.put(b"b", b"3")
    batch.write()
    assert list(db) == [(b"b", b"3"), (b"c", b"1")]


def test_batch(db):
    batch = db.write_batch()
    batch.write()
    batch.put(b"a", b"1")
    assert batch.approximate_size() == 1 + 4 + 1 + 4 + 1
    other = db.write_batch()
    other.put(b"b", b"2")
    batch.append(other)
    batch.clear()
    batch.append(other)
    batch.write()
    assert list(db) == [(b"b", b"2")]


def test_batch_and_exception(db):
    with pytest.raises(KeyError):
        with db.write_batch(transaction=True) as batch:
            batch.put(b"a", b"1")
            raise KeyError
    assert list(db) == []
    with pytest.raises(KeyError):
        with db.write_batch() as batch:
            batch.put(b"a", b"1")
            raise KeyError
    assert list(db) == [(b"a", b"1")]


def test_batch_too_large_comes_in_not_at_all(db):
    batch = db.write_batch()
    for number in range(5):
        batch.put(b"%d" % number, bytes(1 << 20))
    with pytest.raises(tiswenor.Refused) as refused:
        batch.write()
    assert (refused.value.number, refused.value.name) == (39, "TooLarge")
    for number in range(5, 10):  # longer than any request
        batch.put(b"%d" % number, bytes(1 << 20))
    with pytest.raises(tiswenor.Refused) as refused:
        batch.write()
    assert refused.value.number == 39
    assert list(db) == []
    db.put(b"a", bytes(1 << 20))
    assert db.get(b"a") == bytes(1 << 20)


def test_iterator(fruit):
    assert list(fruit) == PAIRS
    assert list(fruit.iterator(start=b"banana")) == PAIRS[1:]
    assert list(fruit.iterator(start=b"b", stop=b"bean")) == PAIRS[1:2]
    assert list(fruit.iterator(start=b"banana", include_start=False)) == PAIRS[2:]
    assert list(fruit.iterator(stop=b"bean", include_stop=True)) == PAIRS[:3]
    assert list(fruit.iterator(prefix=b"b")) == PAIRS[1:3]
    assert list(fruit.iterator(prefix=b"")) == PAIRS
    assert list(fruit.iterator(start=b"z", stop=b"a")) == []
    assert list(fruit.iterator(include_value=False)) == [key for key, _ in PAIRS]
    assert list(fruit.iterator(include_key=False)) == [value for _, value in PAIRS]
    assert list(fruit.iterator(include_key=False, include_value=False)) == [None] * 4
    with pytest.raises(TypeError):
        fruit.iterator(prefix=b"b", start=b"b")


def test_prefix_of_greatest_bytes(db):
    keys = [b"a\xff", b"a\xff\xff", b"b", b"\xff", b"\xff\xff\x01"]
    for key in keys:
        db.put(key, b"")
    names = lambda prefix: list(db.iterator(prefix=prefix, include_value=False))
    assert names(b"a\xff") == [b"a\xff", b"a\xff\xff"]
    assert names(b"\xff") == [b"\xff", b"\xff\xff\x01"]
    assert names(b"\xff\xff") == [b"\xff\xff\x01"]


def test_iterator_moves(fruit):
    with fruit.iterator(start=b"b") as iterator:
        assert next(iterator) == PAIRS[1]
        iterator.seek(b"c")
        assert next(iterator) == PAIRS[3]
        with pytest.raises(StopIteration):
            next(iterator)
        with pytest.raises(StopIteration):
            next(iterator)
        iterator.seek(b"")
        assert next(iterator) == PAIRS[1]
        iterator.seek_to_start()
        assert list(iterator) == PAIRS[1:]
    with pytest.raises(tiswenor.Error) as closed:
        next(iterator)
    assert closed.value.name == "Closed"


def test_iterator_backward(fruit):
    back = PAIRS[::-1]
    assert list(fruit.iterator(reverse=True)) == back
    assert list(fruit.iterator(True, start=b"banana")) == back[:3]
    assert list(fruit.iterator(True, start=b"b", stop=b"bean")) == PAIRS[1:2]
    assert list(fruit.iterator(True, start=b"banana", include_start=False)) == back[:2]
    assert list(fruit.iterator(True, stop=b"bean", include_stop=True)) == back[1:]
    assert list(fruit.iterator(True, prefix=b"b")) == back[1:3]
    assert list(fruit.iterator(True, start=b"z", stop=b"a")) == []
    assert list(fruit.iterator(True, start=b"d")) == []
    assert list(fruit.iterator(True, include_value=False)) == [key for key, _ in back]


def test_iterator_moves_both_ways(fruit):
    iterator = fruit.iterator(start=b"b")
    with pytest.raises(StopIteration):
        iterator.prev()
    assert next(iterator) == PAIRS[1]
    assert next(iterator) == PAIRS[2]
    assert iterator.prev() == PAIRS[2]
    assert iterator.prev() == PAIRS[1]
    with pytest.raises(StopIteration):
        iterator.prev()
    assert list(iterator) == PAIRS[1:]
    assert iterator.prev() == PAIRS[3]
    iterator.seek_to_stop()
    with pytest.raises(StopIteration):
        next(iterator)
    assert iterator.prev() == PAIRS[3]
    iterator.seek(b"bean")
    assert iterator.prev() == PAIRS[1]
    assert next(iterator) == PAIRS[1]
    assert next(iterator) == PAIRS[2]
    backward = fruit.iterator(reverse=True)
    with pytest.raises(StopIteration):
        backward.prev()
    assert next(backward) == PAIRS[3]
    assert backward.prev() == PAIRS[3]
    backward.seek(b"bean")
    assert next(backward) == PAIRS[1]
    backward.seek_to_start()
    with pytest.raises(StopIteration):
        next(backward)
    assert backward.prev() == PAIRS[0]
    backward.close()
    with pytest.raises(tiswenor.Error):
        next(backward)


def test_no_pair_is_before_none(db):
    assert list(db.iterator(reverse=True)) == []
    db.put(b"only", b"one")
    assert list(db.iterator(reverse=True)) == [(b"only", b"one")]


def test_compact_range(db, folder):
    def all_of(letter, write):
        with db.write_batch() as batch:
            for number in range(16_000):
                write(batch, b"%c%06d" % (letter, number))

    def put(letter):
        all_of(letter, lambda batch, key: batch.put(key, bytes([letter]) * 100))

    def delete(letter):
        all_of(letter, lambda batch, key: batch.delete(key))

    def left(*bounds, **named):
        db.compact_range(*bounds, **named)
        db.collect()
        return db.statistics().bytes

    for letter in b"abcd":
        put(letter)
    everything = left()
    assert everything > 6_000_000
    delete(ord("b"))
    delete(ord("c"))
    one_less = left(b"b", bytearray(b"b~"))
    assert everything * 0.4 < one_less < everything * 0.8
    two_less = left(start=b"b")
    assert two_less <= one_less and two_less < everything * 0.6
    assert list(db.iterator(start=b"b", stop=b"d")) == []
    assert len(list(db)) == 32_000
    delete(ord("a"))
    delete(ord("d"))
    with db.snapshot() as snapshot:
        put(ord("e"))
        delete(ord("e"))
        assert list(snapshot) == []
    assert left() == 0
    assert sum(file.stat().st_size for file in folder.iterdir()) < 65_536
    assert left(stop=b"x") == left(b"z", b"a") == left(b"", b"") == 0
    with pytest.raises(TypeError):
        db.compact_range("a")
    with pytest.raises(tiswenor.TooLarge):
        db.compact_range(bytes(8_388_609))


def test_a_snapshot_keeps_what_a_range_would_lose(fruit):
    with fruit.snapshot() as snapshot:
        for key, _ in PAIRS:
            fruit.delete(key)
        fruit.compact_range(b"a", b"z")
        assert list(fruit) == []
        assert list(snapshot) == PAIRS
    fruit.compact_range()
    assert fruit.statistics().tables == 0


def test_iterator_over_many_pages(db):
    wanted = [(b"%06d" % number, b"x" * (number % 50)) for number in range(20_000)]
    with db.write_batch() as batch:
        for key, value in wanted:
            batch.put(key, value)
    assert list(db) == wanted
    assert list(db.iterator(reverse=True)) == wanted[::-1]
    iterator = db.iterator(start=b"005000", stop=b"015000")
    iterator.seek(b"010000")
    assert [next(iterator) for _ in range(3000)] == wanted[10_000:13_000]
    assert [iterator.prev() for _ in range(8000)] == wanted[12_999:4999:-1]
    with pytest.raises(StopIteration):
        iterator.prev()
    assert list(iterator) == wanted[5000:15_000]
    with db.iterator() as iterator:
        first = [next(iterator) for _ in range(10)]
        with db.write_batch() as batch:
            for key, _ in wanted:
                batch.delete(key)
        assert first + list(iterator) == wanted
    assert list(db) == []


def test_long_values(db):
    wanted = [(b"%d" % number, bytes([number]) * (1 << 20)) for number in range(8)]
    for key, value in wanted:
        db.put(key, value)
    assert list(db) == wanted
    assert db.get_many([key for key, _ in wanted]) == [value for _, value in wanted]


def test_answer_too_long_is_refused(db):
    db.put(b"key", bytes(1 << 20))
    with pytest.raises(tiswenor.Refused):
        db.get_many([b"key"] * 17)
    assert db.get(b"key") == bytes(1 << 20)


def test_snapshot(fruit):
    with fruit.snapshot() as snapshot:
        before = snapshot.sequence
        fruit.put(b"apple", b"green")
        fruit.delete(b"cherry")
        assert snapshot.get(b"apple") == b"red"
        assert snapshot.get(b"none", b"?") == b"?"
        assert snapshot.get_many([b"cherry", b"apple"]) == [b"dark", b"red"]
        assert list(snapshot) == PAIRS
        assert list(snapshot.iterator(start=b"c", include_value=False)) == [b"cherry"]
        assert fruit.get(b"apple") == b"green"
        assert fruit.snapshot().sequence == before + 2
    snapshot.close()
    with pytest.raises(tiswenor.Error) as closed:
        snapshot.get(b"apple")
    assert closed.value.name == "Closed"
    fruit.compact()
    assert fruit.get(b"apple") == b"green"


def test_compact_collect_statistics(db):
    for number in range(5):
        db.put(b"key", b"%d" % number)
    statistics = db.statistics()
    assert statistics.last_sequence == 5
    assert len(statistics.levels) == 7
    db.compact()
    assert db.collect() >= 0
    assert db.get(b"key") == b"4"
    assert db.statistics().tables >= 1
    at_0 = db.get_property("leveldb.num-files-at-level0")
    assert at_0 == b"%d" % db.statistics().levels[0].files
    assert db.get_property(b"leveldb.stats").count(b"\n") == 8
    assert db.get_property("leveldb.num-files-at-level7") is None


def test_sums_are_of_all_levels():
    ends = (tiswenor.Level(2, 101), *[tiswenor.Level(0, 0)] * 5, tiswenor.Level(1, 51))
    some = tiswenor.Statistics(9, ends)
    assert (some.tables, some.bytes, some.mean) == (3, 152, 50)
    none = tiswenor.Statistics(9, (tiswenor.Level(0, 0),) * 7)
    assert (none.tables, none.bytes, none.mean) == (0, 0, 0)


@pytest.fixture
def quiet(folder):
    """A database in which nobody compacts."""
    with tiswenor.DB(folder, create_if_missing=True, workers=0) as opened:
        yield opened


def sizes(folder, *endings):
    return [file.stat().st_size for file in folder.iterdir() if file.name.endswith(endings)]


def folder_is(db, folder, tables, needed, needed_bytes):
    """So many tables, beside a manifest, CURRENT and LOCK. So many of them, which have so many
    bytes, are needed."""
    of_tables = sizes(folder, ".ldb")
    assert len(of_tables) == tables
    assert db.folder() == tiswenor.Folder(
        tables=tables,
        manifests=1,
        others=2,
        bytes=sum(sizes(folder, "")),
        table_bytes=sum(of_tables),
        least_table=min(of_tables, default=0),
    )
    statistics = db.statistics()
    assert (statistics.tables, statistics.bytes) == (needed, needed_bytes)


def test_folder(quiet, folder):
    folder_is(quiet, folder, 0, 0, 0)
    for key, value in ((b"a", bytes(1000)), (b"b", b""), (b"c", bytes(1000))):
        quiet.put(key, value)
    before = sum(sizes(folder, ".ldb"))
    assert before > 2000 > 1000 > quiet.folder().least_table
    folder_is(quiet, folder, 3, 3, before)
    quiet.compact_range()
    after = sum(sizes(folder, ".ldb")) - before
    folder_is(quiet, folder, 4, 1, after)
    assert quiet.collect() == 3
    folder_is(quiet, folder, 1, 1, after)
    assert quiet.folder().least_table == quiet.folder().table_bytes == after


def test_folder_with_files_of_others(quiet, folder):
    """Tables and manifests are so by their names, whose numbers fit 64 bits. A link counts as the
    file that it leads to."""
    quiet.put(b"a", bytes(1000))
    before = quiet.folder()
    others = [
        *("notes", "MANIFEST-", "MANIFEST-7x", "MANIFEST-18446744073709551616", "7.log", "+7.ldb"),
        *(".sst", "7.LDB", "x7.ldb", "7.ldb.old", "18446744073709551616.ldb", "7.ldb\n", "-1.ldb"),
        *("7:.ldb", "\u0667.ldb", os.fsdecode(b"\xe9")),
    ]
    for name in others:
        (folder / name).write_bytes(bytes(10))
    (folder / "MANIFEST-0099").write_bytes(bytes(3))
    (folder / "18446744073709551615.ldb").write_bytes(bytes(100_000))
    (folder / "000099.sst").write_bytes(bytes(7))
    (folder / "98.ldb").mkdir()
    os.mkfifo(folder / "97.ldb")
    (folder / "96.ldb").symlink_to("nowhere")
    (folder / "95.ldb").symlink_to("000099.sst")
    assert quiet.folder() == tiswenor.Folder(
        tables=before.tables + 3,
        manifests=before.manifests + 1,
        others=before.others + len(others),
        bytes=before.bytes + 10 * len(others) + 3 + 100_000 + 7 + 7,
        table_bytes=before.table_bytes + 100_000 + 7 + 7,
        least_table=7,
    )
    (folder / "94.ldb").symlink_to("94.ldb")
    with pytest.raises(tiswenor.IOError, match="Too many levels of symbolic links"):
        quiet.folder()


def test_folder_from_elsewhere(tmp_path, monkeypatch):
    """By names that depend on where the process works, and on a link."""
    (tmp_path / "there").mkdir()
    (tmp_path / "link").symlink_to("there")
    monkeypatch.chdir(tmp_path)
    for name in ("link", b"link", os.path.join("there", "..", "link")):
        with tiswenor.DB(name, create_if_missing=True, workers=0) as db:
            os.remove("link")
            os.mkdir("link")
            found = db.folder()
            assert found.bytes == sum(sizes(tmp_path / "there", ""))
            for other in ("link", "/"):
                os.chdir(other)
                assert db.folder() == found
            os.chdir(tmp_path)
            os.rmdir("link")
            os.symlink("there", "link")


def test_folder_that_is_gone(quiet, folder):
    quiet.put(b"a", b"1")
    found = quiet.folder()

    def is_gone(number):
        with pytest.raises(tiswenor.IOError) as gone:
            quiet.folder()
        assert (gone.value.number, gone.value.name) == (9, "Device")
        assert gone.value.path == gone.value.filename == str(folder)
        assert str(gone.value) == f"9 Device: {folder}: {os.strerror(number)}"
        assert gone.value.__cause__.errno == number

    away = folder.rename(folder.with_name("away"))
    is_gone(errno.ENOENT)
    folder.mkdir()
    (folder / "000001.ldb").write_bytes(b"x")
    is_gone(errno.ENOENT)
    shutil.rmtree(folder)
    folder.write_bytes(b"x")
    is_gone(errno.ENOTDIR)
    folder.unlink()
    assert quiet.get(b"a") == b"1"
    away.rename(folder)
    assert quiet.folder() == found
    shutil.rmtree(folder)
    is_gone(errno.ENOENT)


def test_more_writes_than_level_0_holds(db):
    for number in range(40):
        db.put(b"%02d" % number, b"")
    assert len(list(db)) == 40


def test_close(folder):
    db = tiswenor.DB(folder, create_if_missing=True)
    db.put(b"a", b"1")
    iterator, snapshot, batch = iter(db), db.snapshot(), db.write_batch()
    batch.put(b"b", b"2")
    assert not db.closed
    db.close()
    db.close()
    assert db.closed
    calls = [lambda: db.get(b"a"), lambda: next(iterator), lambda: snapshot.get(b"a"), batch.write]
    for call in (*calls, db.statistics, db.folder):
        with pytest.raises(tiswenor.Error) as closed:
            call()
        assert (closed.value.number, closed.value.name) == (251, "Closed")
    iterator.close()
    snapshot.close()
    with tiswenor.DB(folder) as db:
        assert list(db) == [(b"a", b"1")]


def test_what_plyvel_has_too(fruit):
    """Options that change nothing, and a second name."""
    options = {"verify_checksums": False, "fill_cache": False}
    assert list(fruit.iterator(prefix=b"b", **options)) == PAIRS[1:3]
    part = fruit.prefixed_db(b"b").iterator(**options)
    assert list(part) == [(b"anana", b"yellow"), (b"ean", b"")]
    snapshot = fruit.snapshot()
    assert list(snapshot.iterator(**options)) == PAIRS
    snapshot.release()
    with pytest.raises(tiswenor.Closed):
        snapshot.get(b"apple")
    for other in (None, [], b""):
        with pytest.raises(TypeError):
            fruit.write_batch().append(other)


def test_seek_stays_in_the_range(fruit):
    """Before it, it is at its first pair; behind it, behind its last one. (plyvel leaves it.)"""
    for reverse in (False, True):
        iterator = fruit.iterator(reverse=reverse, start=b"banana", stop=b"cherry")
        back, on = (iterator.prev, lambda: next(iterator))[:: -1 if reverse else 1]
        iterator.seek(b"a")
        with pytest.raises(StopIteration):
            back()
        assert on() == PAIRS[1]
        iterator.seek(b"z")
        with pytest.raises(StopIteration):
            on()
        assert back() == PAIRS[2]
