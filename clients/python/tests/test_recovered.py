"""Opening a folder with logs that LevelDB did not flush: their writes come in first."""

import pathlib
import struct

import pytest

import tiswenor


def crc32c(data: bytes) -> int:
    rest = 0xFFFFFFFF
    for byte in data:
        rest ^= byte
        for _ in range(8):
            rest = rest >> 1 ^ (0x82F63B78 if rest & 1 else 0)
    return rest ^ 0xFFFFFFFF


def text(data: bytes) -> bytes:
    assert len(data) < 128
    return bytes([len(data)]) + data


def batch(sequence: int, *writes) -> bytes:
    """A record of a log, whole in its block. A write is a key with its value, or with None."""
    content = struct.pack("<QI", sequence, len(writes))
    for key, value in writes:
        content += b"\0" + text(key) if value is None else b"\1" + text(key) + text(value)
    crc = crc32c(b"\1" + content)
    masked = (crc >> 15 | crc << 17) + 0xA282EAD8 & 0xFFFFFFFF
    return struct.pack("<IHB", masked, len(content), 1) + content


def files(folder: pathlib.Path) -> dict:
    return {path.name: path.read_bytes() for path in folder.iterdir()}


def pairs(folder: pathlib.Path) -> list:
    with tiswenor.DB(folder, workers=0) as db:
        return list(db)


@pytest.fixture
def flushed(folder):
    """A database in whose tables a and b are, at the sequences 1 and 2."""
    with tiswenor.DB(folder, create_if_missing=True, workers=0) as db:
        db.put(b"a", b"1")
        db.put(b"b", b"2")
    return folder


def test_checksum():
    assert crc32c(b"123456789") == 0xE3069283


def test_log_comes_in_once(flushed):
    log = batch(3, (b"c", b"3"), (b"a", None)) + batch(5, (b"b", b"4"), (b"e", b""))
    (flushed / "000100.log").write_bytes(log)
    with tiswenor.DB(flushed, workers=0) as db:
        assert list(db) == [(b"b", b"4"), (b"c", b"3"), (b"e", b"")]
        assert db.statistics().tables == 3
        db.put(b"a", b"5")
        db.delete(b"c")
    assert pairs(flushed) == [(b"a", b"5"), (b"b", b"4"), (b"e", b"")]
    assert (flushed / "000100.log").read_bytes() == log


def test_logs_come_in_by_their_numbers(flushed):
    (flushed / "000101.log").write_bytes(batch(4, (b"c", b"new"), (b"b", None)))
    (flushed / "000100.log").write_bytes(batch(3, (b"c", b"old")))
    assert pairs(flushed) == [(b"a", b"1"), (b"c", b"new")]


def test_empty_log_brings_nothing_in(flushed):
    (flushed / "000100.log").write_bytes(b"")
    with tiswenor.DB(flushed, workers=0) as db:
        assert list(db) == [(b"a", b"1"), (b"b", b"2")]
        assert db.statistics().tables == 2


def test_last_record_that_was_cut(flushed):
    log = batch(3, (b"c", b"3")) + batch(4, (b"d", b"4"))
    (flushed / "000100.log").write_bytes(log[:-1])
    assert pairs(flushed) == [(b"a", b"1"), (b"b", b"2"), (b"c", b"3")]


@pytest.mark.parametrize(
    "log, number, name",
    [
        (batch(3, (b"c", b"3"))[:-1] + b"x", 19, "LogChecksum"),
        (batch(4, (b"c", b"3")) + batch(3, (b"d", b"4")), 59, "SequenceOrder"),
    ],
    ids=["bit", "order"],
)
def test_damaged_log(flushed, log, number, name):
    (flushed / "000100.log").write_bytes(log)
    before = files(flushed)
    with pytest.raises(tiswenor.CorruptionError) as error:
        tiswenor.DB(flushed)
    assert (error.value.number, error.value.name) == (number, name)
    assert files(flushed) == before
    (flushed / "000100.log").unlink()
    assert pairs(flushed) == [(b"a", b"1"), (b"b", b"2")]


def test_database_that_is_not_opened_stays(flushed):
    (flushed / "000100.log").write_bytes(batch(3, (b"c", b"3")))
    before = files(flushed)
    with pytest.raises(tiswenor.Error) as error:
        tiswenor.DB(flushed, error_if_exists=True)
    assert error.value.name == "IsThere"
    assert files(flushed) == before


def test_log_that_no_manifest_flushes(flushed):
    """No number is no log's in a manifest: so a log of the number 0 would be read for good."""
    (flushed / "000000.log").write_bytes(batch(3, (b"c", b"3")))
    with pytest.raises(tiswenor.Refused) as error:
        tiswenor.DB(flushed)
    assert (error.value.number, error.value.name) == (51, "UnflushedLog")


def test_log_without_a_database(folder):
    folder.mkdir()
    (folder / "000003.log").write_bytes(batch(1, (b"a", b"1")))
    with pytest.raises(tiswenor.Refused) as error:
        tiswenor.DB(folder, create_if_missing=True)
    assert (error.value.number, error.value.name) == (51, "UnflushedLog")
