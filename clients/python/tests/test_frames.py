"""The bytes of docs/PROTOCOL.md, written by hand."""

import pytest

import tiswenor
from tiswenor import frames


def test_requests():
    assert frames.frame(frames.COMPACT) == b"\x01\0\0\0\x06"
    assert frames.frame(frames.WRITE + frames.put(b"k", b"vv") + frames.delete(b"d")) == (
        b"\x13\0\0\0" b"\x01" b"\x01\x01\0\0\0k\x02\0\0\0vv" b"\0\x01\0\0\0d"
    )
    assert frames.read(frames.NOW, [b"a", b""]) == b"\x02\0\x01\0\0\0a\0\0\0\0"
    assert frames.read(frames.at(258), [b"a"]) == b"\x02\x01\x02\x01\0\0\0\0\0\0\x01\0\0\0a"
    assert frames.scan(frames.NOW, b"a", None, 0) == b"\x03\0\x01\0\0\0a\0\0\0\0\0"
    assert frames.scan(frames.NOW, b"", b"z", 7) == b"\x03\0\0\0\0\0\x01\x01\0\0\0z\x07\0\0\0"
    assert frames.compact(b"", None) == b"\x06\0\0\0\0\0"
    assert frames.compact(b"a", b"") == b"\x06\x01\0\0\0a\x01\0\0\0\0"
    assert frames.release(1) == b"\x05\x01\0\0\0\0\0\0\0"
    assert frames.opening(64, 4, 1, 3, b"/db") == (
        b"\x14\0\0\0" b"\x40\0\0\0" b"\x04\0\0\0" b"\x01\0\0\0" b"\x03" b"\x03\0\0\0/db"
    )


def test_answers():
    assert frames.values(b"\0\1\x01\0\0\0v\1\0\0\0\0", 3) == [None, b"v", b""]
    assert frames.page(b"\1") == (True, [])
    assert frames.page(b"\0\x01\0\0\0k\0\0\0\0") == (False, [(b"k", b"")])
    assert frames.numbers(b"\x01\0\0\0\0\0\0\0\0\x01\0\0\0\0\0\0", 2) == (1, 256)


@pytest.mark.parametrize(
    "read",
    [
        lambda: frames.values(b"", 1),
        lambda: frames.values(b"\2", 1),
        lambda: frames.values(b"\0\0", 1),
        lambda: frames.values(b"\1\x02\0\0\0v", 1),
        lambda: frames.values(b"\1\x02\0", 1),
        lambda: frames.page(b""),
        lambda: frames.page(b"\0"),
        lambda: frames.page(b"\2"),
        lambda: frames.page(b"\1\x01\0\0\0k"),
        lambda: frames.page(b"\1\x01\0\0\0k\xff\xff\xff\xff"),
        lambda: frames.numbers(b"\0" * 7, 1),
        lambda: frames.numbers(b"\0" * 9, 1),
    ],
)
def test_answers_of_no_form(read):
    with pytest.raises(tiswenor.Error) as error:
        read()
    assert (error.value.number, error.value.name) == (254, "BadAnswer")


def test_longest_request():
    assert len(frames.frame(bytes(8_388_608))) == 8_388_612
    with pytest.raises(tiswenor.Refused) as refused:
        frames.frame(bytes(8_388_609))
    assert refused.value.number == 39
