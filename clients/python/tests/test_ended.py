"""Channels that the server ends: the client closes them, the others go on, and no call hangs."""

import os
import pathlib
import signal
import sys
import time
from typing import Iterator

import pytest

import tiswenor

# A server that does as it is asked to: by the key of a read it answers that the key is absent, or
# by a last answer, before or behind the request's end, and then notes when its channel is closed.
SERVER = """\
import os, socket, struct, sys, threading

STATUS = {b"malformed": 200, b"unanswered": 204}

def exactly(read, count):
    got = b""
    while len(got) < count:
        more = read(count - len(got))
        if not more:
            return None
        got += more
    return got

def serve(number):
    end = socket.socket(fileno=number)
    while True:
        head = exactly(end.recv, 4)
        if head is None:
            return
        length = struct.unpack("<I", head)[0]
        if length > 1_000_000:
            end.sendall(b"\\1\\0\\0\\0" + bytes([204]))
            break
        key = exactly(end.recv, length)[6:]
        status = STATUS.get(key)
        if status is not None:
            end.sendall(b"\\1\\0\\0\\0" + bytes([status]))
            break
        end.sendall(b"\\2\\0\\0\\0\\0\\0")
    while end.recv(4096):
        pass
    with open(os.environ["ENDED"], "a") as file:
        file.write("x")
    threading.Event().wait(float(os.environ.get("STAYS", "0")))

opening = exactly(lambda count: os.read(0, count), 4)
opening = exactly(lambda count: os.read(0, count), struct.unpack("<I", opening)[0])
first, count = struct.unpack_from("<II", opening)
os.write(first, b"\\1\\0\\0\\0\\0")
for number in range(first, first + count):
    threading.Thread(target=serve, args=(number,)).start()
"""


@pytest.fixture(autouse=True)
def stays(request: pytest.FixtureRequest, monkeypatch: pytest.MonkeyPatch) -> None:
    """How many seconds the server stays behind its last channel."""
    monkeypatch.setenv("STAYS", "60" if "stays" in request.node.name else "0")


@pytest.fixture
def noted(tmp_path: pathlib.Path, monkeypatch: pytest.MonkeyPatch) -> pathlib.Path:
    """Has an x for each channel that was closed behind its last answer."""
    monkeypatch.setenv("ENDED", str(tmp_path / "ended"))
    return tmp_path / "ended"


@pytest.fixture
def db(tmp_path: pathlib.Path, noted: pathlib.Path) -> Iterator[tiswenor.DB]:
    server = tmp_path / "server"
    server.write_text(f"#!{sys.executable} -S\n{SERVER}")
    server.chmod(0o700)
    with tiswenor.DB(tmp_path / "db", create_if_missing=True, channels=3, server=server) as opened:
        yield opened


def are_noted(noted: pathlib.Path, count: int) -> bool:
    for _ in range(1000):
        if noted.exists() and len(noted.read_text()) == count:
            return True
        time.sleep(0.01)
    return False


@pytest.mark.parametrize(
    "key, number, name",
    [
        (b"malformed", 200, "Malformed"),
        (b"unanswered", 204, "Unanswered"),
        (bytes(8_000_000), 204, "Unanswered"),
    ],
    ids=["malformed", "unanswered", "answered before it is read"],
)
def test_last_answers(
    db: tiswenor.DB, noted: pathlib.Path, key: bytes, number: int, name: str
) -> None:
    for ended in (1, 2, 3):
        assert db.get(b"absent") is None
        with pytest.raises(tiswenor.Error) as error:
            db.get(key)
        assert (error.value.number, error.value.name) == (number, name)
        assert isinstance(error.value, tiswenor.Refused) == (number == 200)
        assert are_noted(noted, ended)
    with pytest.raises(tiswenor.Ended):
        db.get(b"absent")


def test_calls_do_not_wait_for_a_server_that_stays(db: tiswenor.DB) -> None:
    """Its end is waited for once, if no channel is left: for a second, and not in each call."""
    for _ in range(3):
        with pytest.raises(tiswenor.Error):
            db.get(b"malformed")
    begun = time.monotonic()
    for _ in range(10):
        with pytest.raises(tiswenor.Ended) as error:
            db.get(b"absent")
        assert error.value.status is None
    assert time.monotonic() - begun < 5
    os.kill(db._server.process_id, signal.SIGKILL)
