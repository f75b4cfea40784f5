"""A server that is killed, and a host that is killed."""

import os
import pathlib
import signal
import subprocess
import sys
import threading
import time

import pytest

import tiswenor


def kill(db):
    os.kill(db._server.process_id, signal.SIGKILL)


def test_each_call_says_that_the_server_ended(folder):
    db = tiswenor.DB(folder, create_if_missing=True)
    db.put(b"a", b"1")
    iterator, snapshot = iter(db), db.snapshot()
    kill(db)
    for call in (
        lambda: db.get(b"a"),
        lambda: db.put(b"b", b"2"),
        lambda: next(iterator),
        lambda: snapshot.get(b"a"),
        db.snapshot,
        db.compact_range,
        db.collect,
        db.statistics,
    ):
        with pytest.raises(tiswenor.Ended) as ended:
            call()
        assert (ended.value.number, ended.value.status) == (255, -signal.SIGKILL)
        assert "signal 9" in str(ended.value)
    assert db.folder().tables == 1  # the server is not asked
    db.close()
    with tiswenor.DB(folder) as db:
        assert list(db) == [(b"a", b"1")]


def test_no_call_under_way_hangs(folder):
    db = tiswenor.DB(folder, create_if_missing=True, channels=2)
    db.put(b"key", bytes(100_000))
    ended = []

    def read():
        try:
            while True:
                db.get_many([b"key"] * 50)
        except tiswenor.Ended as error:
            ended.append(error)

    threads = [threading.Thread(target=read) for _ in range(6)]
    for thread in threads:
        thread.start()
    time.sleep(0.2)
    kill(db)
    for thread in threads:
        thread.join(30)
        assert not thread.is_alive()
    assert len(ended) == 6
    db.close()


HOST = """
import sys, tiswenor
db = tiswenor.DB(sys.argv[1], create_if_missing=True, workers=2)
round = int(sys.argv[2])
number = 0
while True:
    with db.write_batch() as batch:
        for at in range(20):
            batch.put(b"%02d %06d %02d" % (round, number, at), b"x" * 100)
    print(number, flush=True)
    number += 1
"""


def test_killed_host_loses_nothing_that_was_answered(folder):
    source = pathlib.Path(tiswenor.__file__).resolve().parent.parent
    answered = {}
    for round in range(5):
        command = [sys.executable, "-c", HOST, os.fspath(folder), str(round)]
        host = subprocess.Popen(
            command, stdout=subprocess.PIPE, env={**os.environ, "PYTHONPATH": os.fspath(source)}
        )
        for _ in range(5 + 7 * round):
            answered[round] = int(host.stdout.readline())
        host.kill()
        lines = host.stdout.read().split(b"\n")  # what came before the kill
        answered[round] = max([answered[round], *map(int, filter(None, lines[:-1]))])
        host.wait()
        host.stdout.close()
        with opened_once_free(folder) as db:
            keys = list(db.iterator(include_value=False))
            for earlier, last in answered.items():
                numbers = [int(key[3:9]) for key in keys if key.startswith(b"%02d " % earlier)]
                count = len(numbers) // 20
                assert count in (last + 1, last + 2)  # one more may have come in unanswered
                assert numbers == [number for number in range(count) for _ in range(20)]


def opened_once_free(folder):
    """The server of a killed host ends by itself once it has finished the merge at hand."""
    until = time.monotonic() + 60
    while True:
        try:
            return tiswenor.DB(folder)
        except tiswenor.Refused as refused:
            if refused.name != "Locked" or time.monotonic() > until:
                raise
            time.sleep(0.01)
