"""Several threads, interrupted calls, and processes that fork."""

import os
import signal
import threading
import time

import pytest

import tiswenor


def together(*works):
    """Runs each in a thread of its own. The first exception of one of them is raised."""
    errors = []

    def run(work):
        try:
            work()
        except BaseException as error:
            errors.append(error)

    threads = [threading.Thread(target=run, args=(work,)) for work in works]
    for thread in threads:
        thread.start()
    for thread in threads:
        thread.join()
    if errors:
        raise errors[0]


@pytest.mark.parametrize("channels", [1, 3])
def test_readers_beside_a_writer(folder, channels):
    """Each batch gives all keys the number of its round: whoever reads sees one round."""
    keys = [b"%04d" % number for number in range(3000)]
    done = threading.Event()
    with tiswenor.DB(folder, create_if_missing=True, channels=channels, workers=2) as db:

        def put(number):
            with db.write_batch() as batch:
                for key in keys:
                    batch.put(key, b"%08d" % number)

        def write():
            try:
                for number in range(1, 30):
                    put(number)
            finally:
                done.set()

        def read(values):
            last = b""
            while not done.is_set():
                found = values()
                assert len(found) == len(keys)
                assert set(found) == {found[0]}
                assert found[0] >= last
                last = found[0]

        put(0)
        together(
            write,
            lambda: read(lambda: db.get_many(keys)),
            lambda: read(lambda: list(db.iterator(include_key=False))),
            lambda: read(lambda: [db.get(keys[7])] * len(keys)),
            lambda: read(lambda: db.snapshot().get_many(keys)),
        )
        assert db.get(keys[0]) == b"00000029"


def test_writers_beside_each_other(db):
    def write(name):
        for number in range(20):
            db.put(b"%s%02d" % (name, number), name)

    together(*(lambda name=name: write(name) for name in (b"a", b"b", b"c", b"d", b"e", b"f")))
    assert len(list(db)) == 120


def test_close_waits_for_calls_under_way(folder):
    db = tiswenor.DB(folder, create_if_missing=True, channels=2)
    db.put(b"key", b"value")
    begun = threading.Barrier(5)

    def read():
        begun.wait()
        with pytest.raises(tiswenor.Error) as closed:
            while True:
                assert db.get(b"key") == b"value"
        assert closed.value.name == "Closed"

    def close():
        begun.wait()
        time.sleep(0.05)
        db.close()

    together(close, *[read] * 4)


def test_interrupted_calls_leave_the_channels_whole(folder):
    class Interrupt(Exception):
        pass

    def interrupt(*_):
        raise Interrupt

    keys = [b"%04d" % number for number in range(2000)]
    with tiswenor.DB(folder, create_if_missing=True, channels=1) as db:
        with db.write_batch() as batch:
            for key in keys:
                batch.put(key, key * 10)
        before = signal.signal(signal.SIGALRM, interrupt)
        try:
            interrupted = 0
            for number in range(300):
                try:
                    signal.setitimer(signal.ITIMER_REAL, 0.0002 + number % 17 * 0.0001)
                    while True:
                        db._server.ask(b"\2\0" + b"".join(
                            len(key).to_bytes(4, "little") + key for key in keys[:500]
                        ))
                except Interrupt:
                    interrupted += 1
            assert interrupted > 0
        finally:
            signal.setitimer(signal.ITIMER_REAL, 0)
            signal.signal(signal.SIGALRM, before)
        for key in keys:
            assert db.get(key) == key * 10


def test_forked_process_does_not_use_the_channels(folder):
    db = tiswenor.DB(folder, create_if_missing=True)
    db.put(b"key", b"value")
    iterator = iter(db)
    until, go = os.pipe()
    child = os.fork()
    if child == 0:
        status = 1
        try:
            os.close(go)
            assert db.closed
            calls = [lambda: db.get(b"key"), lambda: next(iterator), lambda: db.put(b"a", b"b")]
            for call in (*calls, db.folder):
                try:
                    call()
                except tiswenor.Error as error:
                    assert error.name == "Closed"
                else:
                    raise AssertionError
            db.close()
            os.read(until, 1)  # lives on while the database is closed
            status = 0
        finally:
            os._exit(status)
    os.close(until)
    assert db.get(b"key") == b"value"
    db.close()
    tiswenor.DB(folder).close()
    os.close(go)
    assert os.waitpid(child, 0)[1] == 0


def test_signals_of_the_terminal_do_not_reach_the_server(db):
    assert os.getsid(db._server.process_id) != os.getsid(0)
