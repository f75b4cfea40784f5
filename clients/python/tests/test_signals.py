"""Calls that an exception interrupts at any place, as a signal handler may raise it."""

import itertools
import os
import signal
import sys
import threading
import time

import pytest

import tiswenor

PACKAGE = os.path.dirname(tiswenor.__file__)


class Interrupt(Exception):
    pass


def is_interrupted(call, place):
    """Runs a call, in which this exception is raised before the step of the interpreter that has
    this number, of those in the package. Whether there were so many."""
    left = place

    def trace(frame, event, _):
        nonlocal left
        if not frame.f_code.co_filename.startswith(PACKAGE) or frame.f_code.co_name == "__del__":
            return None  # an exception in a finalizer goes nowhere
        frame.f_trace_opcodes = True
        if event == "opcode":
            left -= 1
            if left < 0:
                raise Interrupt
        return trace

    before = sys.gettrace()
    sys.settrace(trace)
    try:
        call()
    except Interrupt:
        return True
    finally:
        sys.settrace(before)
    return False


def interrupt_everywhere(call, check, step=1):
    """Runs a call with an exception at each place, or each so manyth one, and then the check."""
    for place in itertools.count(0, step):
        if not is_interrupted(lambda: call(place), place):
            break
        check(place)
    assert place > 100


@pytest.fixture
def db(folder):
    with tiswenor.DB(folder, create_if_missing=True, channels=1) as opened:
        yield opened


@pytest.fixture
def wide(folder):
    """More channels than calls."""
    with tiswenor.DB(folder, create_if_missing=True, channels=3) as opened:
        yield opened


@pytest.fixture(autouse=True)
def no_call_hangs():
    signal.alarm(300)
    yield
    signal.alarm(0)


def test_reads(db):
    db.put(b"key", b"value")

    def check(_):
        assert db.get(b"key") == b"value"

    interrupt_everywhere(lambda _: db.get(b"key"), check)


def test_reads_that_are_sent_in_parts(db):
    """The system takes such a request in several parts."""
    db.put(b"key", b"value")
    keys = [b"key", *[b"%04d" % number + bytes(4000) for number in range(400)]]

    def check(_):
        assert db.get_many(keys) == [b"value"] + [None] * 400

    request = tiswenor.frames.read(tiswenor.frames.NOW, keys)
    interrupt_everywhere(lambda _: db._server.ask(request), check, 3)


def test_a_write_comes_behind_those_before(wide):
    """Whether an interrupted write is done is not known; it is not done behind a later one."""

    def check(place):
        wide.put(b"key", b"new %d" % place)
        assert wide.get(b"key") == b"new %d" % place

    interrupt_everywhere(lambda place: wide.put(b"key", b"old %d" % place), check, 3)


def test_a_write_comes_behind_one_that_was_sent_in_part(wide):
    """Also where others read meanwhile, on whatever channel."""
    db = wide
    with db.write_batch() as batch:
        for number in range(4):
            batch.put(b"%d" % number, b"")
    done = threading.Event()

    def read():
        while not done.is_set():
            assert db.get(b"0") is not None

    reader = threading.Thread(target=read)
    reader.start()
    try:
        parts = 0
        for place in range(0, 2000, 13):
            batch = db.write_batch()
            for number in range(3):
                batch.put(b"%d" % number, b"%d" % place + bytes(1_000_000))
            if not is_interrupted(batch.write, place):
                break
            parts += any(channel.is_left_write for channel in db._server._channels)
            db.put(b"0", b"new %d" % place)
            assert db.get(b"0") == b"new %d" % place
        assert parts > 1
    finally:
        done.set()
        reader.join()


@pytest.mark.parametrize("reverse", [False, True])
def test_iterators_go_on(db, reverse):
    """An iterator that was interrupted may have passed one pair, and shows all others."""
    pairs = [(b"%02d" % number, b"") for number in range(24)]
    with db.write_batch() as batch:
        for key, value in pairs:
            batch.put(key, value)
    wanted = pairs[::-1] if reverse else pairs
    shown = []

    def show():
        for pair in iterator:
            shown.append(pair)

    for place in itertools.count(0, 17):
        iterator = db.iterator(reverse=reverse)
        shown.clear()
        if not is_interrupted(show, place):
            break
        show()
        missed = [pair for pair in wanted if pair not in shown]
        assert len(missed) <= 1
        assert shown == [pair for pair in wanted if pair not in missed]
    assert place > 100


def test_closing(folder):
    db = tiswenor.DB(folder, create_if_missing=True)
    for place in itertools.count(0, 3):
        if not is_interrupted(db.close, place):
            break
        db.close()
        db = tiswenor.DB(folder)
    assert place > 30


@pytest.mark.parametrize("threads", [0, 3])
def test_a_handler_that_raises(folder, threads):
    """Signals some milliseconds apart, beside other threads and without."""
    is_armed = False
    done = threading.Event()
    errors = []

    def interrupt(*_):
        if is_armed:
            raise Interrupt

    def read():
        try:
            while not done.is_set():
                assert db.get(b"key") == b"value"
        except BaseException as error:
            errors.append(error)

    def send():
        while not done.wait(0.002):
            signal.pthread_kill(threading.main_thread().ident, signal.SIGUSR1)

    db = tiswenor.DB(folder, create_if_missing=True, channels=2)
    db.put(b"key", b"value")
    before = signal.signal(signal.SIGUSR1, interrupt)
    others = [threading.Thread(target=work) for work in (send, *[read] * threads)]
    for other in others:
        other.start()
    interrupted = 0
    until = time.monotonic() + 3
    try:
        while time.monotonic() < until or interrupted < 20:
            try:
                is_armed = True
                while True:
                    assert db.get(b"key") == b"value"
            except Interrupt:
                is_armed = False
                interrupted += 1
    finally:
        is_armed = False
        done.set()
        for other in others:
            other.join(60)
        signal.signal(signal.SIGUSR1, before)
    assert not errors and not any(other.is_alive() for other in others)
    assert db.get(b"key") == b"value"
    db.close()
