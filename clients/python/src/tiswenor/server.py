"""The server as a child process, and the channels to it."""

from __future__ import annotations

import fcntl
import os
import select
import shutil
import socket
import subprocess
import threading
import time
import weakref
from typing import List, Optional, Set, Tuple, Union

from . import frames
from .errors import LAST, NAMES, NO_SERVER, REASONS, TOO_LARGE, UNANSWERED
from .errors import Closed, Ended, Error, Refused, TooLarge, refused

PROGRAM = "lsm_server"
VARIABLE = "TISWENOR_SERVER"

# No path of a file is longer on Linux.
LONGEST_PATH = 4095

# How many bytes an answer's first part may have. Only one answer is on its way at a time.
_READ_AT_ONCE = 4096

# How bytes are sent: without waiting, and without a signal where nobody reads them.
_AT_ONCE = int(socket.MSG_NOSIGNAL | socket.MSG_DONTWAIT)

# How long a waiting call sleeps until it looks again whether a channel is free, in seconds. It is
# told of it, but for one who was interrupted before.
_AT_LATEST = 0.5

# How long a server that closed a channel may take until its status is known, in seconds.
_UNTIL_STATUS = 1.0

# How long a server may take for its end, in seconds, as it finishes the merge at hand.
_UNTIL_END = 60.0


def find(server: Union[str, "os.PathLike[str]", None] = None) -> str:
    """The path of the server: what was passed, else what the environment variable
    TISWENOR_SERVER names, else `lsm_server` in this package's folder, else that of PATH."""
    named = server if server is not None else os.environ.get(VARIABLE)
    if named:
        return os.fspath(named)
    beside = os.path.join(os.path.dirname(os.path.abspath(__file__)), PROGRAM)
    if os.access(beside, os.X_OK):
        return beside
    found = shutil.which(PROGRAM)
    if found is None:
        raise Error(NO_SERVER, "NoServer", f"no {PROGRAM} on PATH; {VARIABLE} may name one")
    return found


class ChannelEnded(Exception):
    """A channel was found at its end before a request was sent. Another one may do it."""


class AnswerMissed(Exception):
    """A channel came to its end before an answer did."""


class Lease:
    """Lives as long as a call: it is over once the call says so, or once nothing refers to it."""

    __slots__ = ("is_over", "__weakref__")

    def __init__(self) -> None:
        self.is_over = False


class Call:
    """A request, and how far it and its answer have come.

    A signal handler may raise an exception, as KeyboardInterrupt, at any place of a call. So what a
    call has sent and what it got are noted in the same step of the interpreter in which it sends or
    gets: another call can go on where this one was left.
    """

    __slots__ = ("request", "sent", "came", "channel", "woken", "_lease")

    def __init__(self, request: bytes, lease: Lease) -> None:
        self.request = request
        self.sent: List[int] = []  # how many bytes at a time
        self.came: List[bytes] = []
        self.channel: Optional[Channel] = None
        self.woken: Optional[threading.Lock] = None  # of a call that waits for a channel
        self._lease = weakref.ref(lease)

    @property
    def is_over(self) -> bool:
        lease = self._lease()
        return lease is None or lease.is_over

    @property
    def is_write(self) -> bool:
        return self.request[4:5] == frames.WRITE

    def wake(self) -> None:
        if self.woken is not None:
            _release(self.woken)


class Channel:
    """One end of a socket pair, for one call at a time.

    A call that was interrupted once a part of its request was sent stays under way: the next one on
    this channel sends the rest first, and drops its answer.
    """

    def __init__(self, end: socket.socket) -> None:
        self._socket = end
        self._under_way: Optional[Call] = None
        self.has_failed = False

    @property
    def is_left(self) -> bool:
        """Whether a call was interrupted here, and is still under way."""
        call = self._under_way
        return call is not None and call.is_over and bool(call.sent)

    @property
    def is_left_write(self) -> bool:
        call = self._under_way
        return call is not None and call.is_write and self.is_left

    def finish(self) -> None:
        """Ends the call that was left here, if there is one."""
        call = self._under_way
        if call is None or not call.sent:
            return
        try:
            self._go_on(call)
        except (AnswerMissed, Error):
            raise ChannelEnded from None
        if self.has_failed:
            raise ChannelEnded

    def exchange(self, call: Call) -> bytes:
        """Sends a frame, and gives the frame that answers it, without its length."""
        self._under_way = call
        return self._go_on(call)

    def _go_on(self, call: Call) -> bytes:
        try:
            left = self._send(call)
            answer = self._receive(call)
            is_last = answer[0] in LAST
            if left and not is_last:  # of a request that the server has not read
                frames.bad_answer()
        except OSError:
            self.has_failed = True
            raise AnswerMissed from None
        except Error:
            self.has_failed = True
            raise
        if is_last:
            self.has_failed = True
            self.shut()
        self._under_way = None
        return answer

    def _send(self, call: Call) -> int:
        """Sends what is left of a frame, but for the rest once its answer comes: a server that has
        no memory for a request does not read it. How many bytes that is."""
        while True:
            rest = memoryview(call.request)[sum(call.sent) :]
            if not rest:
                return 0
            try:
                # One call for both: a signal handler runs before the bytes are sent, or after
                # their number is noted, and not between.
                call.sent.extend(map(self._socket.send, (rest,), (_AT_ONCE,)))
            except BlockingIOError:
                waiting = select.poll()
                waiting.register(self._socket, select.POLLIN | select.POLLOUT)
                if any(events & select.POLLIN for _, events in waiting.poll()):
                    return len(rest)

    def _receive(self, call: Call) -> bytes:
        """The answer. Where it is the last one, the channel is closed."""
        length = frames.length(self._until(call.came, 4)[:4])
        if not 1 <= length <= frames.LONGEST_ANSWER:
            frames.bad_answer()
        answer = self._until(call.came, 4 + length)
        if len(answer) != 4 + length:
            frames.bad_answer()
        return answer[4:]

    def _until(self, came: List[bytes], count: int) -> bytes:
        """All that came, once that are `count` bytes. It stays in `came`."""
        while sum(map(len, came)) < count:
            room = max(count - sum(map(len, came)), _READ_AT_ONCE)
            came.extend(map(self._socket.recv, (room,)))  # one call for both, as where it sends
            if not came[-1]:
                raise ConnectionResetError
        return b"".join(came)

    def shut(self) -> None:
        """Ends the channel, also for processes that have copies of its descriptor."""
        try:
            self._socket.shutdown(socket.SHUT_RDWR)
        except OSError:
            pass  # the server has ended, or it is shut
        self._socket.close()

    def forget(self) -> None:
        """Closes this process's descriptor alone."""
        self._socket.close()


class Server:
    """A running server, which has one database open. Any thread may ask it.

    Calls stand in a line. The first one that has no channel takes one that no call before it has,
    and is woken for that. There is no lock that an interrupted call could keep: a call is added, is
    given its channel, and is over by one step of the interpreter each, and never goes back.
    """

    def __init__(self, program: str, path: bytes, channels: int, workers: int, flags: int) -> None:
        if not 1 <= channels <= 62:
            raise ValueError("channels must be 1 to 62")
        if not 0 <= workers <= 16:
            raise ValueError("workers must be 0 to 16")
        if len(path) > LONGEST_PATH:
            raise ValueError(f"the path has more than {LONGEST_PATH} bytes")
        self._line: List[Call] = []
        self._is_closed = False
        self._is_forked = False
        self._closing = threading.Lock()  # on which `close` waits
        self._closing.acquire()
        self._status_until: Optional[float] = None
        self._path = path
        ours, self._process = _start(program, path, channels, workers, flags)
        self._channels = [Channel(end) for end in ours]
        try:
            self._opened()
        except BaseException:
            self.close()
            raise
        _servers.add(self)

    def _opened(self) -> None:
        """Waits for the answer to the opening, which was sent by another way."""
        lease = Lease()
        try:
            self._body(self._channels[0].exchange(Call(b"", lease)), b"")
        except AnswerMissed:
            raise self._ended() from None

    def ask(self, request: bytes) -> bytes:
        """What follows the status in the answer to a request. Waits for a free channel."""
        framed = frames.frame(request)
        while True:
            lease = Lease()
            call = Call(framed, lease)
            try:
                return self._body(self._take(call).exchange(call), request)
            except ChannelEnded:
                continue
            except AnswerMissed:
                raise self._ended() from None
            finally:
                lease.is_over = True
                self._leave(call)

    def _take(self, call: Call) -> Channel:
        """A channel of this call's own, on which nothing is under way."""
        self._line.append(call)
        channel = self._choose(call)
        while channel is None:
            self._sleep(call)
            channel = self._choose(call)
        call.channel = channel
        if self.is_closed:
            raise not_open()
        self._wake()  # the next one may find another channel
        if channel.is_left:
            channel.finish()
            self._wake()  # a write may have waited for that
        return channel

    def _choose(self, call: Call) -> Optional[Channel]:
        """A free channel, if it is this call's turn and there is one.

        A write takes the channel of a write that was interrupted, so that it comes behind it. Other
        calls leave such channels to the last.
        """
        if self.is_closed:
            raise not_open()
        living = [channel for channel in self._channels if not channel.has_failed]
        if not living:
            raise self._ended()
        taken = self._taken_before(call)
        if taken is None:
            return None
        if call.is_write and any(channel.is_left_write for channel in living):
            living = [channel for channel in living if channel.is_left_write]
        free = [channel for channel in living if channel not in taken]
        free.sort(key=lambda channel: channel.is_left)
        return free[0] if free else None

    def _taken_before(self, call: Call) -> Optional[Set[Channel]]:
        """The channels of the calls before this one; None where one of these has none yet."""
        taken: Set[Channel] = set()
        for other in self._line.copy():
            if other is call:
                break
            if other.is_over:
                self._remove(other)  # it was interrupted where it left
            elif other.channel is None:
                return None
            else:
                taken.add(other.channel)
        return taken

    def _sleep(self, call: Call) -> None:
        if call.woken is None:
            call.woken = threading.Lock()
            call.woken.acquire()  # and looks once more, as it may have been its turn before
        else:
            call.woken.acquire(True, _AT_LATEST)

    def _leave(self, call: Call) -> None:
        self._remove(call)
        self._wake()

    def _remove(self, call: Call) -> None:
        try:
            self._line.remove(call)
        except ValueError:
            pass  # another one did

    def _wake(self) -> None:
        """Wakes the first call that waits, if one does."""
        if self._is_closed:
            _release(self._closing)
        for call in self._line.copy():
            if call.channel is None and not call.is_over:
                return call.wake()

    def _body(self, answer: bytes, request: bytes) -> bytes:
        """What follows the status 0; another status is raised."""
        status = answer[0]
        if status == 0:
            return answer[1:]
        raise _refusal(status, answer[1:], request, os.fsdecode(self._path))

    def _ended(self) -> Ended:
        """Why no channel is left. The first time it waits a little for the server's end."""
        for channel in self._channels:
            if channel.has_failed:
                channel.shut()
        if self._status_until is None:
            self._status_until = time.monotonic() + _UNTIL_STATUS
        try:
            return Ended(self._process.wait(max(0, self._status_until - time.monotonic())))
        except subprocess.TimeoutExpired:
            return Ended()

    @property
    def is_closed(self) -> bool:
        return self._is_closed or self._is_forked

    @property
    def process_id(self) -> int:
        return self._process.pid

    def close(self) -> None:
        """Waits for the calls under way, and then for the server's end; kills it after a minute."""
        if self._is_forked:
            return
        self._is_closed = True
        for call in self._line.copy():
            call.wake()
        while any(not call.is_over and call.channel is not None for call in self._line.copy()):
            self._closing.acquire(True, _AT_LATEST)
        for channel in self._channels:
            channel.shut()
        try:
            self._process.wait(_UNTIL_END)
        except subprocess.TimeoutExpired:
            self._process.kill()  # all that it answered is on the disk
            self._process.wait()

    def forget(self) -> None:
        """In a process that was forked from the one that opened the database."""
        self._is_forked = True
        self._process.returncode = 0  # it is no child of this process
        for channel in self._channels:
            channel.forget()


def _refusal(status: int, text: bytes, request: bytes, path: str) -> Error:
    """Why a request was answered by this status: its text is a name, and lines behind it."""
    name, _, told = text.decode("utf-8", "replace").partition("\n")
    named = name or NAMES.get(status, "Refused")
    if status == UNANSWERED:
        return Error(status, named, REASONS[status])
    if status == TOO_LARGE:
        return TooLarge(*frames.excess(request), path)
    return refused(status, named, path, told.rstrip("\n"))


def _release(lock: threading.Lock) -> None:
    try:
        lock.release()
    except RuntimeError:
        pass  # it was released before


def not_open() -> Closed:
    return Closed("the database is not open in this process")


def _start(
    program: str, path: bytes, channels: int, workers: int, flags: int
) -> "Tuple[List[socket.socket], subprocess.Popen[bytes]]":
    """Starts the server, with the opening request on its standard input. It gets a session of its
    own, so that signals from the terminal (as Ctrl-C) do not reach it. SIGXFSZ, which the
    interpreter ignores, stays ignored in it: a write beyond a limit on the size of files is
    refused. So does SIGPIPE, which the server ignores itself."""
    ours: List[socket.socket] = []
    theirs: List[int] = []
    try:
        ends: List[socket.socket] = []
        for _ in range(channels):
            our, their = socket.socketpair(socket.AF_UNIX, socket.SOCK_STREAM)
            ours.append(our)
            ends.append(their)
        theirs = _following(ends)
        for end in ends:
            end.close()
        request, sender = os.pipe()
        try:
            try:
                os.write(sender, frames.opening(theirs[0], channels, workers, flags, path))
            finally:
                os.close(sender)
            process = subprocess.Popen(
                [program],
                stdin=request,
                stdout=subprocess.DEVNULL,
                pass_fds=theirs,
                restore_signals=False,
                start_new_session=True,
            )
        finally:
            os.close(request)
    except BaseException as error:
        for our in ours:
            our.close()
        if isinstance(error, (FileNotFoundError, PermissionError)) and error.filename == program:
            raise Error(NO_SERVER, "NoServer", str(error)) from None
        raise
    finally:
        for their_number in theirs:
            os.close(their_number)
    return ours, process


def _following(ends: List[socket.socket]) -> List[int]:
    """Copies of the descriptors, whose numbers follow one another. Only free numbers are taken, the
    lowest ones: a process may have few."""
    first = 3
    while True:
        copies: List[int] = []
        for number, end in enumerate(ends, first):
            copies.append(fcntl.fcntl(end.fileno(), fcntl.F_DUPFD_CLOEXEC, number))
            if copies[-1] != number:
                break
        else:
            return copies
        first = copies[-1]
        for copy in copies:
            os.close(copy)


_servers: "weakref.WeakSet[Server]" = weakref.WeakSet()


def _forget_all() -> None:
    for server in list(_servers):
        server.forget()


os.register_at_fork(after_in_child=_forget_all)
