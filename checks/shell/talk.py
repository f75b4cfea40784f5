"""Drives `lsm shell` through pipes. Usage: talk.py PROGRAM"""
import os
import subprocess
import sys
import threading
import time

program = sys.argv[1]
BAD = "bad line: help tells what lines there are"
WELL = (0, "")
FAILED = (1, "failed line\na line was bad or was refused: its reply says why\n")
OPEN = (1, "open batch\na batch was begun, and neither committed nor aborted: nothing of it came in\n")


class Shell:
    def __init__(self, folder, *words):
        if "/" not in folder:
            os.makedirs(folder, exist_ok=True)
        self.child = subprocess.Popen([program, "shell", folder, *words], stdin=subprocess.PIPE, stdout=subprocess.PIPE, stderr=subprocess.PIPE)

    def line(self):
        """The next line of a reply; a reply that does not come in 60 s stops the check."""
        timer = threading.Timer(60, self.child.kill)
        timer.start()
        found = self.child.stdout.readline()
        timer.cancel()
        assert found.endswith(b"\n"), f"no whole line: {found!r}, {self.child.poll()}"
        return found[:-1].decode()

    def send(self, text):
        self.child.stdin.write(text.encode() + b"\n")
        self.child.stdin.flush()

    def ask(self, text):
        self.send(text)
        return self.line()

    def list(self, text):
        """The lines of a list, and the line that ends it."""
        self.send(text)
        lines = [self.line()]
        while lines[-1] != "end" and not lines[-1].startswith("refused "):
            lines.append(self.line())
        return lines

    def end(self):
        """The status at the end of the input, and what stands on standard error."""
        out, err = self.child.communicate(timeout=60)
        assert out == b"", out
        return self.child.returncode, err.decode()


def want(found, wanted):
    assert found == wanted, f"{found!r}, not {wanted!r}"


def lines_and_lists():
    shell = Shell("db", "--text")
    want(shell.ask("put apple red"), "file 2 first 1 last 1")
    want(shell.ask("ingest berry=blue cherry=dark"), "file 3 first 2 last 3")
    want(shell.ask("delete berry"), "file 4 first 4 last 4")
    want(shell.ask("get apple"), "value red")
    want(shell.ask("get berry"), "absent")
    want(shell.list("scan"), ["apple=red", "cherry=dark", "end"])
    want(shell.list("scan b limit 1"), ["cherry=dark", "end"])
    want(shell.list("list")[-1], "end")
    want(shell.list("help")[-1], "end")
    for line in ("", "frob"):
        want(shell.ask(line), BAD)
    want(shell.ask("put apple"), "bad line: word 3: VALUE is missing")
    for line, number in (("put a b c", 4), ("quit now", 2), ("stats ", 2)):
        want(shell.ask(line), f"bad line: word {number} is one too many, where one blank parts two words")
    want(shell.ask("put a b\r"), "bad line: it ends with a carriage return")
    want(shell.ask("x" * 9_000_000), "bad line: it has more than 8388608 bytes")
    want(shell.ask("ingest"), "refused 37 EmptyBatch")
    want(shell.ask("install 7"), "refused 45 UnknownTicket 7")
    want(shell.ask("get cherry"), "value dark")
    second = Shell("db")
    status, said = second.end()
    assert status == 1 and said.startswith("refused 52 Locked"), (status, said)
    shell.send("quit")
    want(shell.end(), FAILED)
    shell = Shell("db")
    want(shell.ask("get apple"), "bad line: word 2: KEY is no word in hex: column 2: `p`, which is no hex digit; with --text it is one")
    want(shell.ask("get 6170706c65"), "value 726564")
    want(shell.end(), FAILED)


def batches():
    shell = Shell("batches", "--text")
    want(shell.ask("commit"), "bad line: no batch is begun")
    want(shell.ask("begin"), "begun")
    for line in ("put b 1", "put a 2", "delete c", "put b 3"):
        want(shell.ask(line), "queued")
    want(shell.ask("begin"), "bad line: a batch is begun already")
    want(shell.ask("get b"), "absent")
    want(shell.ask("put d " + "x" * 1_048_577), "refused 39 TooLarge")
    want(shell.ask("commit"), "file 2 first 1 last 3")
    want(shell.list("scan"), ["a=2", "b=3", "end"])
    want(shell.ask("begin"), "begun")
    want(shell.ask("delete a"), "queued")
    want(shell.ask("abort"), "aborted")
    want(shell.ask("begin"), "begun")
    for n in range(65_536):
        shell.send(f"put key{n:05} {n}")
        want(shell.line(), "queued")
    want(shell.ask("put one more"), "refused 39 TooLarge")
    want(shell.ask("commit"), "file 3 first 4 last 65539")
    want(shell.ask("begin"), "begun")
    want(shell.ask("put late 1"), "queued")
    want(shell.end(), FAILED)
    said = subprocess.run([program, "scan", "batches", "--text", "--count"], capture_output=True, check=True).stdout
    want(said, b"65538\n")


def all_that_is_due():
    shell = Shell("due", "--text")
    for n in range(40):
        assert shell.ask(f"put key{n % 7} {n}").startswith("file "), n
        if n % 8 == 7:
            assert shell.ask("compact").startswith("installed "), n
    said = shell.list("stats")
    want([line.split()[:3] for line in said[:7]], [["level", str(level), "files"] for level in range(7)])
    want(said[7:], ["last 40", "snapshots 0", "end"])
    assert int(said[0].split()[3]) < 4, said
    tables = {f"{int(line.split()[1]):06}.ldb" for line in shell.list("list")[:-1]}
    want({name for name in os.listdir("due") if name.endswith(".ldb")}, tables)
    want(shell.list("scan"), [f"key{n % 7}={n}" for n in sorted(range(33, 40), key=lambda n: n % 7)] + ["end"])
    want(shell.end(), WELL)


def one_opening_and_the_folder():
    shell = Shell("twelve", "--text")
    for n in range(12):
        assert shell.ask(f"put key{n} {n}").startswith("file "), n
    want(shell.ask("put late 1"), "refused 40 LevelZeroFull")
    job = shell.ask("reserve").split()
    want(shell.ask(f"merge {job[1]}").split()[:2], ["merged", job[1]])
    assert shell.ask(f"install {job[1]}").startswith("installed"), job
    assert shell.ask("put late 1").startswith("file "), "after a compaction"
    assert shell.ask("collect").startswith("removed"), "collect"
    want(shell.end(), FAILED)
    said = subprocess.run([program, "get", "twelve", "late", "--text"], capture_output=True, check=True).stdout
    want(said, b"value 1\n")
    assert subprocess.run([program, "check", "twelve"], capture_output=True).returncode == 0


def workers_beside():
    shell = Shell("beside", "--text", "--workers", "2")
    want(shell.ask("put key0 first"), "file 2 first 1 last 1")
    want(shell.ask("snapshot"), "snapshot 1 seq 1")
    for n in range(1, 200):
        said = shell.ask(f"put key{n % 20} {n}").split()
        want(said[2:], ["first", str(n + 1), "last", str(n + 1)])
        want(shell.ask(f"get key{n % 20}"), f"value {n}")
    want(shell.ask("get key0 1"), "value first")
    want(shell.ask("release 1"), "released")
    want(shell.list("scan"), [f"key{n % 20}={n}" for n in sorted(range(180, 200), key=lambda n: str(n % 20))] + ["end"])
    # Workers gather small files of level 0 once there are eleven.
    ends = time.monotonic() + 60
    while int(shell.list("stats")[0].split()[3]) >= 11:
        assert time.monotonic() < ends, "the workers leave level 0 as it is"
    want(shell.list("stats")[7:], ["last 200", "snapshots 0", "end"])
    want(shell.ask("frob"), BAD)
    assert shell.ask("compact").startswith("installed "), "compact"
    assert shell.ask("collect").startswith("removed"), "collect"
    want(shell.end(), FAILED)
    assert subprocess.run([program, "check", "beside"], capture_output=True).returncode == 0
    for count in ("0", "17", "x"):
        status, _said = Shell("beside", "--workers", count).end()
        want(status, 2)


def lines_wait_for_room():
    """Lines that are sent at once: none is refused where level 0 is full, since workers make room there."""
    lines = "".join(f"put key{n * 77 % 1000:04} {n}\n" for n in range(600))
    for workers in ("1", "2"):
        os.mkdir(f"waits{workers}")
        done = subprocess.run(
            [program, "shell", f"waits{workers}", "--text", "--workers", workers], input=lines, capture_output=True, text=True
        )
        want((done.returncode, done.stderr), (0, ""))
        want([it for it in done.stdout.splitlines() if not it.startswith("file ")], [])
        want(done.stdout.count("\n"), 600)


def what_the_status_tells():
    for words in ((), ("--workers", "1")):
        shell = Shell("told", "--text", *words)
        for line in ("get none", "begin", "put a 1", "abort", "put a 2"):
            shell.ask(line)
        want(shell.end(), WELL)
        shell = Shell("told", "--text", *words)
        want(shell.ask("begin"), "begun")
        want(shell.ask("put a 3"), "queued")
        shell.send("quit")
        want(shell.end(), OPEN)
        want(run_of("get", "told", "a", "--text"), b"value 2\n")


def bail_ends_it():
    for words in ((), ("--workers", "1")):
        for line, reply in (("frob", BAD), ("release 7", "refused 43 UnknownSnapshot 7"), ("commit", "bad line: no batch is begun")):
            shell = Shell("bailed", "--text", "--bail", *words)
            want(shell.ask("put a 1")[:5], "file ")
            want(shell.ask(line), reply)
            want(shell.end(), FAILED)
        lines = b"put a 2\nfrob\nput a 3\n"
        child = subprocess.run([program, "shell", "bailed", "--text", "--bail", *words], input=lines, capture_output=True)
        want((child.returncode, child.stdout.splitlines()[1:], child.stderr.decode()), (1, [BAD.encode()], FAILED[1]))
        want(run_of("get", "bailed", "a", "--text"), b"value 2\n")
        shell = Shell("bailed", "--text", "--bail", *words)
        want(shell.ask("get a"), "value 2")
        want(shell.end(), WELL)


def run_of(*words):
    return subprocess.run([program, *words], capture_output=True, check=True).stdout


def a_kill_loses_nothing_that_was_said():
    shell = Shell("killed", "--text")
    for n in range(5):
        want(shell.ask(f"put k{n} v"), f"file {n + 2} first {n + 1} last {n + 1}")
    shell.child.kill()
    shell.child.wait()
    said = subprocess.run([program, "scan", "killed", "--text"], capture_output=True, check=True).stdout
    want(said.decode().split(), [f"k{n}=v" for n in range(5)])


def a_folder_that_is_refused():
    status, said = Shell("none/db").end()
    assert status == 1 and said.startswith("refused "), (status, said)


def files_of(folder):
    files = {}
    for name in sorted(os.listdir(folder)):
        with open(os.path.join(folder, name), "rb") as file:
            files[name] = file.read()
    return files


def a_folder_that_is_only_read():
    shell = Shell("read", "--text")
    want(shell.ask("put a 1"), "file 2 first 1 last 1")
    want(shell.end(), WELL)
    before = files_of("read")
    first = Shell("read", "--text", "--read-only")
    want(first.ask("get a"), "value 1")
    second = Shell("read", "--text", "--read-only")
    want(second.list("scan"), ["a=1", "end"])
    want(run_of("get", "read", "a", "--text"), b"value 1\n")
    status, said = Shell("read").end()
    assert status == 1 and said.startswith("refused 52 Locked"), (status, said)
    for line in ("put a 2", "delete a", "ingest a=2", "compact", "collect"):
        want(first.ask(line), "refused 42 Halted")
    want(first.ask("get a"), "value 1")
    want(first.end(), FAILED)
    want(second.end(), WELL)
    want(files_of("read"), before)
    status, said = Shell("empty", "--read-only").end()
    assert status == 1 and said.startswith("refused 10 Missing"), (status, said)
    want(os.listdir("empty"), [])


def a_reply_that_is_not_written():
    read, write = os.pipe()
    os.close(read)
    child = subprocess.Popen([program, "shell", "db"], stdin=subprocess.PIPE, stdout=write, stderr=subprocess.PIPE)
    os.close(write)
    _out, err = child.communicate(b"pin\npin\n", timeout=60)
    assert child.returncode == 1 and err.startswith(b"write fault"), (child.returncode, err)


for part in (lines_and_lists, batches, all_that_is_due, one_opening_and_the_folder, workers_beside, lines_wait_for_room, what_the_status_tells, bail_ends_it, a_kill_loses_nothing_that_was_said, a_folder_that_is_refused, a_folder_that_is_only_read, a_reply_that_is_not_written):
    part()
    print(part.__name__.replace("_", " ") + ": as wanted")
