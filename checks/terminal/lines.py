"""What `lsm` writes on a terminal of how far it is. Usage: lines.py PROGRAM, in an empty folder"""
import os
import subprocess
import sys
import threading
import tty

program = sys.argv[1]
CLEAR = b"\r\x1b[K"
# A line that says how far it is does not wrap, however narrow the terminal; what follows does.
KEPT = b"\x1b[?7l", b"\x1b[?7h"
os.environ["TERM"] = "xterm"


def run(*words, out=subprocess.PIPE, terminal=True):
    """The status, what stands on standard output, where it is a pipe, and on standard error."""
    said = []
    if not terminal:
        done = subprocess.run([program, *words], stdout=out, stderr=subprocess.PIPE, timeout=600)
        return done.returncode, done.stdout, done.stderr
    ours, theirs = os.openpty()
    tty.setraw(theirs)

    def read():
        while True:
            try:
                part = os.read(ours, 4096)
            except OSError:
                return
            if not part:
                return
            said.append(part)

    child = subprocess.Popen([program, *words], stdin=subprocess.DEVNULL, stdout=out, stderr=theirs)
    os.close(theirs)
    reader = threading.Thread(target=read)
    reader.start()
    written = child.communicate(timeout=600)[0]
    reader.join()
    os.close(ours)
    return child.returncode, written, b"".join(said)


def want(found, wanted):
    assert found == wanted, f"{found!r}, not {wanted!r}"


def in_line(line):
    return KEPT[0] + line.encode() + KEPT[1]


def shown(*lines):
    return b"".join(CLEAR + in_line(line) for line in lines) + CLEAR


def stays(*lines):
    return "".join(line + "\n" for line in lines).encode()


def write_lines(name, first, count):
    with open(name, "w") as file:
        for n in range(first, first + count):
            file.write(f"key{n:06}={n}\n")


def bar(done, count):
    marks = 20 * done // count
    return f"checked {done} of {count} files  [{'#' * marks}{'.' * (20 - marks)}]"


def tables():
    return sorted(name for name in os.listdir("db") if name.endswith(".ldb"))


def a_load():
    os.mkdir("db")
    write_lines("words.txt", 0, 200_000)
    status, out, err = run("load", "db", "words.txt", "--text")
    want((status, out), (0, b"loaded 200000 lines in 4 batches\n"))
    want(err, shown("lines 1 to 65536 are in", "lines 1 to 131072 are in", "lines 1 to 196608 are in"))
    write_lines("more.txt", 200_000, 70_000)


def a_load_that_is_refused():
    with open("bad.txt", "w") as file:
        file.write("fig=1\n" * 70_000 + "fig\n")
    status, out, err = run("load", "db", "bad.txt", "--text")
    want((status, out), (1, b""))
    first, second, third, last = err.split(CLEAR)[1:]
    want((first, second), (in_line("lines 1 to 65536 are in"), b"bad line 70001\n"))
    want(last, in_line("lines 1 to 70000 are in") + b"\n")
    assert third.startswith(b"line 70001, column 4: "), third


def a_compaction():
    status, out, err = run("compact", "db", "--workers", "1")
    assert status == 0 and out.startswith(b"installed "), (status, out)
    lines = err.split(CLEAR)
    want((lines[0], lines[-1]), (b"", b""))
    assert lines[1].startswith(KEPT[0] + b"opened ") and b"\n" not in err, err
    assert lines[-2].startswith(KEPT[0] + b"removed "), err


def a_check():
    count = len(tables())
    status, out, err = run("check", "db", "--workers", "1")
    want((status, out.splitlines()[-1]), (0, b"rest 0"))
    want(err, shown(*(bar(done, count) for done in range(1, count + 1))))


def a_check_that_is_refused():
    name = max(tables(), key=lambda name: os.path.getsize(f"db/{name}"))
    with open(f"db/{name}", "r+b") as file:
        file.seek(100)
        was = file.read(1)
        file.seek(100)
        file.write(bytes([was[0] ^ 1]))
    status, out, err = run("check", "db", "--workers", "1")
    want((status, out), (1, b""))
    line, meaning = err.split(CLEAR)[-2:]
    assert line.startswith(b"refused 15 BadChecksum ") and line.endswith(f"in {name}\n".encode()), err
    assert meaning.startswith(b"the block is damaged: "), err
    with open(f"db/{name}", "r+b") as file:
        file.seek(100)
        file.write(was)


def scans():
    keys = 200_001
    with open("out.txt", "wb") as file:
        status, _out, err = run("scan", "db", "--text", out=file)
    want((status, err), (0, shown("scanned 100000 keys", "scanned 200000 keys")))
    with open("out.txt", "rb") as file:
        want(sum(1 for _line in file), keys)
    want(run("scan", "db", "--count"), (0, f"{keys}\n".encode(), b""))
    with open("/dev/null", "wb") as file:
        want(run("scan", "db", out=file), (0, None, b""))


def lines_that_are_asked_for():
    status, _out, err = run("scan", "db", "--count", "--progress")
    want((status, err), (0, stays("scanned 100000 keys", "scanned 200000 keys")))
    count = len(tables())
    status, _out, err = run("check", "db", "--progress", "--workers", "1")
    want((status, err), (0, stays(*(f"checked {n} of {count} files" for n in range(1, count + 1)))))


def a_dumb_terminal():
    os.environ["TERM"] = "dumb"
    status, _out, err = run("check", "db")
    want((status, err), (0, b""))
    os.environ["TERM"] = "xterm"


def no_terminal():
    for words in (("check", "db"), ("compact", "db"), ("load", "db", "more.txt", "--text")):
        status, _out, err = run(*words, terminal=False)
        want((status, err), (0, b""))
    with open("out.txt", "wb") as file:
        want(run("scan", "db", out=file, terminal=False), (0, None, b""))


def other_commands_and_words():
    want(run("get", "db", "key000007", "--text"), (0, b"value 7\n", b""))
    status, out, err = run("check", "--help")
    assert status == 0 and b"--workers" in out and err == b"", (status, out, err)
    status, _out, err = run("check")
    assert status == 2 and b"<DIR>" in err and b"--progress" not in err.split(b"Usage")[0], (status, err)
    status, _out, err = run("check", "--", "--progress")
    assert status == 1 and err.startswith(b"refused 9 Device"), (status, err)


for part in (
    a_load,
    a_load_that_is_refused,
    a_compaction,
    a_check,
    a_check_that_is_refused,
    scans,
    lines_that_are_asked_for,
    a_dumb_terminal,
    no_terminal,
    other_commands_and_words,
):
    part()
    print(part.__name__.replace("_", " ") + ": as wanted")
