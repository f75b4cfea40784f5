"""Makes each refusal of refusals.txt. Usage: refuse.py PROGRAM TABLE FORMATS [ROW..], in an empty folder"""
import fcntl
import itertools
import os
import re
import resource
import shutil
import signal
import subprocess
import sys

import files

program = sys.argv[1]
TEXT = "--text"


def start(words, out=subprocess.PIPE, limits=(), command=program):
    """A run, with limits of the system."""

    def limit():
        for kind, most, is_ignored in limits:
            resource.setrlimit(kind, (most, most))
            if is_ignored:
                signal.signal(signal.SIGXFSZ, signal.SIG_IGN)

    return subprocess.Popen(
        [command, *words], stdin=subprocess.PIPE, stdout=out, stderr=subprocess.PIPE, preexec_fn=limit
    )


def run(words, said=b"", out=subprocess.PIPE, limits=(), command=program):
    """The status, standard output and standard error of a run."""
    child = start(words, out, limits, command)
    written, err = child.communicate(said, timeout=120)
    return child.returncode, (written or b"").decode(errors="replace"), err.decode(errors="replace")


class Making:
    """What a row makes before its command runs: steps by their names, in the folder `db`."""

    def __init__(self):
        self.said = []
        self.limits = []
        self.out = subprocess.PIPE
        self.command = program
        self.held = []
        self.names = {}

    def do(self, name, *words):
        """A step, and what the words TABLE and MANIFEST stand for behind it."""
        getattr(self, name)(*(self.named(word) for word in words))
        tables = sorted(it for it in os.listdir("db") if it.endswith(".ldb"))
        if tables:
            self.names["TABLE"] = tables[0]
        if os.path.isfile("db/CURRENT") and "MANIFEST" not in self.names:
            with open("db/CURRENT") as file:
                self.names["MANIFEST"] = file.read().strip()

    def named(self, text):
        """A text with the names of the first table and of the manifest in place of these words."""
        return re.sub(r"\b(TABLE|MANIFEST)\b(?!-)", lambda word: self.names.get(word[0], word[0]), text)

    def path(self, name):
        return os.path.join("db", name)

    def need(self, *words):
        status, _out, err = run(words)
        assert status == 0, (words, err)

    def puts(self, count, size=1):
        """So many tables at level 0, each of the key `k` and a value of so many bytes."""
        for _ in range(int(count)):
            self.need("put", "db", "k", "v" * int(size), TEXT)

    def fill(self):
        """Puts until level 0 is full."""
        while run(["put", "db", "k", "v", TEXT])[0] == 0:
            pass

    def take(self, first, last):
        """Files with the names of the tables of these numbers."""
        for number in range(int(first), int(last) + 1):
            self.write(f"{number:06}.ldb")

    def write(self, name, text=""):
        with open(name if name.startswith("./") else self.path(name), "wb") as file:
            file.write(text.encode().decode("unicode_escape").encode("latin-1"))

    def lines(self, name, count, form):
        """So many lines of a form, in which N is the number of the line."""
        with open(name, "w") as file:
            for number in range(int(count)):
                file.write(form.replace("N", f"{number:08}") + "\n")

    def long(self, name, before, count, behind):
        with open(name, "w") as file:
            file.write(before + "k" * int(count) + behind + "\n")

    def remove(self, name):
        os.remove(self.path(name))

    def cut(self, name, count):
        """Cuts a file to so many bytes; or by so many, if that is below 0."""
        size = int(count) if int(count) >= 0 else os.path.getsize(self.path(name)) + int(count)
        os.truncate(self.path(name), size)

    def flip(self, name, at):
        with open(self.path(name), "r+b") as file:
            file.seek(int(at))
            byte = file.read(1)[0]
            file.seek(int(at))
            file.write(bytes([byte ^ 255]))

    def rename(self, old, new):
        os.rename(self.path(old), self.path(new))

    def copy(self, old, new):
        shutil.copy(self.path(old), self.path(new))

    def pipe(self, name):
        os.mkfifo(self.path(name))

    def folder(self, name):
        os.mkdir(self.path(name))

    def manifest(self, *fields):
        """The manifest of one edit with these fields, and the CURRENT that names it."""
        self.bytes("MANIFEST-000001", files.manifest([fields]))
        self.write("CURRENT", "MANIFEST-000001\\n")

    def bytes(self, name, data):
        with open(self.path(name), "wb") as file:
            file.write(data)

    def record(self, name, data):
        """One record more, of these bytes in hex, in a log."""
        with open(self.path(name), "ab") as file:
            file.write(files.record(bytes.fromhex(data)))

    def fragment(self, kind):
        """A manifest whose one fragment has this type, where its record begins."""
        self.bytes("MANIFEST-000001", files.manifest([["next=2"]], int(kind)))
        self.write("CURRENT", "MANIFEST-000001\\n")

    def table(self, name, *keys):
        """A table of these keys, each `USER@SEQ+`, as mktable makes it."""
        text = "".join(
            f"{user.encode().hex()} {tag[:-1]} {'put 76' if tag[-1] == '+' else 'del'}\n"
            for user, tag in (key.rsplit("@", 1) for key in keys)
        )
        with open(self.path(name), "wb") as file:
            done = subprocess.run([program, "mktable"], input=text.encode(), stdout=file, check=True)
        assert done.returncode == 0

    def block(self, name, *words):
        """A table of one block: `type=N`, `index=HEX`, `restarts=N,N`, `bytes=HEX` for the whole of
        it, else keys as above or in hex."""
        kind, index, restarts, data, entries = 0, None, [0], None, []
        for word in words:
            what, _, value = word.partition("=")
            if what == "type":
                kind = int(value)
            elif what == "index":
                index = bytes.fromhex(value)
            elif what == "restarts":
                restarts = [int(it) for it in value.split(",")]
            elif what == "bytes":
                data = bytes.fromhex(value)
            else:
                entries.append((files.internal_key(word) if "@" in word else bytes.fromhex(word), b"v"))
        data = files.block(entries, restarts) if data is None else data
        self.bytes(name, files.table(data, kind, index))

    def locked(self):
        """Holds the lock of the folder, as another program does."""
        file = open(self.path("LOCK"), "w")
        fcntl.flock(file, fcntl.LOCK_EX)
        self.held.append(file)

    def file_limit(self, most):
        """No file may have more bytes, and the signal of that is ignored."""
        self.limits.append((resource.RLIMIT_FSIZE, int(most), True))

    def manifest_limit(self):
        """No file may grow by more than 10 bytes beyond what the manifest has."""
        self.file_limit(os.path.getsize(self.path(self.names["MANIFEST"])) + 10)

    def file_limit_and_signal(self, most):
        self.limits.append((resource.RLIMIT_FSIZE, int(most), False))

    def memory(self, most):
        self.limits.append((resource.RLIMIT_AS, int(most), False))

    def by_script(self):
        """The script `lsm` runs the program, which it finds beside itself."""
        os.makedirs("by_script/tools", exist_ok=True)
        shutil.copy(os.path.join(os.path.dirname(__file__), "../../lsm"), "by_script")
        with open("by_script/tools/program", "w") as file:
            file.write(f"#!/bin/sh\necho '{os.path.abspath('program')}'\n")
        os.chmod("by_script/tools/program", 0o755)
        if not os.path.lexists("program"):
            os.symlink(program, "program")
        self.command = os.path.abspath("by_script/lsm")

    def full(self):
        """Standard output is a device that is full."""
        self.out = open("/dev/full", "wb")

    def say(self, *line):
        """A line of standard input."""
        self.said.append(" ".join(line))

    def say_pins(self, count):
        """So many pins, with a version behind each, in the lines of `script`."""
        for number in range(int(count)):
            self.say("pin")
            self.say("ingest 61=62")
            if number % 4 == 3:
                ticket = number // 4 + 1
                for line in ("reserve", f"merge {ticket}", f"install {ticket}"):
                    self.say(line)

    def then(self, *step):
        """A step that is done once the lines before it are answered."""
        self.said.append(step)


def talk(making, words):
    """The status, the last reply and standard error of a shell that is told lines one by one, with
    steps between them; and what files there were before the last line."""
    child = start(words, limits=making.limits)
    last, before = "", listing()
    for line in making.said:
        if isinstance(line, tuple):
            making.do(*line)
            continue
        before = listing()
        child.stdin.write(line.encode() + b"\n")
        child.stdin.flush()
        last = child.stdout.readline().decode()
    out, err = child.communicate(timeout=120)
    return child.returncode, last + out.decode(), err.decode(), before


def listing():
    """The files of `db`, each with its size, but for the lock's; of a folder there is no size."""
    if not os.path.isdir("db"):
        return {}
    return {it.name: it.stat().st_size if it.is_file() else 0 for it in os.scandir("db") if it.name != "LOCK"}


class Row:
    """A row of the table, whose columns stand between ` | `."""

    def __init__(self, text):
        columns = [column.strip() for column in re.split(r" \|(?= )", text)]
        assert len(columns) in (5, 6), f"{len(columns)} columns: {text}"
        self.name, steps, words, self.first, self.second = columns[:5]
        self.known = columns[5] if len(columns) == 6 else ""
        self.steps = [step.split() for step in steps.split(";") if step.strip()]
        self.words = words.split()

    def is_reply(self):
        """Whether the refusal is a reply on standard output, and the command goes on."""
        return self.words[0] in ("script", "shell") and not self.name.startswith("begin ")

    def faults(self):
        """What is not as the row says, once the refusal is made."""
        shutil.rmtree("db", ignore_errors=True)
        os.mkdir("db")
        making = Making()
        for step in self.steps:
            making.do(*step)
        self.first, self.second = making.named(self.first), making.named(self.second)
        before = listing()
        if self.words[0] == "shell":
            status, out, err, before = talk(making, self.words)
        else:
            said = "".join(line + "\n" for line in making.said).encode()
            status, out, err = run(self.words, said, making.out, making.limits, making.command)
        self.printed = out + err
        for file in making.held:
            file.close()
        self.status = status
        if self.is_reply():
            if self.words[0] == "shell" and not err.startswith("failed line\n"):
                yield f"the shell ends with {err!r}"
            status, out, err = status + (self.words[0] == "script"), "", out
        yield from self.compared(status, out, err.splitlines(), before)

    def compared(self, status, out, lines, before):
        if self.first == "-" or self.first.startswith("note: "):
            status, out, self.first = status + 1, "", self.first.strip("-")
            lines = lines or [""]
        else:
            lines = list(itertools.dropwhile(lambda line: line.startswith("note: "), lines))
        if self.is_reply():
            refused = [at for at, line in enumerate(lines) if re.match(r"refused|bad line", line)]
            lines = lines[refused[-1] :] if refused else []
        if status != 1:
            yield f"the status is {self.status}"
        if out:
            yield f"standard output has {out[:60]!r}"
        if not re.fullmatch(re.escape(self.first).replace(r"\#", r"\d+"), "".join(lines[:1])):
            yield f"the first line is {lines[:1]}"
        second = "\n".join(lines[1:])
        if self.second == "-":
            if second:
                yield f"there is a second line: {second}"
        elif not re.search(self.second, second):
            yield f"the lines behind it are {second!r}, and not {self.second}"
        now, then = self.kept(listing()), self.kept(before)
        if self.first.startswith("refused 9 Device: append "):
            # The manifest may name the new table all the same, so it stays.
            now = {name: size for name, size in now.items() if name in then}
        if now != then:
            yield f"the folder was {before}, and is {listing()}"

    def kept(self, found):
        """The files that a refusal leaves as they were: all, but that a run which writes may have
        begun a manifest before it is refused. One that is done, and notes something, may have written."""
        writes = self.words[0] in ("ingest", "put", "load", "recover", "repair", "compact", "clean", "shell")
        if writes and self.first.startswith("note: "):
            return {}
        is_before_all = re.match(r"refused (10|46|51|52|53|61|62|63) ", self.first + " ")
        if self.words[0] in ("ingest", "put", "load", "compact", "shell") and not is_before_all:
            return {name: size for name, size in found.items() if not re.match("MANIFEST-|CURRENT", name)}
        return found


def table_of(path):
    """By its number, of each refusal in the table of FORMATS: its name, how many fields it has, and
    whether it is answered no more."""
    rows = {}
    with open(path) as file:
        text = file.read().split("\n## Refusals\n")[1]
    for row in re.findall(r"^\| (\d+(?:, \d+)*) \| (.*?) \| (.*) \|$", text, re.M):
        names = re.findall(r"(\w+)(?:\(([^)]*)\))?(?:, |$)", row[1])
        for number, (name, fields) in zip(row[0].split(", "), names, strict=True):
            rows[int(number)] = name, len(fields.split(", ")) if fields else 0, "answered no more" in row[2]
    return rows


def unlike(table, command, said):
    """What of the refusals in these lines is not as FORMATS has it."""
    for number, name, rest in re.findall(r"\brefused (\d+)(?: (\w+))?([^\n]*)", said):
        wanted, count, _ = table.get(int(number), (None, 0, False))
        fields = rest.partition(" in ")[0].partition(": ")[0].split()
        if name != wanted or len(fields) != count:
            yield f"`refused {number} {name}{rest}`, but FORMATS has {number} as {wanted} with {count} fields"
        if " in " in rest and command not in ("check", "scan"):
            yield f"`refused {number} {name}{rest}` by {command}, and FORMATS has the file on a second line"


def main():
    passed = failed = known = 0
    given, never = set(), set()
    table = table_of(sys.argv[3])
    with open(sys.argv[2]) as file:
        texts = [line.strip() for line in file if line.strip() and not line.startswith("#")]
    for text in texts:
        if text.startswith("never "):
            never.update(int(it) for it in re.findall(r"\d+", text.split(" | ")[0]))
            continue
        row = Row(text)
        found = re.match(r"refused (\d+) ", row.first + " ")
        if found:
            given.add(int(found.group(1)))
        if sys.argv[4:] and row.name not in sys.argv[4:]:
            continue
        faults, others = list(row.faults()), list(unlike(table, row.words[0], row.printed))
        if others:
            failed += 1
            print(f"FAILED: {row.name}: {'; '.join(others)}")
        elif row.known and faults:
            known += 1
            print(f"known: {row.name}: {row.known}")
        elif row.known:
            failed += 1
            print(f"FAILED: {row.name}: it is mended: take its mark away")
        elif faults:
            failed += 1
            print(f"FAILED: {row.name}: {'; '.join(faults)}")
        else:
            passed += 1
    for number in sorted({it for it in table if not table[it][2]} - given - never):
        failed += 1
        print(f"FAILED: no row makes refusal {number}")
    print(f"{known} known to be wrong")
    print(f"{passed} passed, {failed} failed")
    sys.exit(failed > 0)


if __name__ == "__main__":
    main()
