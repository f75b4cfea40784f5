"""What `strace` saw a program do to the files of one folder, and what a disk may have of it after a power cut.

The disk is the one of docs/DISKS.md: a sync of a file makes its bytes durable, a sync of the folder its names. After a power cut each name,
for itself, has any file that it had since the last sync of the folder, or none if it had none; of a file the durable bytes are there, and
any beginning of those behind. A call that was under way has acted or not, a write with any beginning of its bytes.
"""
import copy
import os
import re

# The calls that change files and that a replay understands; those that it does not, which must not touch the folder.
KNOWN = ["openat", "close", "write", "fsync", "fdatasync", "rename", "unlink"]
OTHER = ["open", "creat", "writev", "pwrite64", "pwritev", "pwritev2", "truncate", "ftruncate", "fallocate", "renameat", "renameat2"]
OTHER += ["unlinkat", "link", "linkat", "symlink", "symlinkat", "copy_file_range", "sendfile", "splice", "dup", "dup2", "dup3", "rmdir"]
TRACED = ",".join(KNOWN + OTHER)

# A path through the descriptor of an open folder.
THROUGH = re.compile(rb"/proc/self/fd/(\d+)(/.*)?", re.DOTALL)

# Which syncs a disk forgets: of a file by its name and how many of its bytes are durable, of the folder (None).
FORGOTTEN = {
    "none": lambda name, kept: False,
    "all": lambda name, kept: True,
    "tables": lambda name, kept: name is not None and name.endswith(".ldb"),
    "manifests": lambda name, kept: name is not None and name.startswith("MANIFEST-") and kept == 0,
    "records": lambda name, kept: name is not None and name.startswith("MANIFEST-") and kept > 0,
    "temporaries": lambda name, kept: name is not None and name.endswith(".dbtmp"),
    "folder": lambda name, kept: name is None,
}


class Call:
    """A call of the folder: `make NAME`, `write FILE`, `sync FILE`, `sync_folder`, `rename FROM TO`, `unlink NAME`, or `reply`."""

    def __init__(self, kind, *words):
        self.kind, self.words = kind, words


# ---- the trace

LINE = re.compile(r"(?:(\d+) +)?(.*)")
RESUMED = re.compile(r"<\.\.\. (\w+) resumed>(.*)")
CALL = re.compile(r"(\w+)\((.*)\) += (-?\d+|\?)(?: .*)?")


def text(word):
    """The bytes of a string as `strace -xx` prints it."""
    if not word.startswith('"') or not word.endswith('"'):
        raise ValueError(f"strace cut a text short: {word[:80]}")
    return bytes.fromhex(word[1:-1].replace("\\x", ""))


def lines(log):
    """Each call with its place in the trace: (`begin` or `end`, its number); and the calls by number, with their words and answers."""
    steps, calls, open_calls = [], [], {}
    with open(log) as trace:
        for line in trace:
            process, rest = LINE.fullmatch(line.rstrip("\n")).groups()
            if rest.startswith(("+++", "---")):
                continue
            resumed = RESUMED.fullmatch(rest)
            if resumed:
                number = open_calls.pop(process)
                calls[number] += resumed[2]
                steps.append(("end", number))
                continue
            number = len(calls)
            steps.append(("begin", number))
            if rest.endswith(" <unfinished ...>"):
                calls.append(rest[: -len(" <unfinished ...>")])
                open_calls[process] = number
            else:
                calls.append(rest)
                steps.append(("end", number))
    # what a process that was ended had under way stays under way
    return steps, calls


def understand(log, folder):
    """The steps of the trace that touch the folder, and each of its calls, or None where it was refused."""
    steps, said = lines(log)
    calls, files = [None] * len(said), {}
    folder = os.fsencode(os.path.abspath(folder))

    def path_of(word):
        """The program finds its files through the descriptor of the folder that it opened."""
        path = os.path.abspath(text(word))
        through = THROUGH.fullmatch(path)
        return folder + (through[2] or b"") if through and files.get(os.fsdecode(through[1])) == "" else path

    def name_of(word):
        path = path_of(word)
        return os.fsdecode(os.path.basename(path)) if os.path.dirname(path) == folder else None

    for kind, number in steps:
        match = CALL.fullmatch(said[number])
        if not match:
            raise ValueError(f"a line of strace is not understood: {said[number][:200]}")
        name, words, answer = match[1], match[2].split(", "), match[3]
        if name == "close" and kind == "begin":
            # its number may be another file's before it is done
            files.pop(words[0], None)
        if name == "close" or kind == "begin" or answer.startswith("-") or answer == "?":
            continue
        if name == "openat":
            path, flags = path_of(words[1]), words[2].split("|")
            inner = name_of(words[1])
            files[answer] = "" if path == folder else inner
            if inner is not None and "O_CREAT" in flags:
                calls[number] = Call("make", inner, "O_TRUNC" in flags)
            if inner is not None and "O_TRUNC" in flags and "O_CREAT" not in flags:
                raise ValueError(f"a file of the folder is emptied: {said[number][:200]}")
        elif name == "write" and words[0] == "1":
            calls[number] = Call("reply")
        elif name == "write" and files.get(words[0]) is not None:
            data = text(", ".join(words[1:-1]))
            calls[number] = Call("write", files[words[0]], data[: int(answer)])
        elif name in ("fsync", "fdatasync") and files.get(words[0]) is not None:
            inner = files[words[0]]
            calls[number] = Call("sync", inner) if inner else Call("sync_folder")
        elif name == "rename":
            calls[number] = Call("rename", name_of(words[0]), name_of(words[1]))
        elif name == "unlink":
            calls[number] = Call("unlink", name_of(words[0]))
        elif name in OTHER:
            touched = [it for it in words if it.startswith('"') and name_of(it) is not None]
            if touched or files.get(words[0]) is not None:
                raise ValueError(f"a call on a file of the folder is not understood: {said[number][:200]}")
    return steps, calls


# ---- the disk


class Disk:
    """Files as [bytes, how many of them are durable]; of each name the files that it had since the last sync of the folder, or None."""

    def __init__(self, found, forget):
        self.files = [[data, len(data)] for data in found.values()]
        self.past = {name: [i] for i, name in enumerate(found)}
        # of each name, how many older files a sync of the folder has dropped
        self.dropped = {}
        self.forget = forget

    def copy(self):
        return copy.deepcopy(self)

    def now(self, name):
        return self.past.get(name, [None])[-1]

    def shown(self):
        """The bytes of each name now."""
        return {name: self.files[files[-1]][0] for name, files in self.past.items() if files[-1] is not None}

    def give(self, name, file):
        self.past.setdefault(name, [None]).append(file)

    def begins(self, call):
        """What a sync is sure to make durable: what is there when it begins."""
        if call.kind == "sync":
            file = self.now(call.words[0])
            return file, len(self.files[file][0])
        if call.kind == "sync_folder":
            return {name: self.dropped.get(name, 0) + len(files) - 1 for name, files in self.past.items()}
        return None

    def acts(self, call, begun, most=None):
        """The call is made; of a write so many bytes are written at most."""
        if call.kind == "make":
            name, empties = call.words
            if self.now(name) is None or empties:
                self.files.append([b"", 0])
                self.give(name, len(self.files) - 1)
        elif call.kind == "write":
            name, data = call.words
            self.files[self.now(name)][0] += data[:most]
        elif call.kind == "rename":
            before, after = call.words
            file = self.now(before)
            self.give(after, file)
            self.give(before, None)
        elif call.kind == "unlink":
            self.give(call.words[0], None)
        elif call.kind == "sync":
            file, length = begun
            if not FORGOTTEN[self.forget](call.words[0], self.files[file][1]):
                self.files[file][1] = max(self.files[file][1], length)
        elif call.kind == "sync_folder" and not FORGOTTEN[self.forget](None, 0):
            for name, first in begun.items():
                older = max(0, first - self.dropped.get(name, 0))
                self.past[name] = self.past[name][older:]
                self.dropped[name] = self.dropped.get(name, 0) + older

    def found(self, rng, garbage=False):
        """What a power cut leaves, drawn: the bytes of each name; and of each that has other bytes than were written the place of the first.
        With garbage there may be such behind the durable ones."""
        names, data = rng.choice(["first", "last", "any", "any"]), rng.choice(["first", "last", "any", "any"])

        def pick(how, low, high):
            return low if how == "first" else high if how == "last" else rng.randint(low, high)

        found, other = {}, {}
        for name, files in self.past.items():
            file = files[pick(names, 0, len(files) - 1)]
            if file is not None:
                whole, kept = self.files[file]
                left = whole[: pick(data, kept, len(whole))]
                found[name] = whole[:kept] + spoilt(rng, left[kept:]) if garbage else left
                if found[name] != left:
                    other[name] = next(at for at in range(kept, len(left)) if found[name][at] != left[at])
        return found, other


def spoilt(rng, data):
    """As many bytes: those that were written, zeros, or any; from some place on, or up to one."""
    kind, at = rng.randrange(5), rng.randint(0, len(data))
    other = bytes(len(data)) if rng.random() < 0.5 else rng.randbytes(len(data))
    return [data, other, other, data[:at] + other[at:], other[:at] + data[at:]][kind]


def named(found):
    """The manifest that CURRENT names, or None."""
    return found["CURRENT"].decode(errors="replace").rstrip("\n") if "CURRENT" in found else None


def cuts(steps, calls, manifest):
    """What a power cut behind so many steps cuts: `install` from where a record begins to be appended to the manifest that CURRENT names to
    the end of its sync; `roll-over` from where another manifest begins to be made to the end of the sync of the folder behind the rename to
    CURRENT; `None` elsewhere, and where CURRENT named none before."""
    under, ends, coming, cut = None, set(), None, [None]
    for kind, number in steps:
        call = calls[number]
        if kind == "begin":
            if under is None and call.kind == "write" and call.words[0] == manifest:
                under = "install"
            elif under is None and call.kind == "make" and call.words[0].startswith("MANIFEST-"):
                under, coming = "roll-over" if manifest else "beginning", call.words[0]
            elif under == "install" and call.kind == "sync" and call.words[0] == manifest:
                ends = {number}
            elif under is not None and call.kind == "sync_folder" and manifest == coming:
                ends.add(number)
        elif call.kind == "rename" and call.words[1] == "CURRENT":
            manifest = coming
        elif number in ends:
            under, ends, coming = None, set(), None
        cut.append(under if under != "beginning" else None)
    return cut


class Run:
    """A run of a program, step by step."""

    def __init__(self, log, folder, found, forget):
        self.steps, self.calls = understand(log, folder)
        # a cut between steps that do nothing to the folder is like the one before
        self.steps = [(kind, number) for kind, number in self.steps if self.calls[number] is not None]
        self.disk, self.begun, self.at, self.replied = Disk(found, forget), {}, 0, False
        self.cuts = cuts(self.steps, self.calls, named(found))

    def go(self, at):
        """Makes the steps up to this place."""
        for kind, number in self.steps[self.at : at]:
            call = self.calls[number]
            if kind == "begin":
                self.begun[number] = self.disk.begins(call)
                self.replied |= call.kind == "reply"
            else:
                self.disk.acts(call, self.begun.pop(number))
        self.at = max(self.at, at)

    def cut(self, rng, garbage=False):
        """What a power cut here leaves, as `Disk.found`: each call that is under way has acted or not, or in part."""
        disk = self.disk.copy()
        for number, begun in self.begun.items():
            call = self.calls[number]
            if rng.random() < 0.7:
                length = len(call.words[1]) if call.kind == "write" else 0
                disk.acts(call, begun, rng.randint(0, length) if rng.random() < 0.5 else length)
        return disk.found(rng, garbage)
