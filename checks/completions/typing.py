"""Lines of `lsm` that are completed. Usage: typing.py COMPLETIONS [SHELL..], in the folder of run.sh"""
import os
import pty
import select
import shutil
import subprocess
import sys
import time

# What is typed before a Tab in bash and zsh, and the line then. A line that stays as it was has no
# completion, or several.
LINES = (
    ("lsm che", "lsm check "),
    ("lsm mani", "lsm manifest "),
    ("lsm help in", "lsm help ingest "),
    ("lsm help che", "lsm help check "),
    ("lsm -", "lsm --"),
    ("lsm --ver", "lsm --version "),
    ("lsm check --pro", "lsm check --progress "),
    ("lsm check d", "lsm check db/"),
    ("lsm check my", "lsm check my\\ folder/"),
    ("lsm dump du", "lsm dump dump\\ of\\ it "),
    ("lsm load db lin", "lsm load db lines.txt "),
    ("lsm scan --from=61 d", "lsm scan --from=61 db/"),
    ("lsm scan --from 61 d", "lsm scan --from 61 db/"),
    ("lsm scan db --from d", "lsm scan db --from d"),
    ("lsm get db d", "lsm get db d"),
    ("lsm put db 61 d", "lsm put db 61 d"),
)

# What fish offers at the end of a line.
OFFERS = (
    ("lsm che", ["check"]),
    ("lsm -", ["--help", "--version"]),
    ("lsm compact --w", ["--workers"]),
    ("lsm check --h", ["--help"]),
    ("lsm check d", ["db/"]),
    ("lsm get db ", []),
    ("lsm put db 61 ", []),
    ("lsm delete db ", []),
    ("lsm scan --from=61 d", ["db/"]),
    ("lsm scan --from 61 d", ["db/"]),
    ("lsm scan db --from d", []),
    ("lsm load db lin", ["lines.txt"]),
    ("lsm dump du", ["dump of it"]),
    ("lsm get check --r", ["--raw"]),
    ("lsm help in", ["ingest"]),
)

SHELLS = {
    "bash": (
        ["bash", "--norc", "--noprofile", "-i"],
        "source {folder}/lsm.bash; "
        "show() {{ printf '%s' \"$READLINE_LINE\" > ../new; mv ../new ../line; }}; "
        "bind -x '\"\\C-xp\": show'",
    ),
    "zsh": (
        ["zsh", "-f", "-i"],
        "fpath=({folder} $fpath); autoload -U compinit; compinit -u -D; setopt nobeep; "
        "show() {{ print -rn -- $BUFFER > ../new; mv ../new ../line }}; zle -N show; bindkey '^Xp' show",
    ),
}


class Terminal:
    """A shell that is typed to."""

    def __init__(self, words, setup):
        self.child, self.end = pty.fork()
        if self.child == 0:
            os.environ.update(TERM="dumb", PS1="$ ")
            os.execvp(words[0], words)
        self.type(setup + "; touch ../ready\r")
        self.wait("../ready")

    def type(self, text):
        os.write(self.end, text.encode())

    def wait(self, path):
        """Until this file is there; what the shell writes meanwhile is let go."""
        until = time.monotonic() + 60
        while not os.path.exists(path):
            assert time.monotonic() < until, "the shell does not answer"
            if select.select([self.end], [], [], 0.05)[0]:
                os.read(self.end, 65536)

    def line_after(self, typed):
        """The line, once this and a Tab are typed."""
        if os.path.exists("../line"):
            os.remove("../line")
        self.type(typed + "\t\x18p")
        self.wait("../line")
        with open("../line") as file:
            line = file.read()
        self.type("\x15")
        return line

    def close(self):
        self.type("\x15exit\r")
        os.close(self.end)
        os.waitpid(self.child, 0)


def offered_by_fish(folder, line):
    script = f"source {folder}/lsm.fish; complete -C '{line}'"
    done = subprocess.run(["fish", "--no-config", "-c", script], capture_output=True, text=True)
    assert done.stderr == "", done.stderr
    return sorted(row.split("\t")[0] for row in done.stdout.splitlines())


def typed_in(shell, folder):
    """Of each line in bash or zsh: the line, what it is then, and what is wanted."""
    words, setup = SHELLS[shell]
    terminal = Terminal(words, setup.format(folder=folder))
    for typed, wanted in LINES:
        yield typed, terminal.line_after(typed), wanted
    terminal.close()
    os.remove("../ready")


def offered_in_fish(folder):
    for line, wanted in OFFERS:
        yield line, offered_by_fish(folder, line), wanted


def main():
    folder = os.path.realpath(sys.argv[1])
    passed = failed = 0
    for shell in sys.argv[2:] or ("bash", "zsh", "fish"):
        if shutil.which(shell) is None:
            print(f"not tried: {shell} is not installed")
            continue
        found = typed_in(shell, folder) if shell in SHELLS else offered_in_fish(folder)
        for line, is_so, wanted in found:
            if is_so == wanted:
                passed += 1
            else:
                failed += 1
                print(f"FAILED: {shell}: `{line}` and Tab give {is_so!r}, not {wanted!r}")
    print(f"{passed} passed, {failed} failed")
    sys.exit(failed > 0)


if __name__ == "__main__":
    main()
