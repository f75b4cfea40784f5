#!/usr/bin/env python3
"""Makes the manual page and the shells' completions of `lsm` from its help: manual.py PROGRAM FOLDER.

What is written: FOLDER/man/lsm.1, FOLDER/completions/lsm.bash, _lsm (zsh) and lsm.fish. All that
they say is read from `PROGRAM help` and `PROGRAM help COMMAND`, which the grammar of the program
makes. `checks/manual/run.sh` compares the files of this repository with what is made anew.
"""
import os
import re
import subprocess
import sys
from dataclasses import dataclass

FOLDERS = ["DIR", "SRC", "DST"]


@dataclass
class Argument:
    """A word that stands at a place, as DIR."""

    name: str
    help: str


@dataclass
class Option:
    """An option, and the name of the value behind it, if it has one."""

    name: str
    value: str | None
    help: str


@dataclass
class Command:
    name: str
    about: str
    usage: str
    text: str
    arguments: list[Argument]
    options: list[Option]
    examples: str


def lines_of(program: str, *words: str) -> list[str]:
    done = subprocess.run([program, *words], capture_output=True, text=True, check=True)
    return done.stdout.splitlines()


def section(lines: list[str], title: str) -> list[str]:
    """The lines of the section of this title, up to the first line that is not indented."""
    if title not in lines:
        return []
    found = []
    for line in lines[lines.index(title) + 1 :]:
        if line and not line.startswith(" "):
            break
        found.append(line)
    return found


def entries(lines: list[str]) -> list[tuple[str, str]]:
    """What stands at the left of a section of help, each with the text that is indented more."""
    found: list[tuple[str, str]] = []
    for line in lines:
        if not line.strip():
            continue
        if not line.startswith(" " * 10):
            found.append((line.strip(), ""))
        else:
            head, text = found[-1]
            found[-1] = (head, (text + " " + line.strip()).strip())
    return found


def command_of(program: str, name: str, about: str) -> Command:
    lines = lines_of(program, "help", name)
    at = next(i for i, line in enumerate(lines) if line.startswith("Usage: "))
    options = []
    for head, text in entries(section(lines, "Options:")):
        found = re.search(r"--([a-z-]+)(?: <([A-Z]+)>)?$", head)
        if found and found[1] != "help":
            options.append(Option(found[1], found[2], text))
    return Command(
        name=name,
        about=about,
        usage=lines[at].removeprefix("Usage: "),
        text="\n".join(lines[:at]).strip(),
        arguments=[
            Argument(head.strip("<>[]"), text)
            for head, text in entries(section(lines, "Arguments:"))
        ],
        options=options,
        examples="\n".join(
            line for line in lines if line.startswith("Example") or line.startswith(" " * 10 + "lsm ")
        ),
    )


def read_help(program: str) -> tuple[list[str], list[Command]]:
    overview = lines_of(program, "help")
    commands = []
    for line in section(overview, "Commands:"):
        if line.strip():
            name, about = line.split(None, 1)
            commands.append(command_of(program, name, about))
    return overview, commands


# ---- the manual page


def roff(text: str) -> str:
    """One line of text as roff reads it; what stands between backquotes is bold."""
    line = text.replace("\\", "\\e").replace("-", "\\-")
    line = re.sub(r"`([^`]+)`", r"\\fB\1\\fR", line)
    return "\\&" + line if line.startswith((".", "'")) else line


def paragraphs(text: str) -> list[str]:
    """Paragraphs; lines that are indented stay as they are."""
    made: list[str] = []
    for block in re.split(r"\n\s*\n", text.strip("\n")):
        lines = block.splitlines()
        made.append(".PP")
        plain = [line for line in lines if not line.startswith("  ")]
        made += [roff(line) for line in plain]
        if len(plain) < len(lines):
            made += [".nf"] + [roff(line) for line in lines if line.startswith("  ")] + [".fi"]
    return made


def manual(program: str, overview: list[str], commands: list[Command]) -> str:
    version = lines_of(program, "--version")[0].removeprefix("lsm ")
    behind = "\n".join(overview).split("Print version\n", 1)[1]
    text, rest = behind.split("Exit status:\n", 1)
    status, example = rest.split("\n\n", 1)
    made = [
        '.\\" Made by tools/manual.py from the help of the program.',
        f'.TH LSM 1 "" "lsm {roff(version)}" "User Commands"',
        ".SH NAME",
        f"lsm \\- {roff(overview[0][0].lower() + overview[0][1:])}",
        ".SH SYNOPSIS",
        ".nf",
        *[roff(command.usage) for command in commands],
        ".fi",
        ".SH DESCRIPTION",
        *paragraphs(text)[1:],
        ".SH COMMANDS",
    ]
    for command in commands:
        made += [f".SS {roff(command.usage)}", f"{roff(command.about)}.", *paragraphs(command.text)]
        for option in command.options:
            value = f" \\fI{option.value}\\fR" if option.value else ""
            made += [".TP", f"\\fB\\-\\-{roff(option.name)}\\fR{value}", roff(option.help)]
        if command.examples:
            made += [".PP", ".nf", *[roff(line) for line in command.examples.splitlines()], ".fi"]
    made += [".SH EXIT STATUS", ".nf", *[roff(line) for line in status.splitlines()], ".fi"]
    made += [".SH EXAMPLES", ".nf", roff(example.replace("Example: ", "").strip()), ".fi"]
    return "\n".join(made) + "\n"


# ---- completions


def bash(commands: list[Command]) -> str:
    cases = []
    for command in commands:
        flags = " ".join(f"--{option.name}" for option in command.options)
        places = " ".join(argument.name for argument in command.arguments)
        options = f"{flags} --help".strip()
        cases.append(f"    {command.name}) options='{options}' places='{places}' ;;")
    valued = sorted({f"--{o.name}" for c in commands for o in c.options if o.value})
    names = " ".join(command.name for command in commands)
    return f"""# Completion of lsm for bash. Made by tools/manual.py from the help of the program.
_lsm() {{
  local current=${{COMP_WORDS[COMP_CWORD]}} command= options= places= place=0 index word kind
  COMPREPLY=()
  if ((COMP_CWORD == 1)); then
    COMPREPLY=($(compgen -W '{names} --help --version' -- "$current"))
    return
  fi
  command=${{COMP_WORDS[1]}}
  case $command in
{chr(10).join(cases)}
    *) return ;;
  esac
  for ((index = 2; index < COMP_CWORD; index++)); do
    word=${{COMP_WORDS[index]}}
    case $word in
      {"|".join(valued)})
        # Bash takes `=` for a word of its own.
        ((index++))
        [[ ${{COMP_WORDS[index]-}} != = ]] || ((index++))
        ;;
      --*) ;;
      *) ((place++)) ;;
    esac
  done
  # The word behind an option that wants a value is not completed.
  ((index == COMP_CWORD)) || return
  if [[ $current == -* ]]; then
    COMPREPLY=($(compgen -W "$options" -- "$current"))
    return
  fi
  # Paths alone are file names: blanks in them are quoted, and a slash stands behind a folder. So a
  # command stays one where a folder has its name.
  kind=$(set -- $places; shift "$place" 2> /dev/null && echo "${{1-}}")
  case $kind in
    DIR | SRC | DST) compopt -o filenames 2> /dev/null; mapfile -t COMPREPLY < <(compgen -d -- "$current") ;;
    FILE) compopt -o filenames 2> /dev/null; mapfile -t COMPREPLY < <(compgen -f -- "$current") ;;
    COMMAND) COMPREPLY=($(compgen -W '{names}' -- "$current")) ;;
    *) COMPREPLY=($(compgen -W "$options" -- "$current")) ;;
  esac
}}
complete -F _lsm lsm
"""


def quoted(text: str) -> str:
    """A text in single quotes of a shell."""
    return "'" + text.replace("'", "'\\''") + "'"


def spoken(text: str) -> str:
    """A text for zsh's _arguments, in which brackets and colons part fields."""
    return re.sub(r"([\[\]:\\])", r"\\\1", text)


def zsh(commands: list[Command]) -> str:
    kinds = {**dict.fromkeys(FOLDERS, "_files -/"), "FILE": "_files", "COMMAND": "_lsm_commands"}
    names = "\n".join(f"    {quoted(f'{spoken(c.name)}:{spoken(c.about)}')}" for c in commands)
    cases = []
    for command in commands:
        rows = []
        for option in command.options:
            value = f":{option.value}: " if option.value else ""
            # Behind `=` the value may be in the same word.
            joined = "=" if option.value else ""
            rows.append(quoted(f"--{option.name}{joined}[{spoken(option.help)}]{value}"))
        rows.append(quoted("--help[Print help]"))
        for index, argument in enumerate(command.arguments, 1):
            rows.append(quoted(f"{index}:{argument.name}:{kinds.get(argument.name, ' ')}"))
        body = " \\\n        ".join(rows)
        cases.append(f"    {command.name})\n      _arguments \\\n        {body}\n      ;;")
    return f"""#compdef lsm
# Completion of lsm for zsh. Made by tools/manual.py from the help of the program.
_lsm_commands() {{
  local -a commands=(
{names}
  )
  _describe command commands
}}

_lsm() {{
  if ((CURRENT == 2)); then
    _arguments '--help[Print help]' '--version[Print version]' '1:COMMAND:_lsm_commands'
    return
  fi
  local command=$words[2]
  shift words
  ((CURRENT--))
  case $command in
{chr(10).join(cases)}
  esac
}}

_lsm "$@"
"""


FISH = """# Completion of lsm for fish. Made by tools/manual.py from the help of the program.

# Whether the command of the line is this one; none: it has none yet.
function __lsm_is -a command
    set -l words (commandline -opc)
    test "$words[2]" = "$command"
end

# Whether that command's place of this number, from 1, is being written: no option and no value.
function __lsm_at -a command place
    __lsm_is $command; or return
    set -l words (commandline -opc)
    set -e words[1..2]
    set -l at 1
    set -l wants_value
    for word in $words
        if test -n "$wants_value"
            set wants_value
            continue
        end
        switch $word
            case VALUED
                set wants_value yes
            case '--*'
            case '*'
                set at (math $at + 1)
        end
    end
    test -z "$wants_value" -a $at -eq $place
end

complete -c lsm -f
complete -c lsm -n '__lsm_is' -l help -d 'Print help'
complete -c lsm -n '__lsm_is' -l version -d 'Print version'
"""


def fish(commands: list[Command]) -> str:
    valued = sorted({f"--{o.name}" for c in commands for o in c.options if o.value})
    made = [FISH.rstrip().replace("VALUED", " ".join(valued))]
    names = " ".join(command.name for command in commands)
    folders = dict.fromkeys(FOLDERS, "-a '(__fish_complete_directories)'")
    kinds = {"FILE": "-F", **folders, "COMMAND": f"-a '{names}'"}
    for command in commands:
        about = fish_quoted(command.about)
        made.append(f"complete -c lsm -n '__lsm_is' -a {command.name} -d {about}")
        for place, argument in enumerate(command.arguments, 1):
            if argument.name in kinds:
                offered = kinds[argument.name]
                made.append(f"complete -c lsm -n '__lsm_at {command.name} {place}' {offered}")
        options = [*command.options, Option("help", None, "Print help")]
        for option in options:
            value = " -x" if option.value else ""
            text = fish_quoted(option.help)
            made.append(f"complete -c lsm -n '__lsm_is {command.name}' -l {option.name}{value} -d {text}")
    return "\n".join(made) + "\n"


def fish_quoted(text: str) -> str:
    """A text in single quotes of fish, which reads a backslash there."""
    return "'" + text.replace("\\", "\\\\").replace("'", "\\'") + "'"


def main() -> None:
    program, folder = sys.argv[1:]
    overview, commands = read_help(program)
    texts = {
        "man/lsm.1": manual(program, overview, commands),
        "completions/lsm.bash": bash(commands),
        "completions/_lsm": zsh(commands),
        "completions/lsm.fish": fish(commands),
    }
    for name, text in texts.items():
        path = os.path.join(folder, name)
        os.makedirs(os.path.dirname(path), exist_ok=True)
        with open(path, "w", encoding="utf-8") as file:
            file.write(text)


if __name__ == "__main__":
    main()
