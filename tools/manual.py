#!/usr/bin/env python3
"""The manual page c8play.1, and the completions of bash, zsh and fish, from the help of the program.

usage: tools/manual.py [FOLDER]    writes the four files into FOLDER/share, by default out/share

The help of each command is a file of cases/, which the gate compares with what the program prints. So a new command or option
needs nothing here, unless its help has another word for a file, a folder or a choice (VALUES). tools/release packs the files, and tools/docs looks
that each command and each option is in each of them.
"""
from __future__ import annotations

import glob
import os
import re
import shutil
import subprocess
import sys
import tempfile
from typing import NamedTuple

TOP = os.path.dirname(os.path.dirname(os.path.realpath(__file__)))
CASES = f"{TOP}/cases"
PAGE, BASH = "share/man/man1/c8play.1", "share/bash-completion/completions/c8play"
ZSH, FISH = "share/zsh/site-functions/_c8play", "share/fish/vendor_completions.d/c8play.fish"
# What may stand for a word of the help: a file, a folder, one of some words; of all others a shell can know nothing.
FILE, FOLDER, FREE = "file", "folder", "free"
PLAYERS, SEATS = ("1", "2", "3", "4"), ("5", "6")
VALUES: dict[str, str | tuple[str, ...]] = {
    "GAME": FILE, "KEYS": FILE, "JOURNAL": FILE, "SCRIPT": FILE, "FILE": FILE, "FOLDER": FOLDER, "DIR": FOLDER, "PLAYER": PLAYERS, "SEAT": SEATS,
}


class Item(NamedTuple):
    """An option or an argument: how the help writes it, its long name (none of an argument), the word for its value, and its text."""

    shown: str
    name: str
    value: str
    text: str


class Help(NamedTuple):
    """The help of a command: its parts."""

    name: str
    summary: str
    usage: str
    arguments: list[Item]
    options: list[Item]
    rest: list[str]

    @classmethod
    def read(cls, name: str) -> Help:
        with open(f"{CASES}/help{name and '_'}{name}.txt", encoding="utf-8") as it:
            lines = it.read().splitlines()
        sections, last = {}, 0
        for place, line in enumerate(lines):
            if line in ("Arguments:", "Options:", "Commands:"):
                end = next((it for it in range(place, len(lines)) if not lines[it]), len(lines))
                sections[line[:-1]], last = [item(it) for it in lines[place + 1 : end]], end
        usage = next(it for it in lines if it.startswith("Usage: "))
        items = sections.get("Arguments", []), sections.get("Options", [])
        return cls(name, lines[0], usage.removeprefix("Usage: "), *items, lines[last + 1 :])


def item(line: str) -> Item:
    """An item of a list of the help: two spaces or more stand before its text."""
    shown, _, text = line.strip().partition("  ")
    named = re.search(r"--[\w-]+", shown)
    # a value that may be left out stands behind an equals sign: shells complete the option alone
    value = re.search(r"(?<!\[=)[<\[]([^>\]=]*)[>\]]", shown)
    return Item(shown, named[0] if named else "", value[1] if value else "", text.strip())


def commands() -> list[Help]:
    """All commands, in the order of the program's help."""
    with open(f"{CASES}/help.txt", encoding="utf-8") as it:
        names = re.findall(r"(?m)^  (\w+) ", it.read().partition("Commands:\n")[2].partition("\n\n")[0])
    missing = {re.search(r"help_(\w+)\.txt", it)[1] for it in glob.glob(f"{CASES}/help_*.txt")} ^ {*names} - {"help"}
    if missing:
        raise SystemExit(f"manual: cases/help.txt and the files cases/help_*.txt have different commands: {' '.join(sorted(missing))}")
    return [Help.read(it) for it in names if it != "help"]


def version() -> str:
    with open(f"{CASES}/version.case", encoding="utf-8") as it:
        return re.search(r"(?m)^c8play (\S+)$", it.read())[1]


def roff(line: str) -> str:
    """A line of text as roff has it."""
    for sign, name in ("\\", r"\e"), ("-", r"\-"), ("'", r"\(aq"), ("`", r"\(ga"), ("^", r"\(ha"), ("~", r"\(ti"):
        line = line.replace(sign, name)
    return rf"\&{line}" if line.startswith(".") else line


def paragraphs(lines: list[str]) -> list[str]:
    """Prose is filled; lines that begin with two spaces, or have columns, stay as they are."""
    out, was_kept = [], False
    for place, line in enumerate(lines):
        if not line:
            continue
        is_kept, is_first = "  " in line, not place or not lines[place - 1]
        out += [".EE"] * (was_kept and (is_first or not is_kept)) + [".PP"] * is_first + [".EX"] * (is_kept and (is_first or not was_kept))
        out.append(roff(line))
        was_kept = is_kept
    return out + [".EE"] * was_kept


def list_of(head: str, items: list[Item]) -> list[str]:
    out = [".PP", f"{head}:"] if items else []
    for it in items:
        out += [".TP", rf".B {roff(it.shown)}", roff(it.text)]
    return out


def page(found: list[Help]) -> str:
    """The manual page."""
    general = Help.read("")
    summary = general.summary[0].lower() + general.summary[1:]
    out = [r".\" Made by tools/manual.py from the help of the program.", f'.TH C8PLAY 1 "" "c8play {version()}"']
    out += [".SH NAME", rf"c8play \- {roff(summary)}", ".SH SYNOPSIS", ".EX", *[roff(it.usage) for it in found], ".EE"]
    exits = next(it for it in general.rest if it.startswith("Exit status:"))
    out += [".SH DESCRIPTION", *paragraphs([it for it in general.rest if it != exits])[1:], ".SH COMMANDS"]
    for it in found:
        out += [f".SS {it.name}", f"{roff(it.summary)}.", ".PP", ".EX", roff(it.usage), ".EE"]
        out += list_of("Arguments", it.arguments) + list_of("Options", it.options) + paragraphs(it.rest)
    out += [".SS help", "Prints the help of the program, or of the command that is given.", ".SH EXIT STATUS", f"{roff(exits.partition(': ')[2])}."]
    out += [".SH SEE ALSO", "In the folder of the release: README.md, docs/PLAYING.md for players, docs/HOSTING.md for organisers."]
    return "\n".join(out) + "\n"


def kind_of(it: Item) -> str:
    """What may stand for its value, in the words of the completions: with commas between the words of a choice."""
    kind = VALUES.get(it.value, FREE)
    if isinstance(kind, str):
        return kind
    return ",".join((*kind, "alone") if "or alone" in it.text else kind)


def is_repeated(it: Item) -> bool:
    return it.shown.endswith("...")


def bash(found: list[Help]) -> str:
    """The completion of bash: a line for each command."""
    cases = []
    for it in found:
        options = " ".join(f"{option.name}={kind_of(option)}" if option.value else option.name for option in it.options)
        words = " ".join(kind_of(value) for value in it.arguments)
        more = next((f" more={kind_of(value)}" for value in it.arguments if is_repeated(value)), "")
        cases.append(f"        {it.name}) options='{options}' words=({words}){more} ;;\n")
    return BASH_TEXT.replace("COMMANDS", " ".join(it.name for it in found)).replace("CASES\n", "".join(cases))


BASH_TEXT = """\
# Completions of c8play for bash, made by tools/manual.py from the help of the program.
_c8play() {
    local word=${COMP_WORDS[COMP_CWORD]} command=${COMP_WORDS[1]} options='' words=() more=free kind='' place=0 at
    COMPREPLY=()
    if [ "$COMP_CWORD" -eq 1 ] || { [ "$COMP_CWORD" -eq 2 ] && [ "$command" = help ]; }; then
        mapfile -t COMPREPLY < <(compgen -W 'COMMANDS help --help --version' -- "$word")
        return
    fi
    case $command in
CASES
    esac
    # what the word may be: the value of the option before it, or the next of the other words
    for ((at = 2; at <= COMP_CWORD; at++)); do
        kind=${words[place]:-$more}
        case " $options " in
            *" ${COMP_WORDS[at]}="*) kind=${options#*"${COMP_WORDS[at]}="} kind=${kind%% *} at=$((at + 1)) ;;
            *" ${COMP_WORDS[at]} "*) ;;
            # bash parts a word at these signs
            *) [[ ${COMP_WORDS[at]} == [:=] ]] && kind=free at=$((at + 1)) || place=$((place + 1)) ;;
        esac
    done
    if [[ $word == -* ]]; then
        mapfile -t COMPREPLY < <(compgen -W "$(for it in $options; do echo "${it%%=*}"; done)" -- "$word")
        return
    fi
    case $kind in
        free) ;;
        file) compopt -o filenames 2>/dev/null; mapfile -t COMPREPLY < <(compgen -f -- "$word") ;;
        folder) compopt -o filenames 2>/dev/null; mapfile -t COMPREPLY < <(compgen -d -- "$word") ;;
        *) mapfile -t COMPREPLY < <(compgen -W "${kind//,/ }" -- "$word") ;;
    esac
}

complete -F _c8play c8play
"""


def quoted(text: str, *signs: str) -> str:
    """A text between single quotes of a shell; a backslash before each of the signs."""
    for sign in ("\\", *signs):
        text = text.replace(sign, f"\\{sign}")
    return text.replace("'", r"'\''")


def zsh_action(it: Item) -> str:
    kind = kind_of(it)
    return {FILE: "_files", FOLDER: "_files -/", FREE: " "}.get(kind, f"({kind.replace(',', ' ')})")


def zsh(found: list[Help]) -> str:
    """The completion of zsh, by `_arguments`."""
    names = "\n".join(f"            '{it.name}:{quoted(it.summary, ':')}'" for it in found)
    cases = []
    for it in found:
        lines = []
        for option in it.options:
            short = re.match(r"-\w", option.shown)
            value = f":{quoted(option.value, ':')}:{zsh_action(option)}" if option.value else ""
            name = f"'({short[0]} {option.name})'{{{short[0]},{option.name}}}'" if short else f"'{option.name}"
            # an option may be given more than once only if its text says so
            name = f"'*{option.name}" if "once for each" in option.text or "more than once" in option.text else name
            lines.append(f"{name}[{quoted(option.text, '[', ']')}]{value}'")
        for number, value in enumerate(it.arguments, 1):
            lines.append(f"'{'*' if is_repeated(value) else number}:{quoted(value.text, ':')}:{zsh_action(value)}'")
        cases.append(f"        {it.name})\n            _arguments \\\n                " + " \\\n                ".join(lines) + "\n            ;;\n")
    return ZSH_TEXT.replace("NAMES", names).replace("CASES\n", "".join(cases))


ZSH_TEXT = """\
#compdef c8play
# Completions of c8play for zsh, made by tools/manual.py from the help of the program.

_c8play_commands() {
    local -a found
    found=(
NAMES
            'help:Prints a help'
    )
    _describe command found
}

_c8play() {
    local context state state_descr line
    typeset -A opt_args
    _arguments -C '(- *)'{-h,--help}'[Print help]' '(- *)'{-V,--version}'[Print version]' '1:command:_c8play_commands' '*::word:->words' && return
    [ "$state" = words ] || return
    case ${words[1]} in
        help) _arguments '1:command:_c8play_commands' ;;
CASES
    esac
}

_c8play "$@"
"""


FISH_VALUES = {FILE: " -rF", FOLDER: " -xa '(__fish_complete_directories)'"}


def fish(found: list[Help]) -> str:
    """The completion of fish: a line for each command, and for each option of it."""
    out = ["# Completions of c8play for fish, made by tools/manual.py from the help of the program.", "complete -c c8play -f"]
    first, none = [], "__fish_use_subcommand"
    for it in found:
        first.append(f"complete -c c8play -n {none} -a {it.name} -d '{quoted(it.summary)}'")
    first.append(f"complete -c c8play -n {none} -a help -d 'Print a help'")
    first += [f"complete -c c8play -n {none} -s h -l help -d 'Print help'", f"complete -c c8play -n {none} -s V -l version -d 'Print version'"]
    first.append(f"complete -c c8play -n '__fish_seen_subcommand_from help' -a '{' '.join(it.name for it in found)}'")
    for it in found:
        when = f"complete -c c8play -n '__fish_seen_subcommand_from {it.name}; and not __fish_seen_subcommand_from help'"
        if any(kind_of(value) == FILE for value in it.arguments):
            first.append(f"{when} -F")
        for option in it.options:
            short = re.match(r"-(\w)", option.shown)
            value = FISH_VALUES.get(kind_of(option), " -x") if option.value else ""
            first.append(f"{when}{f' -s {short[1]}' if short else ''} -l {option.name[2:]}{value} -d '{quoted(option.text)}'")
    return "\n".join(out + first) + "\n"


def files() -> dict[str, str]:
    """The four files by their names."""
    found = commands()
    return {PAGE: page(found), BASH: bash(found), ZSH: zsh(found), FISH: fish(found)}


# How a shell, or the formatter of manual pages, says whether it can read a file.
READERS = {PAGE: ("groff", "-man", "-Tutf8", "-z"), BASH: ("bash", "-n"), ZSH: ("zsh", "-n"), FISH: ("fish", "-n")}


def offered(made: dict[str, str], command: str) -> dict[str, set[str]]:
    """The options that each file has of a command."""
    named = r"--[\w-]+"
    section = made[PAGE].partition(f"\n.SS {command}\n")[2].partition("\n.SS ")[0].replace(r"\-", "-")
    line = re.search(rf"(?m)^        {command}\) options='([^']*)'", made[BASH])
    case = made[ZSH].partition(f"\n        {command})\n")[2].partition("\n            ;;\n")[0]
    lines = [it for it in made[FISH].splitlines() if f"from {command};" in it]
    return {
        PAGE: {option for it in re.findall(r"(?m)^\.B .*$", section) for option in re.findall(named, it)},
        BASH: set(re.findall(named, line[1] if line else "")),
        ZSH: {option for it in re.findall(r"(?m)^ +'[*(]?(-[^\[]*)\[", case) for option in re.findall(named, it)},
        FISH: {f"--{it}" for it in re.findall(r" -l ([\w-]+)", "\n".join(lines))},
    }


def faults(listed: dict[str, set[str]]) -> list[str]:
    """What the four files lack of these commands with their options, or have besides, and what does not read its file."""
    made, found = files(), []
    for command, options in listed.items():
        for name, has in offered(made, command).items():
            found += [f"{name}: {command} {it}" for it in sorted(options ^ has)]
    found += [f"{PAGE}: the command {it}" for it in re.findall(r"(?m)^\.SS (\w+)", made[PAGE]) if it not in (*listed, "help")]
    with tempfile.TemporaryDirectory() as folder:
        for name, reader in READERS.items():
            path = f"{folder}/{os.path.basename(os.path.dirname(name))}"
            with open(path, "w", encoding="utf-8") as it:
                it.write(made[name])
            if shutil.which(reader[0]):
                ran = subprocess.run([*reader, path], capture_output=True, text=True, check=False)
                found += [f"{name}: {reader[0]} says: {(ran.stdout + ran.stderr).strip()}"] * bool(ran.returncode or "error" in ran.stderr)
    return found


def main(words: list[str]) -> int:
    if len(words) > 1 or words[:1] in (["-h"], ["--help"]):
        print(__doc__, file=sys.stderr)
        return 2
    folder = words[0] if words else f"{TOP}/out"
    for name, text in files().items():
        os.makedirs(os.path.dirname(f"{folder}/{name}"), exist_ok=True)
        with open(f"{folder}/{name}", "w", encoding="utf-8") as it:
            it.write(text)
        print(f"{folder}/{name}")
    return 0


if __name__ == "__main__":
    sys.exit(main(sys.argv[1:]))
