#!/usr/bin/env python3
"""The table of the session's calls: which function of each binding makes each call of embed/c8.h.

usage: tools/bindings.py [--write]    prints the table; --write also puts it into docs/EMBEDDING.md. tools/docs compares the two

Exit status: 0 each binding has each call, 1 one is missing.
"""
import os
import re
import sys

sys.dont_write_bytecode = True
from building import EXPORTED  # noqa: E402

TOP = os.path.dirname(os.path.dirname(os.path.realpath(__file__)))
DOCUMENT, BEGIN, END = f"{TOP}/docs/EMBEDDING.md", "<!-- tools/bindings.py -->", "<!-- end -->"
# What a binding does without: an engine's own memory is for C, and a page's journal is a file that JavaScript opened.
WITHOUT = {("c8_memory", "C++"), ("c8_memory", "Rust"), ("c8_memory", "Python"), ("c8_memory", "JavaScript"),
           ("c8_journal_open", "JavaScript"), ("c8_journal_open", "Rust"), ("c8_journal_read", "JavaScript"), ("c8_journal_read", "Rust")}
# Where the calls of a language stand, how a call looks there, and how the head of a function does.
HEADS = {
    "C++": (["embed/c8.hpp"], r"\b(c8_\w+)\b",
            r"^(?:    )?(?!return|if|while|for)(?:[\w:<>, *&]+ )?~?(\w+)\([^;]*\)(?: const)?(?: noexcept)?(?: :.*)? \{"),
    "Python": (["embed/python/c8play/session.py", "embed/python/c8play/refusals.py"], r"\bLIBRARY\.(c8_\w+)", r"^ *def (\w+)\("),
    "JavaScript": (["web/c8.mjs"], r"\.(c8_\w+)\(", r"^  \*?(\w+)\(.*\) \{"),
}
# Functions whose names say nothing to a user.
SHOWN = {"__init__": "Session", "open_journal": "Session", "read_journal": "replay"}


def read(path):
    with open(f"{TOP}/{path}", encoding="utf-8") as it:
        return it.read()


def callers(text, call, head, shown=()):
    """For each call of C the function that makes it."""
    found, inside = {}, ""
    for line in text.splitlines():
        begun = re.search(head, line)
        inside = begun[1] if begun else inside
        for name in re.findall(call, line.partition("//")[0]):
            if name in EXPORTED and name != inside:
                found.setdefault(name, SHOWN[inside] if inside in shown else inside)
    return found


def of_rust():
    """Rust has two layers: the functions of sys.rs, which make the calls, and those of the other files, which call these."""
    lower = callers(re.sub(r'(?s)extern "C" \{.*?\n\}', "", read("embed/rust/src/sys.rs")), r"\b(c8_\w+)\(", r"^ *(?:pub )?fn (\w+)")
    found = {}
    for name, function in lower.items():
        for path in ("session", "rules", "refusal"):
            text = read(f"embed/rust/src/{path}.rs").partition("#[cfg(test)]")[0]
            upper = callers_of(text, rf"(?:handle\.|Handle::|sys::){function}\(")
            if upper:
                found[name] = {"text": "Rules::text", "fmt": "Refusal (Display)"}.get(upper, upper)
    # a handle is closed when it is dropped
    return {**found, "c8_close": "drop"}


def callers_of(text, call):
    inside = ""
    for line in text.splitlines():
        begun = re.search(r"^ *(?:pub )?fn (\w+)", line)
        inside = begun[1] if begun else inside
        if re.search(call, line):
            return inside
    return ""


def table():
    """The lines of the table, and what is missing in it."""
    columns = {language: callers("".join(read(it) for it in paths), call, head, SHOWN) for language, (paths, call, head) in HEADS.items()}
    columns = {"C++": columns["C++"], "Rust": of_rust(), "Python": columns["Python"], "JavaScript": columns["JavaScript"]}
    lines = [f"| C | {' | '.join(columns)} |", f"|{'---|' * (len(columns) + 1)}"]
    missing = []
    for name in EXPORTED:
        cells = [columns[it].get(name, "") for it in columns]
        missing += [f"{language} has no {name}" for language, cell in zip(columns, cells) if not cell and (name, language) not in WITHOUT]
        lines.append(f"| `{name}` | {' | '.join(f'`{it}`' if it else '–' for it in cells)} |")
    return lines, missing


def faults():
    """What is wrong with the table and the document, for tools/docs."""
    lines, missing = table()
    text = read("docs/EMBEDDING.md")
    shown = text.partition(f"{BEGIN}\n")[2].partition(f"\n{END}")[0]
    return missing + ([] if shown == "\n".join(lines) else ["the table of bindings is not the one that tools/bindings.py prints"])


def main():
    if sys.argv[1:] not in ([], ["--write"]):
        print(__doc__, file=sys.stderr)
        return 2
    lines, missing = table()
    print("\n".join(lines))
    for it in missing:
        print(f"bindings: {it}", file=sys.stderr)
    if sys.argv[1:]:
        text = read("docs/EMBEDDING.md")
        before, _, rest = text.partition(f"{BEGIN}\n")
        with open(DOCUMENT, "w", encoding="utf-8") as it:
            it.write(f"{before}{BEGIN}\n" + "\n".join(lines) + f"\n{END}{rest.partition(END)[2]}")
    return 1 if missing else 0


if __name__ == "__main__":
    sys.exit(main())
