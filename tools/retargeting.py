"""Compiles the LLVM module that tools/archive keeps for other systems than the one it was made for.

rattle makes the module for x86-64 Linux. It serves each little-endian system with 64-bit pointers, because nothing in it depends on the
system but its triple, its layout, attributes of functions, and the names of the functions that it calls. These four are replaced as text.
Everything that would make this wrong is refused: inline assembly, intrinsics of a processor, conventions that depend on the system, and
functions that nobody provides.
"""
import dataclasses
import os
import re
import shutil
import subprocess
import sys

# The flags with which rattle calls clang, but for its target.
FLAGS = ["--no-default-config", "-no-canonical-prefixes", "-fno-crash-diagnostics", "-Werror", "-Wno-override-module", "-O3", "-ffunction-sections",
         "-fdata-sections"]
LLVM = ["trap-unreachable", "disable-machine-licm", "disable-postra-machine-licm", "sink-common-insts=false"]
GIVEN = "x86_64-unknown-linux-gnu"

# What the module may call: the toolchain's memory and errors, the file of a journal, and blocks of bytes.
MEMORY = frozenset(("rattle_alloc", "rattle_realloc", "rattle_dealloc"))
FILES = frozenset(("rattle_errno", "pread", "pwrite", "lseek", "fsync", "fdatasync", "flock", "posix_fadvise", "close"))
BYTES = frozenset(("memcpy", "memmove", "memset", "memcmp"))
# Of these exports embed/native/memory.c has those that others call.
OPENINGS = frozenset(("c8_open", "c8_open_journal", "c8_replay_open", "c8_watch_open", "c8_close"))
# Assembly and intrinsics belong to a processor. The rest are conventions that systems have in different forms.
REFUSED = re.compile(r"\basm\b|@llvm\.(?:x86|aarch64)\.|\b(?:byval|sret|inalloca|thread_local|preallocated)\b")
# An export that returns fewer than 32 bits. JavaScript, and C on macOS for ARM, take the bits above for zeros; other callers ignore them.
NARROW = re.compile(r"^(define (?:(?!zeroext|signext)\w+ )*)(i(?:1|8|16) @c8_)")
OF_PROCESSOR = ("target-cpu", "target-features", "tune-cpu")


class Refused(Exception):
    """Why the module is not compiled."""


@dataclasses.dataclass(frozen=True)
class Target:
    """What the module has to become for a system."""
    triple: str
    layout: str = ""               # empty: clang knows that of the triple
    lost: tuple[str, ...] = ()     # attributes of functions, with a text as value
    added: str = ""                # attributes of the module's own functions
    renamed: frozenset = OPENINGS  # functions that C files provide, as c8os_NAME
    flags: tuple[str, ...] = ()


def attributes(line, target):
    """A line of attributes, for the target. The module's own functions are those that probe their stack."""
    is_own = '"probe-stack"' in line
    for name in target.lost:
        line = re.sub(rf' "{name}"="[^"]*"', "", line)
    return line.replace(" }", f" {target.added} }}") if is_own and target.added else line


def rewritten(text, target):
    """The text of the module, for the target; and the names that it exports."""
    out, exports, heads = [], [], []  # heads: the lines about the target
    for line in text.splitlines(keepends=True):
        is_head = re.match(r"target (triple|datalayout) = ", line)
        if is_head:
            heads.append(is_head[1])
            line = {"triple": f'target triple = "{target.triple}"\n'}.get(is_head[1]) or (
                f'target datalayout = "{target.layout}"\n' if target.layout else "")
        elif line.startswith("attributes #"):
            line = attributes(line, target)
        elif found := REFUSED.search(without_texts(line)):
            raise Refused(f"the module has {found[0]}, so it is for one system: {line.strip()[:120]}")
        elif found := re.match(r"declare .*?@([\w.]+)\(", line):
            if not found[1].startswith("llvm.") and found[1] not in MEMORY | FILES | BYTES:
                raise Refused(f"the module calls {found[1]}, which no system's C file has")
        elif found := re.match(r"define (?!internal|private).*?@(\w+)\(", line):
            exports.append(found[1])
            line = NARROW.sub(r"\1zeroext \2", line)
        out.append(line)
    if sorted(heads) != ["datalayout", "triple"]:
        raise Refused(f"the module has these lines about its target: {heads}")
    names = re.compile(rf"@({'|'.join(sorted(target.renamed))})\b")
    return (names.sub(r"@c8os_\1", "".join(out)) if target.renamed else "".join(out)), sorted(exports)


def without_texts(line):
    """A line without its constants and the names that it quotes."""
    return re.sub(r'"[^"]*"', '""', line)


def run(*words):
    try:
        subprocess.run(words, check=True)
    except (OSError, subprocess.CalledProcessError) as error:
        raise Refused(f"{os.path.basename(words[0])} failed: {error}") from error


def compiled(clang, module, target, work, out):
    """Compiles the module for the target to the object file `out`. Returns the names that it exports."""
    if not os.path.exists(module):
        raise Refused("there is no module: run the gate first (./test), which calls tools/archive")
    given, made = f"{work}/given.ll", f"{work}/made.ll"
    plain = ["-Wno-override-module", "-x", "ir", module, "-S", "-emit-llvm", "-O0", "-Xclang", "-disable-llvm-passes"]
    run(clang, f"--target={GIVEN}", *plain, "-o", given)
    with open(given, encoding="utf-8") as it:
        text, exports = rewritten(it.read(), target)
    with open(made, "w", encoding="utf-8") as it:
        it.write(text)
    llvm = [word for it in LLVM for word in ("-mllvm", f"-{it}")]
    run(clang, f"--target={target.triple}", *FLAGS, *llvm, *target.flags, "-c", "-x", "ir", made, "-o", out)
    return exports


def toolchain(tool):
    """The toolchain's folder; empty, with a line, if it is not installed."""
    if not shutil.which("rt"):
        print(f"tools/{tool}: the Rattle toolchain is not on the PATH (no command rt)", file=sys.stderr)
        return ""
    return os.path.dirname(subprocess.run(["rt", "doc"], capture_output=True, text=True, check=True).stdout.strip())
