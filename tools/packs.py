"""What the archive of the session has for each system: tools/release --engine packs it."""
import hashlib
import os
import re
import shutil
import subprocess

from building import GLIBC

TOP = os.path.dirname(os.path.dirname(os.path.realpath(__file__)))
EMBED, LIBRARIES, PAGES = f"{TOP}/embed", f"{TOP}/out/libraries", f"{TOP}/out/pages"
ENGINE = f"{TOP}/crates/c8_engine/out"
EXAMPLES = ("example.c", "example.cpp", "example.out", "game.c", "platform.h")
DOCUMENTS = ("EMBEDDING", "FORMATS", "PROOFS", "PROTOCOL", "REFUSALS")
# Where a file or a folder of the repository is in an archive; the first that fits.
PLACES = {"embed/c8.h": "c8.h", "embed/c8.hpp": "c8.hpp", "embed/python": "python", "embed/rust": "rust", "embed/example.mjs": "example.mjs",
          "embed": "examples", "web/c8.mjs": "c8.mjs", "docs": "docs"}
RUN = ("linux-x86_64", "linux-aarch64", "windows-x86_64")
NEW = "and an x86-64 processor with SSE4.2 (2009 and newer)", "and 64-bit ARM"
KINDS = {"libc8.a": "an archive to link into a program", "libc8.so": "a shared library", "libc8.dylib": "a shared library",
         "c8.dll": "a shared library", "c8.lib": "what links with it"}
JOURNAL = """- `c8_journal_open` and `c8_journal_read` are not in the library: compile `c8_journal.c` with the program. The game over UDP needs it too:
  `clang -O2 -I. examples/game.c c8_journal.c lib/libc8.a -o game`."""
APPLE = f"""{JOURNAL}
- The shared library has the name `@rpath/libc8.dylib`. Sign it with the program.
- A sync of a journal is F_FULLFSYNC. A thread has 512 KB of stack, which suffices."""
NOTES = {
    "macos": APPLE,
    "ios": APPLE,
    "android": f"{JOURNAL}\n- The shared library has pages of 16 KB, and needs API level 24 or newer.",
    "windows": "- `c8.dll` calls KERNEL32, msvcrt and ntdll. `c8.lib` links with it. The game over UDP also links with ws2_32 and winmm.\n"
               "- The path of `c8_journal_open` and of `c8_journal_read` is UTF-8. If one fails, `GetLastError` has the cause.",
}
# What the C files of a library need to be compiled, by the system's first word; the compiler is trusted with the library.
COMPILERS = {"linux-x86_64": "cc", "linux-aarch64": "aarch64-linux-gnu-gcc", "windows-x86_64": "x86_64-w64-mingw32-gcc"}


def version():
    """The version that c8.h has."""
    return re.search(r'(?m)^#define C8_VERSION "(.*)"$', read(f"{EMBED}/c8.h").decode())[1]


def read(path):
    with open(path, "rb") as it:
        return it.read()


def sha256(path):
    return hashlib.sha256(read(path)).hexdigest()


def readme(system):
    """The README of a system: one of embed/packed, with what differs."""
    kind = "web" if system == "web" else system.split("-")[0] if system in RUN else "other"
    text = read(f"{EMBED}/packed/{kind}.md").decode()
    is_arm, is_windows = system == "linux-aarch64", system == "windows-x86_64"
    if system in RUN:
        text += read(f"{EMBED}/packed/bindings.md").decode()
    if is_windows:
        text += read(f"{EMBED}/packed/windows-notes.md").decode()
    libraries = "" if system == "web" else ", ".join(f"`{it}` {KINDS[it]}" for it in sorted(os.listdir(f"{LIBRARIES}/{system}")) if it in KINDS)
    words = {"VERSION": version(), "NOTES": NOTES.get(system.split("-")[0], ""), "SYSTEM": system, "NEEDS": NEW[is_arm],
             "GLIBC": ".".join(map(str, GLIBC)), "LIBRARIES": libraries,
             "COMPILER": "gcc" if is_windows else "cc", "CXX": "g++ -static" if is_windows else "c++", "SUFFIX": ".exe" if is_windows else "",
             "SOCKETS": "-lws2_32 -lwinmm " if is_windows else "",
             "STARTER ": "", "PYTHON": "python" if is_windows else "python3"}
    return re.sub("|".join(words), lambda it: words[it[0]], text)


def git_files(folder):
    """The files of the repository in a folder."""
    listed = subprocess.run(["git", "-C", TOP, "ls-files", folder], capture_output=True, check=True, encoding="utf-8").stdout
    return listed.split()


def put(found, name, path):
    found[name] = (False, read(path))


def bindings(found, system):
    """The packages for Python and Rust, each with its library."""
    for path in git_files("embed/python") + git_files("embed/rust"):
        put(found, path.removeprefix("embed/"), f"{TOP}/{path}")
    put(found, "python/example.out", f"{EMBED}/example.out")
    shared = "c8.dll" if system.startswith("windows") else "libc8.so"
    put(found, f"python/c8play/{shared}", f"{LIBRARIES}/{system}/{shared}")
    put(found, "rust/lib/libc8.a", f"{LIBRARIES}/{system}/libc8.a")


def linked(text, found):
    """A document, whose links lead to files of an archive. A link to another file becomes its words."""
    def place(it):
        label, path, anchor = it[1], os.path.normpath(f"docs/{it[2]}"), it[3] or ""
        for base, where in PLACES.items():
            if path == base or path.startswith(f"{base}/"):
                to = where + path[len(base):]
                is_there = to in found or any(name.startswith(f"{to}/") for name in found)
                label = to if label == path else label
                return f"[{label}]({os.path.relpath(to, 'docs')}{anchor})" if is_there else label
        return label
    return re.sub(r"\[([^\]]*)\]\((?![a-z]+:|#)([^)#\s]+)(#[^)\s]*)?\)", place, text)


def files(system, said):
    """All files of a system's archive by their names: whether each may be run, and its bytes."""
    found = {"c8.h": (False, read(f"{EMBED}/c8.h")), "README.md": (False, readme(system).encode())}
    if system == "web":
        for name in ("c8.wasm", "c8-32.wasm", "c8.mjs"):
            put(found, name, f"{PAGES}/{name}")
        put(found, "example.mjs", f"{EMBED}/example.mjs")
    else:
        put(found, "c8.hpp", f"{EMBED}/c8.hpp")
        for name in EXAMPLES:
            put(found, f"examples/{name}", f"{EMBED}/{name}")
        for name in os.listdir(f"{LIBRARIES}/{system}"):
            put(found, f"lib/{name}", f"{LIBRARIES}/{system}/{name}")
        if system in RUN:
            bindings(found, system)
        elif not system.startswith("windows"):
            put(found, "c8_journal.c", f"{EMBED}/c8_journal.c")
    for name in DOCUMENTS:
        found[f"docs/{name}.md"] = (False, b"")
    for name in DOCUMENTS:
        found[f"docs/{name}.md"] = (False, linked(read(f"{TOP}/docs/{name}.md").decode(), found).encode())
    sums = "".join(f"file {name} {hashlib.sha256(it[1]).hexdigest()}\n" for name, it in sorted(found.items())
                   if name.startswith("lib/") or name.endswith(".wasm"))
    found["proved.txt"] = (False, (said + trusted(system) + sums).encode())
    return found


def trusted(system):
    """What has to be trusted for a system beside the toolchain: how the module became its code, the C files, and the C compiler."""
    if system == "linux-x86_64":
        lines = ["trusted too: nothing between the proved crate and its code: that is the toolchain's own archive"]
    else:
        lines = ["trusted too: the module is made for x86-64 Linux, and serves this system",
                 f"trusted too: tools/retargeting.py {sha256(f'{TOP}/tools/retargeting.py')}, which replaces its lines about the system",
                 "trusted too: LLVM, in the toolchain's clang, for this system"]
    if system == "web":
        names = ["web/page.c", "web/c8.mjs"]
    else:
        names = ["embed/native/files.h", "embed/native/heap.ll", "embed/native/memory.c"]
        names += ["embed/native/windows.c"] if system.startswith("windows") else ["embed/native/posix.c", "embed/c8_journal.c"]
    lines += [f"trusted too: {it} {sha256(f'{TOP}/{it}')}" for it in names]
    lines.append(f"trusted too: {compiler(system)}")
    if system not in (*RUN, "web"):
        lines.append("not run: nobody has run this library")
    return "".join(f"{it}\n" for it in lines)


def compiler(system):
    """Who compiles the C files, and links."""
    if system == "web":
        return "the toolchain's clang and its linker; for c8-32.wasm also Debian's lld and binaryen; and the browser"
    if system not in COMPILERS:
        return "the toolchain's clang and its linker, for the C files"
    said = subprocess.run([COMPILERS[system], "--version"], capture_output=True, check=True, encoding="utf-8").stdout.splitlines()[0]
    return f"{said}, for the C files; it links"


def systems():
    """All systems, and those that are made here."""
    listed = subprocess.run([f"{TOP}/tools/libraries", "--list"], capture_output=True, check=True, encoding="utf-8").stdout.split()
    have = [it for it in listed if os.path.isdir(f"{LIBRARIES}/{it}")]
    return [*listed, "web"], [*have, *(["web"] if os.path.exists(f"{PAGES}/c8-32.wasm") else [])]


def make(is_all):
    """Makes the libraries and the page's module again. Returns whether all that was asked for is there."""
    shutil.rmtree(LIBRARIES, ignore_errors=True)
    status = subprocess.run([f"{TOP}/tools/libraries", *(["--all"] if is_all else [])], stdout=subprocess.DEVNULL, check=False).returncode
    return not status and not subprocess.run([f"{TOP}/tools/page"], stdout=subprocess.DEVNULL, check=False).returncode
