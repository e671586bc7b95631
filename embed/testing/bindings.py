"""The bindings: C++, Rust, Python and C#, each over a library of this system."""
import os
import re
import shutil
import sys
import time

from bench import EMBED, LIBRARIES, LINUX, TIMEOUT, TOP, Failed, free_ports, lacking, read, same

# A journal of that many bytes is in the midst of a match.
SOME = 30000
# The oldest Python that the package is for.
OLDEST = "3.9"
SHARED, STATIC = f"{LIBRARIES}/linux-x86_64/libc8.so", f"{LIBRARIES}/linux-x86_64/libc8.a"


def example_out():
    return read(f"{EMBED}/example.out").decode()


def unmade(library):
    """That a library was not made, because this machine lacks a tool; nothing if it was."""
    return "" if os.path.exists(library) else f"no library {os.path.relpath(library, LIBRARIES)}"


def cpp(bench):
    """c8.h is a header of C++98 too, and c8.hpp plays the example."""
    if not shutil.which("c++"):
        return "no c++"
    if why := unmade(STATIC):
        return why
    with open(f"{bench.folder}/header.cc", "w", encoding="utf-8") as it:
        it.write('#include "c8.h"\nint main() { c8_session s = {0}; return c8_tick(&s, 1) != C8_CLOSED; }\n')
    warnings = ["-pedantic", "-Wall", "-Wextra", "-Werror", f"-I{EMBED}"]
    bench.run("c++", "-std=c++98", "-Wno-long-long", *warnings, "header.cc", STATIC, "-o", "header")
    bench.run(f"{bench.folder}/header")
    bench.run("c++", "-std=c++20", *warnings, f"{EMBED}/example.cpp", STATIC, "-o", "example-cpp")
    same("the example in C++", bench.run(f"{bench.folder}/example-cpp"), example_out())
    bench.run("c++", "-std=c++20", *warnings, f"{EMBED}/testing/calls.cpp", STATIC, "-o", "calls")
    bench.run(f"{bench.folder}/calls", "calls.journal", "other.journal")
    return ""


def rust(bench):
    """The crate and its tests; its game plays against C; and without a library it can be checked."""
    if not shutil.which("cargo"):
        return "no cargo"
    if why := lacking(LINUX):
        return why
    environment = {**bench.environment, "CARGO_TARGET_DIR": f"{bench.folder}/target", "CARGO_NET_OFFLINE": "true"}
    with_library = {**environment, "C8PLAY_LIB": os.path.dirname(STATIC)}
    cargo = lambda env, *words, **more: bench.run("cargo", *words, env=env, cwd=f"{EMBED}/rust", **more)
    cargo(with_library, "test", "--quiet")
    cargo(with_library, "build", "--quiet", "--example", "game")
    games = [bench.build(LINUX, "game"), [f"{bench.folder}/target/debug/examples/game"]]
    bench.match("C against Rust", *games)
    bench.match("Rust against C", *games[::-1])
    with open(f"{bench.folder}/secret", "w", encoding="utf-8") as it:
        it.write(f"{1234567890:064d}\n")
    bench.match("Rust against C with a secret", *games[::-1], "--secret", f"{bench.folder}/secret", secret=True)
    without = {**environment, "CARGO_TARGET_DIR": f"{bench.folder}/target-without"}
    without.pop("C8PLAY_LIB", None)
    for words in (("check",), ("doc", "--no-deps"), ("test", "--no-run")):
        cargo(without, *words, "--quiet")
    said = cargo(without, "test", "--quiet", "--test", "agreement", status=None)
    if "C8PLAY_LIB" not in said:
        raise Failed(f"without a library the crate does not say how to get one: {said}")
    return ""


def python(bench):
    if why := unmade(SHARED):
        return why
    environment = {**bench.environment, "C8_LIBRARY": SHARED, "PYTHONPATH": f"{EMBED}/python", "PYTHONDONTWRITEBYTECODE": "1"}
    bench.run(sys.executable, f"{EMBED}/python/test.py", env=environment)
    duel(bench, environment)
    if not shutil.which("mypy"):
        return "in part: no mypy"
    bench.run("mypy", "--strict", "--python-version", OLDEST, f"--cache-dir={bench.folder}/mypy", ".", cwd=f"{EMBED}/python")
    return ""


def duel(bench, environment):
    """Two processes of the package over UDP. Player 1 is killed once, and goes on from its journal."""
    ports, frames = free_ports(), "600"
    words = lambda role: [sys.executable, f"{EMBED}/python/duel.py", str(role), str(ports[role - 1]), "127.0.0.1", str(ports[2 - role]), frames]
    start = lambda *line: bench.begin(line, environment)
    first, second = start(*words(1), "duel.journal"), start(*words(2))
    patience = time.monotonic() + TIMEOUT
    while not os.path.exists(f"{bench.folder}/duel.journal") or os.path.getsize(f"{bench.folder}/duel.journal") < SOME:
        if time.monotonic() > patience or first.poll() is not None:
            raise Failed("the player in Python that has to die ended, or did not begin")
        time.sleep(0.01)
    first.kill()
    bench.ended(first, "a player in Python")
    said = [bench.ended(it, "a player in Python") for it in (start(*words(1), "duel.journal"), second)]
    if said[0] != said[1] or not re.fullmatch(rf"frames {frames} state (?!0{{16}})\w{{16}}\n", said[0][1]):
        raise Failed(f"players in Python end differently: {said}")


def csharp(bench):
    """The program of EMBEDDING's section on Unity."""
    if not shutil.which("mcs") or not shutil.which("mono"):
        return "no mcs or no mono"
    if why := unmade(SHARED):
        return why
    with open(f"{TOP}/docs/EMBEDDING.md", encoding="utf-8") as it:
        blocks = re.findall(r"(?ms)^```csharp\n(.*?)^```$", it.read())
    with open(f"{bench.folder}/example.cs", "w", encoding="utf-8") as it:
        it.write("\n".join(blocks))
    bench.run("mcs", "-langversion:7", "-warnaserror", "-out:example-cs.exe", "example.cs")
    shutil.copyfile(SHARED, f"{bench.folder}/libc8.so")
    said = bench.run("mono", "example-cs.exe", env={**bench.environment, "LD_LIBRARY_PATH": bench.folder})
    state = re.search(r"state (\w+)", example_out())[1]
    same("C#", said, f"state {state}, the same\n")
    return ""
