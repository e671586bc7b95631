"""What a new user has: the files of a system's archive and its README, whose commands have to work as they stand there."""
import glob
import os
import re
import shutil
import sys

from bench import EMBED, LINUX, TOP, WINDOWS, Failed, lacking, read, same

sys.path.insert(0, f"{TOP}/tools")
import packs  # noqa: E402

CRATE = "example_of_rust"
# What the programs of a README print.
EXAMPLE, MATCH = "example", "match"
MAIN = """use c8play_session::{Rules, Session};

fn main() {
    let rules = Rules { players: 2, frames: 9, delay: 0, window: 8, id: [1; 32] };
    let mut session = Session::open(rules.text().unwrap(), 1, 7, 0).unwrap();
    session.tick(5).unwrap();
    println!("ticked {}", session.ticked());
}
"""


def unpack(bench, system):
    """Writes the files of a system's archive into a folder of their own; its path."""
    root = f"{bench.folder}/packed-{system}"
    for name, (may_run, content) in packs.files(system, "gate none: a test\n").items():
        path = f"{root}/{name}"
        os.makedirs(os.path.dirname(path), exist_ok=True)
        with open(path, "wb") as it:
            it.write(content)
        os.chmod(path, 0o755 if may_run else 0o644)
    return root


def commands(root, without):
    """The commands of a README, but for blocks that call these programs."""
    blocks = re.findall(r"(?ms)^```sh\n(.*?)^```$", read(f"{root}/README.md").decode())
    return [it for it in blocks if not any(re.search(rf"(?m)^{re.escape(name)}(?:\s|$)", it) for name in without)]


def links(root):
    """The links of an archive's documents lead to its files."""
    for path in glob.glob(f"{root}/**/*.md", recursive=True):
        for target in re.findall(r"\]\((?![a-z]+:|#)([^)#\s]+)", read(path).decode()):
            if not os.path.exists(os.path.join(os.path.dirname(path), target)):
                raise Failed(f"{path}: no file {target}")


def follow(bench, system, wanted, tools=(), starter="", without=()):
    """Runs the commands of a README, in a shell whose PATH has these tools first. `wanted` has what each program says: the example, or a
    match, whose players print the same line."""
    root, bins = unpack(bench, system), f"{bench.folder}/tools-{system}"
    os.makedirs(bins, exist_ok=True)
    for name, path in tools:
        with open(f"{bins}/{name}", "w", encoding="utf-8") as it:
            it.write(f'#!/bin/sh\nexec {path} "$@"\n')
        os.chmod(f"{bins}/{name}", 0o755)
    links(root)
    script = "set -e\n" + "\n".join(f"cd '{root}'\n{it}" for it in commands(root, without))
    if starter:
        script = re.sub(r"(?m)^\./", f"{starter} ./", script)
    environment = {**bench.environment, "PATH": f"{bins}:{os.environ['PATH']}", "PYTHONDONTWRITEBYTECODE": "1",
                   "CARGO_TARGET_DIR": f"{bench.folder}/target-packed", "CARGO_NET_OFFLINE": "true"}
    environment.pop("C8PLAY_LIB", None)
    said = bench.run("sh", "-c", script, env=environment)
    said = re.sub(r"(frames \d+ (?:hash|state) \w{16}\n)\1", f"{MATCH}\n", said.replace(read(f"{EMBED}/example.out").decode(), f"{EXAMPLE}\n"))
    same(f"the README of {system}", said, "".join(f"{it}\n" for it in wanted))
    return root


def packed(bench):
    if why := lacking(LINUX):
        return why
    lacks = [it for it in ("c++", "cargo") if not shutil.which(it)]
    wanted = [EXAMPLE, MATCH, EXAMPLE, *([] if "c++" in lacks else [EXAMPLE]), EXAMPLE]
    root = follow(bench, "linux-x86_64", wanted, [("python3", sys.executable)], without=lacks)
    bench.match("the packed game", [f"{root}/game"], [f"{root}/game"])
    if "cargo" not in lacks:
        bench.match("the packed game in Rust", [f"{bench.folder}/target-packed/debug/my-game"], [f"{root}/game"])
        crate(bench, root)
    skipped = []
    if why := lacking(WINDOWS):
        skipped.append(why)
    else:
        bench.start_wine()
        compilers = [(it, f"x86_64-w64-mingw32-{it}") for it in ("gcc", "g++") if shutil.which(f"x86_64-w64-mingw32-{it}")]
        root = follow(bench, "windows-x86_64", [EXAMPLE] * (1 + len(compilers)), compilers, "wine",
                      without=["cd python", "cargo", *([] if len(compilers) == 2 else ["g++"])])
        bench.match("the packed game of Windows", ["wine", f"{root}/game.exe"], ["wine", f"{root}/game.exe"])
    if shutil.which("node") and os.path.exists(f"{TOP}/out/pages/c8-32.wasm"):
        follow(bench, "web", [EXAMPLE])
    else:
        skipped.append("no node or no page")
    return f"in part: {', '.join(skipped)}" if skipped else ""


def crate(bench, root):
    """A program that depends on the packed crate, without a variable."""
    folder = f"{bench.folder}/{CRATE}"
    os.makedirs(f"{folder}/src")
    with open(f"{folder}/Cargo.toml", "w", encoding="utf-8") as it:
        it.write(f'[package]\nname = "{CRATE}"\nversion = "0.1.0"\nedition = "2021"\n\n')
        it.write(f'[dependencies]\nc8play-session = {{ path = "{root}/rust" }}\n')
    with open(f"{folder}/src/main.rs", "w", encoding="utf-8") as it:
        it.write(MAIN)
    environment = {**bench.environment, "CARGO_NET_OFFLINE": "true", "CARGO_TARGET_DIR": f"{bench.folder}/target-packed"}
    environment.pop("C8PLAY_LIB", None)
    said = bench.run("cargo", "run", "--quiet", env=environment, cwd=folder)
    if said != "ticked 1\n":
        raise Failed(f"a program over the packed crate says {said!r}")
