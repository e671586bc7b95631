"""Keeps the LLVM module that rattle hands to its clang, while it makes the archive for C. tools/page compiles it for a page, so that
nothing is proved a second time."""
import contextlib
import os
import shlex
import tempfile

SCRIPT = """#!/bin/sh
for it in "$@"; do case $it in *module.bc) cp "$it" {kept} || exit 1 ;; esac; done
exec {clang} "$@"
"""


@contextlib.contextmanager
def keeping(toolchain, kept):
    """A folder that stands for a toolchain's, as long as it is needed: its clang copies the module to the path `kept`, and then is the
    toolchain's. rattle gives clang no environment, so the script has both paths."""
    with tempfile.TemporaryDirectory(prefix="c8play-toolchain-") as folder:
        os.mkdir(f"{folder}/bin")
        names = [it for it in os.listdir(toolchain) if it != "bin"] + [f"bin/{it}" for it in os.listdir(f"{toolchain}/bin") if it != "clang"]
        for it in names:
            os.symlink(f"{toolchain}/{it}", f"{folder}/{it}")
        with open(f"{folder}/bin/clang", "w", encoding="utf-8") as it:
            it.write(SCRIPT.format(kept=shlex.quote(kept), clang=shlex.quote(f"{toolchain}/bin/clang")))
        os.chmod(f"{folder}/bin/clang", 0o755)
        yield folder
