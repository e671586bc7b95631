"""How tools/libraries makes one library: objects, an archive, a shared library, and the comparison with what is expected."""
import os
import re
import subprocess

import retargeting

TOP = os.path.dirname(os.path.dirname(os.path.realpath(__file__)))
EMBED, NATIVE = f"{TOP}/embed", f"{TOP}/embed/native"
ENGINE = f"{TOP}/crates/c8_engine/out"
C = ["-std=c11", "-O2", "-Wall", "-Wextra", "-Werror", "-ffunction-sections", f"-I{EMBED}"]
# The newest version of the C library that a shared library for Linux may ask for; its README says so.
GLIBC = (2, 33)
# c8_journal.c is no part of these libraries: its headers are those of the system.
NO_JOURNAL, OF_JOURNAL = ("macos", "ios", "android"), ("c8_journal_open", "c8_journal_read")


class NotMade(Exception):
    """Why there is no library."""


def declared():
    """The functions that c8.h declares, without the inline one."""
    with open(f"{EMBED}/c8.h", encoding="utf-8") as it:
        text = re.sub(r"/\*.*?\*/", "", it.read(), flags=re.S)
    return sorted(set(re.findall(r"(?m)^(?!static)\w[\w ]*?\b(c8_\w+)\(", text)))


EXPORTED = declared()


def needs(system):
    """What the library of a system takes from it: the names of each of its libraries. A name with a question mark may be missing."""
    found = {}
    with open(f"{NATIVE}/needs.list", encoding="utf-8") as lines:
        for line in lines:
            head, colon, names = line.partition(":")
            if colon and not line.startswith("#") and head.split()[0] == system:
                found[head.split()[1]] = names.split()
    return found


def plain(names):
    """The names without question marks."""
    return [it.removesuffix("?") for it in names]


class Work:
    """A library that is being made, in a folder of its own."""

    def __init__(self, system, folder, kit):
        self.system, self.folder, self.kit = system, folder, kit
        self.clang = f"{kit}/toolchain/bin/clang"
        self.objects, self.files = [], []
        # before each name
        self.mark = "_" if system.startswith(("macos", "ios")) else ""
        is_partial = system.split("-")[0] in NO_JOURNAL
        self.exported = [it for it in EXPORTED if not (is_partial and it in OF_JOURNAL)]

    # ---- what is made of what

    def run(self, *words, output=False):
        try:
            ran = subprocess.run(words, cwd=self.folder, check=True, stdout=subprocess.PIPE if output else None, encoding="utf-8")
        except (OSError, subprocess.CalledProcessError) as error:
            raise NotMade(f"{os.path.basename(words[0])} failed: {error}") from error
        return ran.stdout

    def write(self, name, text):
        with open(f"{self.folder}/{name}", "w", encoding="utf-8") as it:
            it.write(text)

    def made(self, *names):
        self.files += names

    def take_archive(self):
        """The objects of the archive for C, as the toolchain made them."""
        archive = f"{ENGINE}/libc8_engine.a"
        if not os.path.exists(archive):
            raise NotMade("there is no archive: run the gate first (./test), which calls tools/archive")
        ar = f"{self.kit}/toolchain/bin/llvm-ar"
        for name in self.run(ar, "t", archive, output=True).split():
            self.run(ar, "x", archive, name)
            # no name of an object file of ours
            os.rename(f"{self.folder}/{name}", f"{self.folder}/engine-{name}")
            names = [word for it in sorted(retargeting.OPENINGS) for word in ("--redefine-sym", f"{it}=c8os_{it}")]
            self.run("objcopy", *names, f"engine-{name}")
            self.objects.append(f"engine-{name}")

    def engine(self, target):
        """The module, compiled for a system."""
        exports = retargeting.compiled(self.clang, f"{ENGINE}/module.bc", target, self.folder, f"{self.folder}/engine.o")
        if set(exports) - set(EXPORTED):
            raise NotMade(f"the module exports what c8.h does not declare: {sorted(set(exports) - set(EXPORTED))}")
        self.objects.append("engine.o")

    def heap(self, triple, *flags):
        self.run(self.clang, f"--target={triple}", *retargeting.FLAGS, *flags, "-c", "-x", "ir", f"{NATIVE}/heap.ll", "-o", "heap.o")
        self.objects.append("heap.o")

    def clang_for(self, triple, *headers):
        """The toolchain's clang as a compiler of C for a system, over the headers that belong to a compiler."""
        own = subprocess.run(["cc", "-print-file-name=include"], capture_output=True, check=True, encoding="utf-8").stdout.strip()
        folders = [word for it in (own, *headers) for word in ("-isystem", it)]
        return [self.clang, "--no-default-config", f"--target={triple}", "-ffreestanding", "-nostdinc", *folders]

    def c(self, compiler, *names):
        flags = [] if self.system.startswith("windows") else ["-fPIC"]
        # else an atomic call needs a function of the compiler's own library
        flags += ["-mno-outline-atomics"] if self.system in ("linux-aarch64", "android-arm64") else []
        for name in names:
            made = os.path.basename(name).replace(".c", ".o")
            self.run(*compiler, *C, *flags, "-c", f"{NATIVE}/{name}", "-o", made)
            self.objects.append(made)

    def pack(self, name):
        self.run(f"{self.kit}/toolchain/bin/llvm-ar", f"--format={'darwin' if self.system[:3] in ('mac', 'ios') else 'gnu'}", "rcsD", name,
                 *self.objects)
        self.made(name)

    # ---- shared libraries

    def version_script(self):
        self.write("c8.map", f"C8_1 {{ global: {' '.join(f'{it};' for it in self.exported)} local: *; }};\n")

    def link_elf(self, compiler):
        self.version_script()
        flags = "-Wl,--version-script=c8.map,-soname,libc8.so.1,--gc-sections,-z,relro,-z,now,-z,defs,--build-id=none"
        self.run(*compiler, "-shared", "-s", "-o", "libc8.so", *self.objects, flags)
        self.made("libc8.so")

    def linker(self, name):
        """The toolchain's clang is its linkers too, by other names."""
        if not os.path.exists(f"{self.folder}/{name}"):
            os.symlink(self.clang, f"{self.folder}/{name}")
        return f"{self.folder}/{name}"

    def definition(self, library, names):
        self.write(f"{library}.def", f"LIBRARY {library}\nEXPORTS\n" + "".join(f"    {it}\n" for it in names))

    def link_windows(self, machine):
        """Over import libraries of the list's names, since mingw has none for this processor here."""
        for library, names in needs(self.system).items():
            self.definition(library, plain(names))
            self.run("llvm-dlltool", "-m", machine, "-D", library, "-d", f"{library}.def", "-l", f"{library}.lib")
        exports = [f"/export:{it}" for it in self.exported]
        self.run(self.linker("lld-link"), "/dll", "/noentry", f"/machine:{machine}", "/Brepro", "/opt:ref", "/out:c8.dll", "/implib:c8.lib",
                 *exports, *self.objects, *(f"{it}.lib" for it in needs(self.system)))
        self.made("c8.dll", "c8.lib")

    def link_apple(self, machine, platform, least, sdk):
        """Over a stub of the system's library, since there is none here: it has the names of the list."""
        names = ", ".join(f"'{it}'" for it in plain(needs(self.system)["libSystem.B.dylib"]))
        target = f"{machine}-{platform}"
        self.write("libSystem.tbd", f"--- !tapi-tbd\ntbd-version: 4\ntargets: [ {target} ]\ninstall-name: '/usr/lib/libSystem.B.dylib'\n"
                   f"exports:\n  - targets: [ {target} ]\n    symbols: [ {names}, dyld_stub_binder ]\n...\n")
        self.write("exports.txt", "".join(f"_{it}\n" for it in self.exported))
        self.run(self.linker("ld64.lld"), "-arch", machine, "-platform_version", platform, least, sdk, "-dylib", "-dead_strip", "-no_uuid",
                 "-exported_symbols_list", "exports.txt", "-install_name", "@rpath/libc8.dylib", *self.objects, "libSystem.tbd", "-o", "libc8.dylib")
        self.made("libc8.dylib")

    def link_android(self, triple):
        self.version_script()
        self.write("stub.c", "".join(f"void {it}(void);\nvoid {it}(void) {{}}\n" for it in plain(needs(self.system)["libc.so"])))
        self.run(*self.clang_for(triple), "-fPIC", "-fno-builtin", "-w", "-c", "stub.c", "-o", "stub.o")
        self.run(self.linker("ld.lld"), "-shared", "-soname", "libc.so", "stub.o", "-o", "libc.so")
        self.run(self.linker("ld.lld"), "-shared", "-s", "-soname", "libc8.so", "--gc-sections", "-z", "max-page-size=16384",
                 "--version-script=c8.map", *self.objects, "libc.so", "-o", "libc8.so")
        self.made("libc8.so")

    # ---- what came out

    def names(self, *words):
        """The names of symbols, without the mark of macOS before each."""
        lines = self.run("llvm-nm", *words, output=True).splitlines()
        return {it.split()[-1].split("@")[0].removeprefix(self.mark) for it in lines if it.strip() and not it.rstrip().endswith(":")}

    def exports(self, shared):
        if shared.endswith(".dll"):
            listed = self.run("llvm-readobj", "--coff-exports", shared, output=True)
            return set(re.findall(r"(?m)^\s*Name: (\S+)$", listed)) - {"c8.dll"}
        return self.names("--defined-only", "--extern-only", *([] if shared.endswith(".dylib") else ["--dynamic"]), shared) - {"C8_1"}

    def needed(self, shared):
        """The libraries that the system loads with a shared one."""
        if shared.endswith(".dll"):
            return re.findall(r"(?m)^  Name: (\S+)$", self.run("llvm-readobj", "--coff-imports", shared, output=True))
        if shared.endswith(".dylib"):
            paths = re.findall(r"(?m)^\t(\S+) ", self.run("llvm-objdump", "--macho", "--dylibs-used", shared, output=True))
            return [os.path.basename(it) for it in paths if not it.startswith("@rpath/")]
        return re.findall(r"(?m)^  (\S+)$", self.run("llvm-readobj", "--needed-libs", shared, output=True))

    def compare(self, wanted):
        """Refuses a library that exports or takes from its system anything else than is written down."""
        defined, undefined = self.names("--defined-only", "--extern-only", "libc8.a"), self.names("--undefined-only", "libc8.a")
        self.same("the archive exports", {it for it in defined if it.startswith("c8_")}, self.exported)
        listed = [it.removeprefix(self.mark) for names in wanted.values() for it in names]
        taken = {it.removeprefix("__imp_") for it in undefined - defined - {"_GLOBAL_OFFSET_TABLE_"}}
        self.same("the archive takes from the system", taken, plain(it for it in listed if not it.endswith("?") or it[:-1] in taken))
        for shared in set(self.files) & {"libc8.so", "libc8.dylib", "c8.dll"}:
            self.same(f"{shared} exports", self.exports(shared), self.exported)
            found = re.findall(r"@GLIBC_(\d+)\.(\d+)", self.run("llvm-nm", "--undefined-only", "--dynamic", shared, output=True)
                               if self.system.startswith("linux") else "")
            if newer := [it for it in found if tuple(map(int, it)) > GLIBC]:
                raise NotMade(f"{shared} needs a C library of version {'.'.join(newer[0])}")
            self.same(f"{shared} needs", self.needed(shared), [it for it in wanted if not it.endswith(".a")])

    def same(self, what, found, wanted):
        more, fewer = sorted(set(found) - set(wanted)), sorted(set(wanted) - set(found))
        if more or fewer:
            raise NotMade(f"{what} other names than expected: more {more}, fewer {fewer}")
