"""What the parts of embed/test share: compilers, libraries, programs that run, and matches of two programs over UDP."""
import dataclasses
import os
import shutil
import socket
import subprocess
import tempfile

EMBED = os.path.dirname(os.path.dirname(os.path.realpath(__file__)))
TOP = os.path.dirname(EMBED)
LIBRARIES = f"{TOP}/out/libraries"
C = ["-std=c99", "-O1", "-g", "-Wall", "-Wextra", "-Werror", f"-I{EMBED}"]
# What both players of game.c print in the end, with the scripts of seeds 1 and 2, whatever plays them.
FRAMES, PLAYED = 1200, "frames 1200 hash fc2e710e32faf18a"
TIMEOUT = 120
# A player that the test kills reports this.
KILLED = 9


class Failed(Exception):
    """What failed, with what was printed."""


@dataclasses.dataclass(frozen=True)
class System:
    """How programs are built over a library, and started."""
    name: str
    compiler: tuple[str, ...]
    library: str
    starter: tuple[str, ...] = ()
    suffix: str = ""
    sockets: tuple[str, ...] = ()  # what game.c links with


LINUX = System("linux", ("cc",), "linux-x86_64/libc8.a")
LINUX_SHARED = System("linux-shared", ("cc",), "linux-x86_64/libc8.so")
# of Debian's qemu-user-static, or of qemu-user
QEMU = "qemu-aarch64-static" if shutil.which("qemu-aarch64-static") else "qemu-aarch64"
ARM = System("arm", ("aarch64-linux-gnu-gcc", "-static"), "linux-aarch64/libc8.a", (QEMU,))
ARM_SHARED = System("arm-shared", ("aarch64-linux-gnu-gcc",), "linux-aarch64/libc8.so", (QEMU, "-L", "/usr/aarch64-linux-gnu"))
MINGW, SOCKETS = ("x86_64-w64-mingw32-gcc",), ("-lws2_32", "-lwinmm")
WINDOWS = System("windows", MINGW, "windows-x86_64/libc8.a", ("wine",), ".exe", SOCKETS)
WINDOWS_SHARED = System("windows-dll", MINGW, "windows-x86_64/libc8.dll.a", ("wine",), ".exe", SOCKETS)


def lacking(*systems):
    """The first tool of these systems that is not here; nothing if all are."""
    for system in systems:
        for tool in (system.compiler[0], *system.starter[:1]):
            if not shutil.which(tool):
                return f"no {tool}"
        if not os.path.exists(f"{LIBRARIES}/{system.library}"):
            return f"no library {system.library}"
    return ""


class Bench:
    """A folder, and the programs that run in it."""

    def __init__(self, folder, calls):
        self.folder, self.calls, self.running, self.built = folder, calls, {}, {}
        self.has_wine = False
        # wine has a home of its own, and no screen
        self.environment = {**os.environ, "WINEPREFIX": f"{folder}/wine", "WINEDEBUG": "-all", "DISPLAY": "", "TMPDIR": folder}

    def run(self, *words, status=0, errors=False, env=None, cwd=None):
        """Runs a program to its end; what it printed, or what it printed as errors."""
        try:
            came, said, error = self.ended(self.begin(words, env or self.environment, cwd), words[0])
        except OSError as refused:
            raise Failed(str(refused)) from refused
        if status is not None and came != status:
            raise Failed(f"{' '.join(words)}: status {came}: {(said + error)[-3000:]}")
        return error if errors else said

    def build(self, system, name, *more):
        """Builds a program of this folder for a system, once; its path."""
        out = f"{self.folder}/{name}-{system.name}{system.suffix}"
        if out not in self.built:
            library = f"{LIBRARIES}/{system.library}"
            self.run(*system.compiler, *C, f"{EMBED}/{name}.c", library, *more, *(system.sockets if name == "game" else ()), "-o", out,
                     f"-Wl,-rpath,{self.folder}/{system.name}" if library.endswith(".so") else "-Wl,--as-needed")
            self.put_shared(system, library)
            self.built[out] = True
        return [*system.starter, out]

    def put_shared(self, system, library):
        """Puts a shared library where its programs find it."""
        if library.endswith(".so"):
            os.makedirs(f"{self.folder}/{system.name}", exist_ok=True)
            shutil.copyfile(library, f"{self.folder}/{system.name}/libc8.so.1")
        elif library.endswith(".dll.a"):
            shutil.copyfile(library.replace("libc8.dll.a", "c8.dll"), f"{self.folder}/c8.dll")

    # ---- matches

    def start(self, player, program, ports, *options, limit=None):
        """Starts a player of game.c. `limit`: it dies once a file of its own has more bytes."""
        own, other = ports if player == 1 else ports[::-1]
        words = [*program, str(player), str(own), "127.0.0.1", str(other), "--frames", str(FRAMES), "--script", str(player), "--lose", "20", *options]
        words = ["prlimit", f"--fsize={limit}", "--core=0", *words] if limit else words
        return self.begin(words, self.environment)

    def begin(self, words, environment, folder=None):
        """Starts a process in the background. What it prints goes to files: wine's server keeps a pipe open after its program has died."""
        if "wine" in words[:1]:
            self.start_wine()
        outputs = [tempfile.TemporaryFile(dir=self.folder) for _ in range(2)]
        ran = subprocess.Popen(words, stdin=subprocess.DEVNULL, stdout=outputs[0], stderr=outputs[1], env=environment, cwd=folder or self.folder)
        self.running[ran] = outputs
        return ran

    def ended(self, ran, what):
        """Waits for a process; its status, what it printed, and what it printed as errors."""
        try:
            status = ran.wait(timeout=TIMEOUT)
        except subprocess.TimeoutExpired as slow:
            raise Failed(f"{what}: no end after {TIMEOUT} s") from slow
        said = []
        for it in self.running.pop(ran):
            with it:
                it.seek(0)
                said.append(it.read().decode(errors="replace").replace("\r", ""))
        return status, *said

    def match(self, what, one, two, *options, ports=None, secret=False):
        """A match to its end: both players have to print the same."""
        ports = ports or free_ports()
        astray = [ports[0], free_ports()[0]] if secret else ports
        players = [self.start(1, one, astray, *options), self.start(2, two, ports, *options)]
        self.both(what, players)

    def both(self, what, players):
        for number, ran in enumerate(players, 1):
            status, said, errors = self.ended(ran, f"{what}: player {number}")
            if (status, said) != (0, f"{PLAYED}\n"):
                raise Failed(f"{what}: player {number}: status {status}: {said} {errors}")

    def end(self):
        """Ends what a part left running."""
        for ran in self.running:
            ran.kill()
            ran.wait()
        self.running = {}

    def start_wine(self):
        """Wine's server stays, so that not each program waits for a new one."""
        if not self.has_wine:
            self.has_wine = True
            os.makedirs(self.environment["WINEPREFIX"], exist_ok=True)
            self.server("--persistent")

    def stop_wine(self):
        if self.has_wine:
            self.server("--kill")
            self.server("--wait")

    def server(self, word):
        quiet = {"stdin": subprocess.DEVNULL, "stdout": subprocess.DEVNULL, "stderr": subprocess.DEVNULL}
        subprocess.run(["wineserver", word], env=self.environment, check=False, **quiet)


def free_ports():
    """Two ports that nobody uses now."""
    sockets = [socket.socket(socket.AF_INET, socket.SOCK_DGRAM) for _ in range(2)]
    for it in sockets:
        it.bind(("127.0.0.1", 0))
    ports = [it.getsockname()[1] for it in sockets]
    for it in sockets:
        it.close()
    return ports


def same(what, came, wanted):
    if came != wanted:
        raise Failed(f"{what}: {came!r} in place of {wanted!r}")


def read(path):
    with open(path, "rb") as it:
        return it.read()
