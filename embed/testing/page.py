"""The module of a page, in node and in Chromium: the example, random calls, ten games of 4,000 turns, and what calls cost."""
import functools
import glob
import http.server
import json
import os
import shutil
import sys
import threading

from bench import EMBED, LIBRARIES, LINUX, TOP, Failed, lacking, read, same

sys.path.append(f"{TOP}/web/testing")
from chromium import Chromium  # noqa: E402

PAGES, ENGINE = f"{TOP}/out/pages", f"{TOP}/crates/c8_engine/out/module.bc"
MODULES = ("c8-32.wasm", "c8.wasm")
# An engine gets this share of the random calls.
SHARE = 10
# node 20 reads a memory of 64 bits only if asked
ASKED, READS = ["--experimental-wasm-memory64"], "process.exit(WebAssembly.validate(require('fs').readFileSync(process.argv[1])) ? 0 : 1)"


class Quiet(http.server.SimpleHTTPRequestHandler):
    """Serves a folder, and prints nothing."""
    extensions_map = {**http.server.SimpleHTTPRequestHandler.extensions_map, ".mjs": "text/javascript", ".wasm": "application/wasm"}

    def log_message(self, *_):
        pass


class Pages:
    """A folder with modules and scripts, for node and for a browser."""

    def __init__(self, bench):
        self.bench, self.folder = bench, f"{bench.folder}/pages"
        os.makedirs(self.folder, exist_ok=True)
        for path in ("web/c8.mjs", "web/testing/agree.mjs", "embed/example.mjs", "embed/testing/random.mjs", "embed/testing/replay.mjs",
                     "embed/testing/bench.mjs", *(f"out/pages/{it}" for it in MODULES)):
            shutil.copyfile(f"{TOP}/{path}", f"{self.folder}/{os.path.basename(path)}")
        with open(f"{self.folder}/index.html", "w", encoding="utf-8") as it:
            it.write("<!doctype html>\n<title>c8</title>\n")

    def in_node(self, script, module, *words):
        """What a script prints in node; nothing if this node cannot read the module."""
        path = f"{self.folder}/{module}"
        for flags in ([], ASKED):
            ran = self.bench.begin(["node", *flags, "-e", READS, path], self.bench.environment)
            if self.bench.ended(ran, "node")[0] == 0:
                return self.bench.run("node", *flags, f"{self.folder}/{script}.mjs", path, *words)
        return ""

    def in_chromium(self, script, *words):
        """What the function of a script's name gives in a page, for each module."""
        server = http.server.ThreadingHTTPServer(("127.0.0.1", 0), functools.partial(Quiet, directory=self.folder))
        threading.Thread(target=server.serve_forever, daemon=True).start()
        browser = Chromium()
        try:
            page = browser.page(f"http://127.0.0.1:{server.server_port}/index.html")
            if not page.until("document.title === 'c8'"):
                raise Failed("Chromium does not show a page")
            more = "".join(f", {json.dumps(it)}" for it in words)
            return {it: page.value(f"""(async () => {{
                const {{ {script} }} = await import('/{script}.mjs');
                return {script}(await (await fetch('/{it}')).arrayBuffer(){more}); }})()""") for it in MODULES}
        except (EOFError, TimeoutError, RuntimeError) as error:
            raise Failed(f"{script} in Chromium: {error!r}") from error
        finally:
            browser.close()
            server.shutdown()


def lacks_pages(bench):
    """What the module of a page lacks here; it is made if it is missing, or older than the engine."""
    if not shutil.which("node"):
        return "no node"
    last = f"{PAGES}/{MODULES[0]}"
    if os.path.exists(ENGINE) and not (os.path.exists(last) and os.path.getmtime(last) >= os.path.getmtime(ENGINE)):
        bench.run(f"{TOP}/tools/page")
    return "" if os.path.exists(last) else "no wasm-ld or no wasm-opt"


def page(bench):
    if why := lacks_pages(bench) or lacking(LINUX):
        return why
    games, pages = sorted(glob.glob(f"{TOP}/games/*.game")), Pages(bench)
    library = f"{LIBRARIES}/{LINUX.library}"
    bench.run("cc", "-std=c99", "-O1", "-Wall", "-Wextra", "-Werror", f"-I{EMBED}", f"{TOP}/web/testing/agree.c", library, "-o", "agree")
    wanted, calls = bench.run(f"{bench.folder}/agree", *games), bench.calls // SHARE
    fine, lacks = f"random: {calls} calls, fine\n", []
    for module in MODULES:
        said = pages.in_node("example", module)
        if not said:
            lacks.append(f"node does not read {module}")
            continue
        same(f"the example with {module}", said, read(f"{EMBED}/example.out").decode())
        same(f"the games with {module}", pages.in_node("agree", module, *games), wanted)
        same(f"random calls with {module}", pages.in_node("random", module, str(calls)), fine)
        same(f"a replay with {module}", pages.in_node("replay", module), "replay: fine\n")
    if not shutil.which("chromium"):
        lacks.append("no chromium")
    else:
        same("random calls in Chromium", pages.in_chromium("random", calls), dict.fromkeys(MODULES, fine))
        bench.run(f"{TOP}/web/test", "--only", "agree", env=dict(os.environ))
    return f"in part: {', '.join(lacks)}" if lacks else ""
