"""What calls cost on each system that is here, by bench.c and bench.mjs: the table of docs/PERFORMANCE.md."""
import re
import shutil

from bench import ARM, LINUX, TOP, WINDOWS, Failed, lacking, read
from page import MODULES, Pages, lacks_pages

# Each system is measured this often, in turn with the others; the least counts.
RUNS = 5
# A rollback in a page takes at most so many times as long as in a program. The places of such calls among those of bench.c.
MOST, ROLLBACKS = 2, (2, 4)
GAME = f"{TOP}/games/bench/rollback.game"


def costs(bench):
    """Prints the table. Fails if a rollback in a page takes more than twice the time of a program for Linux."""
    if why := lacking(LINUX):
        return why
    measures, lacks = {}, []
    for name, system in (("Linux", LINUX), ("Windows, by wine", WINDOWS), ("ARM, by qemu", ARM)):
        if why := lacking(system):
            lacks.append(why)
        else:
            measures[name] = lambda words=bench.build(system, "bench"): bench.run(*words, GAME)
    if why := lacks_pages(bench):
        lacks.append(why)
    else:
        pages = Pages(bench)
        for module in MODULES:
            measures[f"node, `{module}`"] = lambda module=module: pages.in_node("bench", module, GAME)
    found, calls = {}, []
    for _ in range(RUNS):
        said = {name: measure() for name, measure in measures.items()}
        if not lacks_pages(bench) and shutil.which("chromium"):
            said.update({f"Chromium, `{module}`": it for module, it in pages.in_chromium("bench", read(GAME).decode()).items()})
        for name, it in said.items():
            lines = re.findall(r"(?m)^ *([\d.]+) ns  (.*)$", it)
            calls = calls or [call for _, call in lines]
            if it and [call for _, call in lines] != calls:
                raise Failed(f"{name} measures other calls: {it}")
            found.setdefault(name, []).append([float(cost) for cost, _ in lines])
    least = {name: [min(costs) for costs in zip(*runs)] for name, runs in found.items() if runs[0]}
    print(f"| one call, ns | {' | '.join(calls)} |\n|{'---|' * (len(calls) + 1)}")
    for name, row in least.items():
        print(f"| {name} | {' | '.join(f'{it:.0f}' if it >= 100 else f'{it:.1f}' for it in row)} |")
    slow = [f"{name}, {calls[it]}" for name, row in least.items() for it in ROLLBACKS
            if name.startswith("Chromium") and row[it] > MOST * least["Linux"][it]]
    if slow:
        raise Failed(f"a rollback takes more than {MOST} times as long as on Linux: {slow}")
    return f"in part: {', '.join(lacks)}" if lacks else ""
