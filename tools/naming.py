"""Which names the files of the repository have: for tools/docs, which compares the documents with them."""
import os
import re

TOP = os.path.dirname(os.path.dirname(os.path.realpath(__file__)))
# The kinds of datagrams, and how code and definitions name one.
KINDS = "Hello|Welcome|Data|Freeze|Frozen|Cut|Show|Seen"
NAMES_OF_KINDS = rf"\b(?:DatagramKind|Datagram|Body|Kind|kinds)(?:::|\.)({KINDS})\b", rf"(?m)^\w+ (?:.* )?\(?(?:\w+\.)?({KINDS})\b[^=\n]*="
# The same outside the crates, where names have other forms: C8_CUT, Kind::Cut, "cut".
OUTSIDE = re.compile(r"(?:embed|web|tools|games)/(?:[\w.]+/)*[\w-]+(?:\.(?:c|h|hpp|py|rs|mjs))?$")
NAMES_OUTSIDE = rf"\b(?:C8_)?({KINDS.upper()})\b|\bKind::({KINDS})\b|\bBody::({KINDS})\b|[\"'`]({KINDS.lower()})[\"'` ]"
# How many kinds a file names that has a case for most.
MOST_KINDS = 4


def read(path):
    with open(f"{TOP}/{path}", encoding="utf-8", errors="replace") as it:
        return it.read()


def words_of(files):
    """All words of the repository outside its documents, those of the names of files among them."""
    found = set()
    for path in files:
        found.update(re.findall(r"\w+", path))
        if not path.endswith(".md"):
            found.update(re.findall(r"\w+", read(path)))
    return found


def functions_of(files):
    """For each crate the types that its sources name, and the functions that they have."""
    found = {}
    for path in files:
        crate = re.match(r"crates/(\w+)/src/.*\.rt$", path)
        if crate:
            text = read(path)
            words, functions = found.setdefault(crate[1], (set(), set()))
            words.update(re.findall(r"\b[A-Z]\w+", text))
            functions.update(re.findall(r"\bfn (\w+)", text))
    return found


def place_in_crate(path):
    """The crate, the name and the ending of a file of code or believed definitions; nothing of any other file."""
    return re.match(r"crates/(\w+)/(?:src|specs)/(?!checked)(?:\w+/)*(\w+)\.(rt|antt)$", path)


def has_kinds(path):
    """Whether a file has a case for most kinds of datagrams. Lemmas do not count."""
    place = place_in_crate(path)
    if not place and not OUTSIDE.match(path):
        return False
    return len(set(re.findall(NAMES_OF_KINDS[place[3] == "antt"] if place else NAMES_OUTSIDE, read(path)))) >= MOST_KINDS


def is_named(path, section):
    """Whether a section names a file: behind its crate, or by its path, that of a folder, or its last part."""
    place = place_in_crate(path)
    if place:
        return re.search(rf"\b{place[1]}\b(?:(?!\bc8_).|\b{place[1]}\b)*\b{place[2]}\b", section, re.S)
    names, folder = [rf"`{re.escape(os.path.basename(path))}`"], path
    while "/" in folder:
        names.append(rf"(?<![\w/]){re.escape(folder)}(?![\w/])")
        folder = os.path.dirname(folder)
    return any(re.search(it, section) for it in names)
