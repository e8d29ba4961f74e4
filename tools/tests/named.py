"""Names in the docs are looked for where the docs say that they stand.

Up to the next `;`, a place holds for the names in backticks after it:

    crate/File            crates/crate/specs/File.antt
    crate/proofs/File     crates/crate/proofs/File.antt
    crate/src/file        crates/crate/src/file.rt

A name is a definition, law, record, field or case that begins its own line there, in code a function (`T::f` in an `impl T`, `TFromS::f`
in an `impl From<S> for T`, as the check names it), enum, struct, variant or constant. Words after it, as in `obeyed Sense`, stand in its text.
A name with no place before it is a crate or a path from the root.
"""
import functools
import glob
import os
import re

PLACE = r"[a-z_]+/(?:(?:proofs/)?[A-Z]\w*|src/[a-z_]+)"
TOKEN = re.compile(rf"`(?P<name>[^`]+)`|(?<![\w/.])(?P<place>{PLACE})(?![\w/])|(?<![\w/.])(?P<other>[a-z_]+/[\w.-]*\w)|(?P<stop>;)")


def read(path):
    with open(path, encoding="utf-8") as file:
        return file.read()


def pages():
    return ["README.md", *(page for folder in ("docs", "bench", "oracle", "sessions") for page in sorted(glob.glob(f"{folder}/**/*.md", recursive=True)))]


def path_of(place):
    crate, *inside = place.split("/")
    if inside[0] == "src":
        return f"crates/{crate}/src/{inside[1]}.rt"
    return f"crates/{crate}/{'/'.join(inside) if len(inside) > 1 else 'specs/' + inside[0]}.antt"


def text_from(text, at):
    """From a place up to the next empty line."""
    return text[at:].split("\n\n")[0]


def in_definitions(text, name):
    """The text of a definition, law, record, field or case of an .antt file; None where no line begins its signature."""
    begins = rf"^ *(?:(?:abbrev|unfoldable|opaque) )*(?:pub )?(?:(?:record|data) )?{re.escape(name)}(?: [^:=\n]*| [({{][^=\n]*)? :(?: |$)"
    found = re.search(begins, text, re.M)
    return text_from(text, found.start()) if found else None


def in_code(text, name):
    """The text of a function, enum, struct, variant or constant of an .rt file."""
    if "::" in name:
        owner, name = name.split("::")
        impls = re.finditer(r"^impl(?:<[^>]*>)? (?:(\w+)(?:<(\w+)>)? for )?(\w+)\b.*?^}", text, re.M | re.S)
        parts = [found[0] for found in impls if f"{found[3]}{found[1] or ''}{found[2] or ''}" == owner]
        begins = rf"^    (?:pub(?:\(crate\))? )?fn {re.escape(name)}\b"
    else:
        parts = [text]
        begins = rf"^(?:pub(?:\(crate\))? )?(?:fn|enum|struct|const) {re.escape(name)}\b|^    {re.escape(name)}(?:\([^)]*\))?,$"
    for part in parts:
        found = re.search(begins, part, re.M)
        if found:
            return text_from(part, found.start())
    return None


def stands_in(path, name):
    return (in_code if path.endswith(".rt") else in_definitions)(read(path), name) if os.path.exists(path) else None


@functools.lru_cache
def elsewhere(crate, name, patterns=("specs/*.antt", "proofs/*.antt", "src/*.rt")):
    """Where else the name stands: in files of the crate, or if in none, of any."""
    for crates in (crate, "*"):
        paths = [path for pattern in patterns for path in sorted(glob.glob(f"crates/{crates}/{pattern}"))]
        found = [path for path in paths if stands_in(path, name)]
        if found:
            return ", but in " + ", ".join(found)
    return ""


def name_fault(name, place):
    """What is wrong in a name at a place, or None."""
    path = path_of(place)
    name, *words = name.split()
    found = stands_in(path, name)
    if found is None:
        return f"no `{name}` in {path}{elsewhere(place.split('/')[0], name)}"
    for word in words:
        if not re.search(rf"(?<![\w-]){re.escape(word)}(?![\w-])", found):
            return f"no {word} in `{name}` of {path}"
    return None


def path_fault(path):
    """What is wrong in a path: a session, a must-fail edit, or a file or folder of the root."""
    crate, _, name = path.partition("/")
    if crate == "sessions" and name:
        missing = [f"{path}{end}" for end in (".session", ".txt") if not os.path.exists(path + end)]
    elif os.path.isdir(f"crates/{crate}") and name:
        missing = [] if os.path.exists(f"crates/{crate}/must-fail/{name}.edit") else [f"crates/{crate}/must-fail/{name}.edit"]
    else:
        missing = [] if os.path.exists(path) else [path]
    return f"there is no {missing[0]}" if missing else None


class Told:
    """How many places, names and paths of a text were looked up, and what is wrong."""

    def __init__(self):
        self.places = self.names = self.paths = 0
        self.faults = []

    def look_up(self, where, text, placed=False):
        """With `placed`, only the names that have a place."""
        place = None
        for token in TOKEN.finditer(text):
            fault = None
            if token["stop"]:
                place = None
            elif token["place"]:
                place = token["place"]
                self.places += 1
                fault = None if os.path.exists(path_of(place)) else f"there is no {path_of(place)}"
            elif token["other"]:
                self.paths += 1
                fault = path_fault(token["other"])
            elif place and "/" not in token["name"]:
                self.names += 1
                fault = name_fault(token["name"], place)
            elif not placed:
                self.paths += 1
                fault = None if os.path.isdir(f"crates/{token['name']}") else path_fault(token["name"])
            if fault:
                self.faults.append(f"{where}: {fault}")
