"""docs/PROOFS.md: a theorem that a table gives with a file is public there; so is a name that any page gives with a path, as `name` (crates/…) or `name` in crates/….

In a table, a file without a crate is one of the path before it in the row, or else of the last folder crates/… that the page named; it stands in
proofs/, if nothing else is said. A name that is a definition or a function of any crate, and another row's theorem, may be named, and so may a law of one word.
"""
import os
import re

from named import elsewhere, pages, read, stands_in

PAGE = "docs/PROOFS.md"
FOLDER = re.compile(r"\bcrates/([a-z_]+)(?:/proofs)?(?![\w/])")
TOKEN = re.compile(r"`(?P<name>[^`]+)`|\b(?:crates/(?P<crate>[a-z_]+)/)?(?:(?P<part>specs|proofs|src)/)?(?P<file>\w+\.(?:antt|rt))\b|(?P<same>the same file)")
IN_TEXT = re.compile(r"((?:`[^`\n]+`(?:, and |, | and )?)+)(?: \(| in `?)(crates/[\w/]+\.(?:antt|rt))\b")


def public(path, name):
    return bool(re.match(r" *(?:\w+ )*?pub ", stands_in(path, name.split()[0]) or ""))


def rows_of(page):
    """(line, names, files) of each row of a table that names a file."""
    crate, files = None, []
    for number, line in enumerate(page.splitlines(), 1):
        crate = (FOLDER.findall(line) or [crate])[-1]
        names, before, files = [], files, []
        for token in TOKEN.finditer(line[:line[:-1].rfind(" | ")] if line.startswith("|") else ""):
            if token["name"]:
                names.append(token["name"])
            elif token["same"]:
                files += before[:1]
            else:
                of = token["crate"] or (files[-1].split("/")[1] if files else crate)
                files.append(f"crates/{of}/{token['part'] or 'proofs'}/{token['file']}")
        if files:
            yield number, names, files


def known(name):
    """A definition or a function, or a law of one word."""
    places = ("specs/*.antt", "src/*.rt") if re.search("[-_]", name) else ("specs/*.antt", "proofs/*.antt", "src/*.rt")
    return bool(elsewhere("*", name, places))


def table_faults(page):
    rows = list(rows_of(page))
    given = {name for _, names, files in rows for name in names if any(public(path, name) for path in files)}
    faults = [f"line {line}: there is no {path}" for line, _, files in rows for path in files if not os.path.exists(path)]
    for line, names, files in rows:
        faults += [f"line {line}: no public `{name}` in {', '.join(files)}" for name in names if name not in given and not known(name)]
    return faults, len(given)


def text_faults(text):
    told = [(name, path) for names, path in IN_TEXT.findall(text) for name in re.findall(r"`([^`]+)`", names)]
    return [f"no public `{name}` in {path}" for name, path in told if not public(path, name)]


def test_names_of_the_tables_stand_in_their_files():
    faults, given = table_faults(read(PAGE))
    print(f"       {given} names")
    assert not faults, "\n" + "\n".join(faults)
    assert given


def test_names_with_a_path_stand_there():
    for page in pages():
        assert not text_faults(read(page)), (page, text_faults(read(page)))


RIGHT = """Of tables in crates/laws:
| no rule | statement | wrong |
| a rule | `coded_kept`, of `Machine` (Coded.antt); by the offset (specs/ByOffset.antt); `first-row` says which | a wrong `card` |
| a rule | `first-row` | crates/card/proofs/FirstRow.antt, each test in specs/Rows.antt | another |
| a rule | `opening_first_row` | the same file | another |
"""
# What is changed in it, and what is to be told.
WRONG = {
    ("`coded_kept`", "`coded_lost`"): "line 3: no public `coded_lost` in crates/laws/proofs/Coded.antt, crates/laws/specs/ByOffset.antt",
    ("`Machine`", "`Mechanic`"): "line 3: no public `Mechanic` in crates/laws/proofs/Coded.antt, crates/laws/specs/ByOffset.antt",
    ("(Coded.antt)", "(Encoded.antt)"): "line 3: there is no crates/laws/proofs/Encoded.antt",
    ("crates/laws", "crates/card"): "line 3: there is no crates/card/proofs/Coded.antt",
    ("| `first-row` |", "| `last-row` |"): "line 3: no public `first-row` in crates/laws/proofs/Coded.antt, crates/laws/specs/ByOffset.antt",
    ("specs/Rows", "specs/Columns"): "line 4: there is no crates/card/specs/Columns.antt",
    ("`opening_first_row`", "`opening_last_row`"): "line 5: no public `opening_last_row` in crates/card/proofs/FirstRow.antt",
}


def test_what_is_wrong_in_the_tables_is_told():
    assert table_faults(RIGHT) == ([], 3), table_faults(RIGHT)
    for (old, new), fault in WRONG.items():
        assert RIGHT.count(old) == 1, old
        assert fault in table_faults(RIGHT.replace(old, new))[0], (new, table_faults(RIGHT.replace(old, new)))
    text = "`sound_kept` and `well_kept` (crates/kept/proofs/Step.antt); `reshaped` in `crates/geometry/specs/Shape.antt`, "
    assert not text_faults(text), text_faults(text)
    assert text_faults(text.replace("well", "ill").replace("`resh", "`unsh")) == ["no public `ill_kept` in crates/kept/proofs/Step.antt", "no public `unshaped` in crates/geometry/specs/Shape.antt"]
