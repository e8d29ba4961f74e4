"""docs/PROMISES.md: a line for every public function, with two wrong programs and the goals that refuse them, and a line for every must-fail edit.

The functions stand in a chapter for each crate, in the order of crates.txt; the names in a function's line are definitions or the lemmas of OnlyOne.
In what refuses a program, a goal is one of those that the check has of its function (`rt names` lists them), a step of a proof stands in its files
(functions.py says where), and a law where it says (named.py has the form).
"""
import glob
import os
import re

from functions import goals_of, in_crate, proofs_of, sources
from named import Told, in_definitions, read

PAGE = "docs/PROMISES.md"
EDITS = "Where a must-fail edit is refused"


def functions_in(text):
    """The public functions of a file but main: `f`, and `T::f` of an `impl T`, each with what stands before its body."""
    owner = None
    for found in re.finditer(r"^(?:impl(?:<[^>]*>)? (\w+).*|\}|( *)pub fn (\w+)((?:.|\n)*?)(?:^\2|(?<!ensures)(?<!requires) )\{)$", text, re.M):
        if found[3] and found[3] != "main":
            yield f"{owner}::{found[3]}" if found[2] else found[3], found[4]
        elif not found[3]:
            owner = found[1]


def public_functions(crate):
    return dict(function for path in sources(crate) for function in functions_in(read(path)))


def chapters(page):
    """(title, lines) of each."""
    for part in re.split(r"^## ", page, flags=re.M)[1:]:
        title, *lines = part.splitlines()
        yield title, lines


def functions_told(lines):
    """Each function's name with the names in its line, and its wrong programs."""
    told = []
    for line in lines:
        found = re.match(r"- `([\w:]+)`: (.+)", line)
        if found:
            told.append((found[1], re.findall(r"`([A-Za-z][\w-]*)`", found[2]), []))
        elif re.match(r"  - .", line) and told:
            told[-1][2].append(line)
    return told


def defined(name):
    """A definition of some crate, or a lemma of its OnlyOne."""
    return any(in_definitions(read(path), name) for pattern in ("specs/*", "proofs/OnlyOne") for path in glob.glob(f"crates/*/{pattern}.antt"))


def has_step(proof, name):
    """A fact that a proof's file names, by itself or within an answer."""
    return in_definitions(proof, name) or re.search(rf"^ *let {re.escape(name)} :", proof, re.M)


def goal_fault(crate, function, goal, step):
    """What is wrong in a goal, or in a step, of a function's proof, or None."""
    if not function:
        return f"of which function is `{goal}`"
    if not in_crate(crate, function):
        return f"there is no `{function}` in {crate}"
    proofs = [read(path) for path in proofs_of(crate, function) if os.path.exists(path)]
    there = any(has_step(proof, goal) for proof in proofs) if step else goal in goals_of(crate, function)
    return None if there else f"there is no `{goal}` in the proof of `{function}`"


def goals_told(part, function):
    """(function, goal) for each goal: it is that of the function after the next `of`, or where there is none, of the line's own."""
    goals = []
    for of, name in re.findall(r"(\bof )?`([^`]+)`", part):
        if not of:
            goals.append(name)
        else:
            yield from ((name, goal) for goal in goals)
            goals = []
    yield from ((function, goal) for goal in goals)


def refused_faults(crate, where, refused, function=None):
    """What is wrong in what refuses a program: a function has that goal, a step of its proof stands there, a law where it says."""
    told = Told()
    for part in refused.split("; "):
        if "/proofs/" in part:
            told.look_up(where, part)
            continue
        found = [goal_fault(crate, *told_goal, "a step of its proof" in part) for told_goal in goals_told(part, function)]
        told.faults += [f"{where}: {fault}" for fault in found if fault]
    return told.faults


def promised(promise):
    return bool(re.search(r"^\s*ensures\b", promise, re.M)) and not re.search(r"^\s*requires\b", promise, re.M)


def crate_faults(crate, lines):
    told, wanted = functions_told(lines), public_functions(crate)
    names = [name for name, _, _ in told]
    faults = [f"{crate}: `{name}` has no ensures, or a requires" for name, promise in wanted.items() if not promised(promise)]
    faults += [f"{crate}: no line for `{name}`" for name in wanted if name not in names]
    faults += [f"{crate}: there is no public `{name}`" for name in names if name not in wanted]
    faults += [f"{crate}: two lines for `{name}`" for name in sorted(set(names)) if names.count(name) > 1]
    for name, definitions, wrong in told:
        faults += [f"{crate}: `{name}`: there is no definition `{word}`" for word in definitions if not defined(word)]
        faults += [] if len(wrong) == 2 else [f"{crate}: `{name}` has {len(wrong)} wrong programs"]
        for line in wrong:
            found = re.match(r"  - .+?: ([^:]*`.+)$", line)
            faults += refused_faults(crate, f"{crate}: `{name}`", found[1], name) if found else [f"{crate}: `{name}`: no goal refuses this:{line[3:]}"]
    return faults


def edit_faults(lines, there):
    edits, faults = [], []
    for line in lines:
        found = re.match(r"- (([a-z_]+)/\w+): (?:code|definition)[^:]*: .+?: ((?:`returns|`loop|[a-z_]+/proofs/).+)$", line)
        if found:
            edits.append(found[1])
            faults += refused_faults(found[2], found[1], found[3])
        elif line.startswith("-"):
            faults.append(f"not the line of an edit: {line}")
    faults += [f"no line for {edit}" for edit in there if edit not in edits] + [f"there is no {edit}" for edit in edits if edit not in there]
    return faults + [f"two lines for {edit}" for edit in sorted(set(edits)) if edits.count(edit) > 1]


def edits_there():
    return [f"{path.split('/')[1]}/{os.path.basename(path)[:-5]}" for path in sorted(glob.glob("crates/*/must-fail/*.edit"))]


def crates():
    return [line.split(":")[0] for line in read("crates.txt").splitlines() if re.match(r"\w+:", line)]


def page_faults(page, order, there):
    parts = dict(chapters(page))
    titles, wanted = [title for title in parts if title in order], [crate for crate in order if public_functions(crate)]
    faults = [] if titles == wanted else [f"chapters: {' '.join(titles)}; crates with public functions: {' '.join(wanted)}"]
    for crate in wanted:
        faults += crate_faults(crate, parts.get(crate, []))
    told = Told()
    for line in page.splitlines():
        if not re.match(r" *- ", line):
            told.look_up("text", line, placed=True)
        if line.startswith("| `"):
            faults += [f"text: there is no definition `{word}`" for word in re.findall(r"`(\w+)[^`]*`", line.split(" | ")[0]) if not defined(word)]
    return faults + told.faults + edit_faults(parts.get(EDITS, []), there)


def test_every_public_function_and_every_edit_has_its_line():
    faults = page_faults(read(PAGE), crates(), edits_there())
    count = sum(len(functions_told(lines)) for _, lines in chapters(read(PAGE)))
    print(f"       {count} public functions, {len(edits_there())} edits")
    assert not faults, "\n" + "\n".join(faults)
    assert count and edits_there()


RIGHT = """`A lemma`: ground/proofs/OnlyOne `only_one`
| `answered r store marks` | a lemma |
## answers
- `Refusal::number`: `number_of` (`only_both`).
  - another: `returns`
  - none: `returns` of `Refusal::number`
- `number`: a number, without a proof file.
  - another: `returns-in-Ok`
  - none: `returns-in-Err`
- `value`: a value.
  - another: `returns`
  - none: `returns`

## Where a must-fail edit is refused
- card/order_3_5: definition, code and proof: 5 before 3: card/proofs/FirstRow `first-row`; and `returns` of `verdict_of`
"""
# What is changed in it, and what is to be told.
WRONG = {
    ("`answered r", "`questioned r"): "text: there is no definition `questioned`",
    ("`number_of`", "`numbers_of`"): "answers: `Refusal::number`: there is no definition `numbers_of`",
    ("`only_both`", "`only_three`"): "answers: `Refusal::number`: there is no definition `only_three`",
    ("`only_one`", "`only_two`"): "text: no `only_two` in crates/ground/proofs/OnlyOne.antt",
    ("- `value`: a value", "- `worth`: a value"): "answers: no line for `value`",
    ("- `number`: a number", "- `Refusal::number`: a number"): "answers: two lines for `Refusal::number`",
    ("  - none: `returns` of `Refusal::number`\n", ""): "answers: `Refusal::number` has 1 wrong programs",
    ("  - none: `returns` of `Refusal::number`", "  - none: it is wrong"): "answers: `Refusal::number`: no goal refuses this: none: it is wrong",
    ("of `Refusal::number`", "of `Refusal::value`"): "answers: `Refusal::number`: there is no `Refusal::value` in answers",
    ("`returns` of `Refusal::number`", "`returns-99`"): "answers: `Refusal::number`: there is no `returns-99` in the proof of `Refusal::number`",
    ("`returns` of `Refusal::number`", "`walk`, a step of its proof"): "answers: `Refusal::number`: there is no `walk` in the proof of `Refusal::number`",
    ("## answers", "## Answers"): "chapters: ; crates with public functions: answers",
    ("order_3_5", "order_5_3"): "no line for card/order_3_5",
    ("`first-row`", "`last-row`"): "card/order_3_5: no `last-row` in crates/card/proofs/FirstRow.antt",
    ("`verdict_of`", "`verdict_by`"): "card/order_3_5: there is no `verdict_by` in card",
    ("`returns` of `verdict_of`", "`returns-1` and `returns` of `verdict_of`"): "card/order_3_5: there is no `returns-1` in the proof of `verdict_of`",
    ("`returns` of `verdict_of`", "`returns`"): "card/order_3_5: of which function is `returns`",
    ("card/order_3_5: definition", "card/order_3_5, definition"): "no line for card/order_3_5",
}


def test_what_is_wrong_in_promises_is_told():
    there = ["card/order_3_5"]
    assert not page_faults(RIGHT, ["answers"], there), page_faults(RIGHT, ["answers"], there)
    for (old, new), fault in WRONG.items():
        assert RIGHT.count(old) == 1, old
        assert fault in page_faults(RIGHT.replace(old, new), ["answers"], there), (new, page_faults(RIGHT.replace(old, new), ["answers"], there))


def test_a_public_function_with_no_promise_is_told():
    code = "impl T {\n    pub fn f(self) -> u8\n        ensures { result ≡ 0 }\n    {\n        0\n    }\n}\n\npub fn g(n: u8) -> u8 {\n    n\n}\n\npub fn main() {\n}\n"
    found = dict(functions_in(code))
    assert list(found) == ["T::f", "g"], found
    assert promised(found["T::f"]) and not promised(found["g"])
    assert not promised("\n    requires { n < 2 }\n    ensures { result ≡ 0 }\n")
