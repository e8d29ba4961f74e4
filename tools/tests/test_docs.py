"""Every command in the docs is run: each ```sh block of every page, as one script at the root.

A ```text block right after it is what it must print. Those that run elsewhere are listed here with the reason, and
each is named in the output; so nothing is passed over in silence.
"""
import glob
import os
import re
import subprocess
import tempfile

import decided
from functions import PROOFS, in_crate, proofs_of
from named import pages, read

# Commands that are not run here, and why.
ELSEWHERE = {
    "./test": "it is what runs these tests",
    "bench/run": "the bench's tests run it",
    "bench/run --check": "the bench's tests run it",
    "bench/run --write": "the bench's tests run it, to another folder",
    "tools/tests/run": "it is what runs these tests",
}
# For a quick run by hand: words that begin commands to leave out, as DOCS_WITHOUT="rt bench/run".
WITHOUT = os.environ.get("DOCS_WITHOUT", "").split()
LONGEST = 1200  # seconds for one block
FENCE = re.compile(r"^```(\w*)[ \t]*\n(.*?)^```[ \t]*$", re.M | re.S)


def blocks_of(page):
    """(line, script, what it must print or None) of each sh block of a page."""
    text = read(page)
    fences = list(FENCE.finditer(text))
    for this, after in zip(fences, fences[1:] + [None]):
        if this[1] != "sh":
            continue
        follows = after and after[1] == "text" and not text[this.end():after.start()].strip()
        yield text.count("\n", 0, this.start()) + 1, this[2], after[2] if follows else None


def reason_against(line):
    for command, why in ELSEWHERE.items():
        if line == command:
            return why
    if line.split()[:1] and line.split()[0] in WITHOUT:
        return "left out by DOCS_WITHOUT"
    return None


def script_of(where, script):
    """The lines to run; the others are named."""
    run = []
    for line in script.splitlines():
        why = reason_against(line.split(" #")[0].strip())
        if why:
            print(f"       {where}: not run here: {line.strip()} ({why})")
        else:
            run.append(line)
    return "\n".join(run).strip()


def tree():
    return subprocess.run(["git", "status", "--porcelain"], capture_output=True, text=True, check=True).stdout


def run_page(page, faults):
    """Runs the blocks of a page, in their order; gives how many there were."""
    ran = 0
    for line, script, wanted in blocks_of(page):
        where = f"{page}:{line}"
        script = script_of(where, script)
        if not script:
            continue
        done = subprocess.run(["bash", "-euo", "pipefail", "-c", script], stdin=subprocess.DEVNULL, capture_output=True, text=True, timeout=LONGEST, check=False)
        ran += 1
        if done.returncode:
            faults.append(f"{where}: exit status {done.returncode}: {(done.stderr or done.stdout).strip()[-400:]}")
        elif wanted is not None and done.stdout != wanted:
            faults.append(f"{where}: it printed\n{done.stdout[-2000:]}")
    return ran


def test_every_command_in_the_docs():
    before, faults = tree(), []
    ran = sum(run_page(page, faults) for page in pages())
    print(f"       {ran} blocks run")
    assert not faults, "\n" + "\n".join(faults)
    assert ran, "no block found"
    assert tree() == before, "the commands changed the tree"


def test_a_block_ends_at_its_first_command_that_fails():
    """So nothing is said of a later command where an earlier one tells of something."""
    with tempfile.TemporaryDirectory() as folder:
        page, made = (os.path.join(folder, name) for name in ("page.md", "made"))
        with open(page, "w", encoding="utf-8") as file:
            file.write(f"```sh\nfalse\ntouch {made}\n```\n")
        faults = []
        assert run_page(page, faults) == 1 and len(faults) == 1 and "page.md:1: exit status 1" in faults[0], faults
        assert not os.path.exists(made)


def test_commands_that_run_elsewhere_are_in_the_docs():
    lines = {line.strip() for page in pages() for _, script, _ in blocks_of(page) for line in script.splitlines()}
    assert set(ELSEWHERE) <= lines, set(ELSEWHERE) - lines


def test_every_page_is_taken():
    listed = subprocess.run(["git", "ls-files", "*.md"], capture_output=True, text=True, check=True).stdout.split()
    assert sorted(listed) == sorted(pages()), set(listed) ^ set(pages())


def slug(heading):
    """The name by which a link leads to a heading."""
    return re.sub(r"[^\w -]", "", heading.lower()).strip().replace(" ", "-")


def anchors_of(text):
    """The names in a page that a link can lead to: its anchors, and its headings by their slugs."""
    return {*re.findall(r'<a id="([^"]+)"></a>', text), *map(slug, re.findall(r"^#+ (.+)$", FENCE.sub("", text), re.M))}


def link_faults(page):
    """What is wrong in the links of a page: a file that is not there, an anchor that the file, or the page itself, has not."""
    faults = []
    for file, anchor in re.findall(r"\]\(([^)#:]*)(?:#([^)]*))?\)", read(page)):
        path = os.path.join(os.path.dirname(page), file) if file else page
        if not os.path.exists(path):
            faults.append(f"{page}: there is no {file}")
        elif anchor and anchor not in anchors_of(read(path)):
            faults.append(f"{page}: there is no #{anchor} in {file or 'it'}")
    return faults


def test_links_in_the_docs_lead_somewhere():
    faults = [fault for page in pages() for fault in link_faults(page)]
    assert not faults, "\n" + "\n".join(faults)


def test_links_that_lead_nowhere_are_told():
    with tempfile.TemporaryDirectory() as folder:
        page, other = (os.path.join(folder, name) for name in ("page.md", "other.md"))
        with open(page, "w", encoding="utf-8") as file:
            file.write("# A `page` (one)\n[a](#a-page-one) [b](#d1) [c](other.md) [d](other.md#d1) [e](other.md#d2) [f](another.md#d1) [g](https://a.b/#d1)\n")
        with open(other, "w", encoding="utf-8") as file:
            file.write('<a id="d1"></a>**D1.** One.\n```sh\n# d2\n```\n')
        assert link_faults(page) == [f"{page}: there is no #d1 in it", f"{page}: there is no #d2 in other.md", f"{page}: there is no another.md"], link_faults(page)


def test_every_decision_has_its_anchor():
    """On the page where it stands; and D1, D2, … to the last in DECISIONS.md, which says where each stands."""
    for page in decided.PAGES:
        missing = {number.lower() for number in decided.decisions_in(read(page))} - anchors_of(read(page))
        assert not missing, f"{page}: there is no {missing}"
    last = max(int(number[1:]) for number in decided.decisions())
    missing = {f"d{number}" for number in range(1, last + 1)} - anchors_of(read(decided.PAGES[0]))
    assert not missing, f"{decided.PAGES[0]}: there is no {missing}"


def test_fences_are_sh_or_text():
    """A command in an untagged fence would be run by nobody."""
    for page in pages():
        for fence in FENCE.finditer(read(page)):
            assert fence[1] in ("sh", "text"), f"{page}: a fence of kind '{fence[1]}': {fence[2][:60]}"


def test_files_that_the_docs_name_are_there():
    for page in pages():
        for path in re.findall(r"\b(crates/[\w./-]*\w|(?:tools|oracle|bench)/[\w./-]+\.(?:rs|py))\b", read(page)):
            assert os.path.exists(path), f"{page}: {path}"


def test_must_fail_edits_that_the_docs_name_are_there():
    for page in pages():
        for names in re.findall(r"must-fail ((?:[a-z_]+/\w+(?:, )?)+)", read(page)):
            for crate, edit in re.findall(r"([a-z_]+)/(\w+)", names):
                assert os.path.exists(f"crates/{crate}/must-fail/{edit}.edit"), f"{page}: must-fail {crate}/{edit}"


def test_proofs_stand_where_the_docs_say():
    """That of a method goes by the module of its type (functions.py); a folder in capitals is a type."""
    for path in (path for file in PROOFS for path in glob.glob(f"crates/*/proofs/**/{file}", recursive=True)):
        crate, folders = re.fullmatch(r"crates/(\w+)/proofs/(.+)/\w+\.antt", path).groups()
        name = "::".join(re.search(r"(?:([A-Z]\w*)/)?(\w+)$", folders).groups("")).removeprefix("::")
        assert in_crate(crate, name) and path in proofs_of(crate, name), path
