"""tools/cost: on a small tree whose numbers are known, and on this one."""
import os
import subprocess
import sys
import tempfile

TREE = {
    "crates.txt": "# comment\nlow:\nhigh: low\n",
    "crates/low/src/lib.rt": "// a comment\n#![tactic(auto)]\n\nghost use a.b;\n\n#[tactic(\n    auto,\n    using(a)\n)]\npub fn one(x: u8) -> u8\n    requires { x < 3 }\n    ensures {\n        result ≡ x\n    }\n{\n    x\n}\n\nfn two() {\n}\n",
    "crates/low/specs/Lib.antt": "pub mod A\n",
    "crates/low/specs/A.antt": "-- why\nuse x.{y}\n\npub a : b\na = c\n",
    "crates/low/proofs/Law.antt": "use x.{y}\n-- why\nlaw : a\nlaw = b\n",
    "crates/low/proofs/one/Answers.antt": "use x.{y}\nuse z as goal\n\n-- src/lib.rt:1:1\npub overflow_add-x : goal.overflow_add-x\noverflow_add-x c = search rules\n\npub loop-x-init : goal.loop-x-init\nloop-x-init c = search rules\n\npub returns : goal.returns\nreturns c =\n    search (rules, y)\n",
    "crates/low/proofs/one/Invariants.antt": "use x.{y}\nuse z as goal\n\nabbrev pub invariant-loop-x : goal.invariant-loop-x\ninvariant-loop-x l = y l\n",
    "crates/low/must-fail/wrong.edit": "# x\n",
    "crates/high/src/main.rt": "fn main() {\n}\n\npub(crate) fn inner() {\n}\n",
}
# What an older toolchain printed, and what this one does, which gives no seconds.
LOG = "rt: low proved (8 s)\nrt: high proved (11 s)\nrt: must-fail low/wrong: refused, as it must be (first at proofs/one/Proof.antt:75:5; 16 s)\n2 passed, 0 failed\n"
LOG_OF_TODAY = "rt: low proved\nrt: high is kept: an earlier run on this machine proved the same files\nrt: must-fail low/wrong.edit: refused, as it must be: proofs/one/Answers.antt:75:5: error (3 s) there\n3 passed, 0 failed\n"


def call(*words):
    return subprocess.run([sys.executable, "tools/cost", *words], capture_output=True, text=True, check=False)


def cells(line):
    return [cell.strip() for cell in line.strip("|").split("|")]


def test_a_tree_with_known_numbers():
    with tempfile.TemporaryDirectory() as root:
        for name, text in {**TREE, "log": LOG, "today": LOG_OF_TODAY, "other": "nothing\n", "failed": "rt: low NOT PROVED\n"}.items():
            os.makedirs(os.path.dirname(os.path.join(root, name)), exist_ok=True)
            with open(os.path.join(root, name), "w", encoding="utf-8") as file:
                file.write(text)
        lines = call(os.path.join(root, "log"), "--root", root).stdout.splitlines()
        assert cells(lines[2]) == "low 2 1 6 4 2 14 3 2 1 8 16".split(), lines[2]
        assert cells(lines[3]) == "high 2 0 4 0 0 0 0 0 0 11 –".split(), lines[3]
        assert cells(lines[4]) == "**all** 4 1 10 4 2 14 3 2 1 19 16".split(), lines[4]
        assert cells(call("--root", root).stdout.splitlines()[2])[-2:] == ["–", "–"]
        today = call(os.path.join(root, "today"), "--root", root)
        assert today.returncode == 0 and [cells(line)[-2:] for line in today.stdout.splitlines()[2:]] == 3 * [["–", "–"]], today
        with open(os.path.join(root, "binary"), "wb") as file:
            file.write(b"\x7fELF\xff\xfe")
        for wrong, status in (("other", 1), ("failed", 1), ("none", 2), ("binary", 1)):
            done = call(os.path.join(root, wrong), "--root", root)
            assert done.returncode == status and done.stderr.startswith("cost: ") and done.stderr.count("\n") == 1, (wrong, done)


def test_this_tree_has_a_row_for_each_crate():
    done = call()
    with open("crates.txt", encoding="utf-8") as file:
        crates = [line.split(":")[0] for line in file if line.strip() and not line.startswith("#")]
    assert [cells(line)[0] for line in done.stdout.splitlines()[2:]] == [*crates, "**all**"], done
    assert call("--help").returncode == 0


def test_wrong_calls_are_told():
    for words in (("--what",), ("one", "two"), ("--root",)):
        done = call(*words)
        assert done.returncode == 2 and done.stderr.startswith("cost: ") and done.stderr.endswith("; see tools/cost --help\n") and done.stderr.count("\n") == 1, (words, done)
