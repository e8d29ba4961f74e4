"""tools/build: in a small tree, with an `rt` and a `cargo` made for it; and tools/counted.sh."""
import os
import shutil
import subprocess
import tempfile

from made import program


class Tree:
    """A tree with one source, and programs that write down how they are called."""

    def __init__(self, folder):
        self.folder = folder
        os.makedirs(os.path.join(folder, "tools"))
        shutil.copy("tools/build", os.path.join(folder, "tools"))
        for name in ("crates/a/src/lib.rt", "crates.txt"):
            os.makedirs(os.path.dirname(os.path.join(folder, name)), exist_ok=True)
            open(os.path.join(folder, name), "w", encoding="utf-8").close()
        for name in ("rt", "cargo"):
            program(os.path.join(folder, "bin"), name, f"echo {name} $1 >>{folder}/calls\nexit $FAILS")
        self.cardrun = program(os.path.join(folder, "crates/cardrun/out"), "cardrun", "")

    def age(self, seconds):
        """Makes the source older than cardrun by so much."""
        now = os.stat(self.cardrun).st_mtime
        for name in ("crates/a/src/lib.rt", "crates.txt"):
            os.utime(os.path.join(self.folder, name), (now - seconds, now - seconds))

    def build(self, *words, fails=0):
        """(status, the calls made, what was said)"""
        path = os.pathsep.join((os.path.join(self.folder, "bin"), os.environ["PATH"]))
        done = subprocess.run([os.path.join(self.folder, "tools/build"), *words], capture_output=True, text=True, env={**os.environ, "PATH": path, "FAILS": str(fails)}, check=False)
        calls = ""
        if os.path.exists(os.path.join(self.folder, "calls")):
            with open(os.path.join(self.folder, "calls"), encoding="utf-8") as file:
                calls = file.read()
            os.remove(os.path.join(self.folder, "calls"))
        return done.returncode, calls, done.stderr


def test_cardrun_is_built_where_a_source_is_newer():
    with tempfile.TemporaryDirectory() as folder:
        tree = Tree(folder)
        tree.age(60)
        assert tree.build("cardrun") == (0, "", "")
        tree.age(-60)
        assert tree.build("cardrun", fails=1)[:2] == (1, "rt run\n")
        assert tree.build("cardrun")[:2] == (0, "rt run\n")
        os.remove(tree.cardrun)
        assert tree.build("cardrun")[:2] == (0, "rt run\n")


def test_the_independent_program_is_left_to_cargo():
    with tempfile.TemporaryDirectory() as folder:
        tree = Tree(folder)
        assert tree.build("oracle") == (0, "cargo build\n", "")
        assert tree.build("oracle", fails=1)[::2] == (1, "oracle: the independent program could not be built\n")


def test_wrong_calls_of_build():
    with tempfile.TemporaryDirectory() as folder:
        for words in ((), ("other",), ("cardrun", "oracle")):
            status, calls, said = Tree(os.path.join(folder, str(len(words)) + "".join(words))).build(*words)
            assert (status, calls) == (1, "") and "usage: " in said, said


def test_parts_are_counted():
    script = ". tools/counted.sh; for part in {}; do counted echo $part || {{ echo last $last, status $status; exit 1; }}; done; echo total $total"
    for parts, wanted in (("'3 passed, 0 failed' '14 passed, 0 failed'", "total 17"), ("'3 passed, 1 failed'", "last 3 passed, 1 failed, status 0"),
                          ("'0 passed, 0 failed'", "last 0 passed, 0 failed, status 0"), ("oops", "last oops, status 0")):
        done = subprocess.run(["bash", "-c", script.format(parts)], capture_output=True, text=True, check=False)
        assert done.stdout.splitlines()[-1] == wanted, done
    done = subprocess.run(["bash", "-c", ". tools/counted.sh; counted sh -c 'echo 2 passed, 0 failed; exit 3' || echo status $status"], capture_output=True, text=True, check=False)
    assert done.stdout.endswith("status 3\n"), done


def test_a_bad_edit_is_told():
    """`rt ci` passes where a must-fail edit is bad, and says so on its line `rt: ok`."""
    script = '. tools/counted.sh; counted printf "%s\\n" "$1" "7 passed, 0 failed" && edits_tried && echo "good $total" || echo "told $ok"'
    edits, done = "rt: ok; handles allowed: none; must-fail edits: 5 refused", "; every proof and must-fail edit was done in this run"
    for line, wanted in ((edits + done, "good 7"), (edits + ", 2 of them only by a limit" + done, "good 7"), ("rt: ok; handles allowed: none" + done, "good 7"),
                         (edits + ", 1 bad" + done, None), (edits + ", 2 of them only by a limit, 10 bad" + done, None), ("rt: low proved", "told rt ci has no line that begins rt: ok")):
        told = subprocess.run(["bash", "-c", script, "bash", line], capture_output=True, text=True, check=False).stdout.splitlines()[-1]
        assert told == (wanted or f"told {line}"), (line, told)
