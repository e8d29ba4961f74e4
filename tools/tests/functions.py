"""The functions of a crate, `f` and `T::f`: whether there is one, its goals, and where its proof stands, as README.md says."""
import functools
import glob
import json
import os
import re
import subprocess
import tempfile

from named import in_code, read

PROOFS = ("Invariants.antt", "Answers.antt")


def sources(crate):
    return sorted(glob.glob(f"crates/{crate}/src/*.rt"))


def in_crate(crate, name):
    return any(in_code(read(path), name) for path in sources(crate))


def modules_of(crate, name):
    """The modules that have a function, struct or enum of this name: two can have a function of the same."""
    begins = re.compile(rf'^(?:pub(?:\(crate\))? )?(?:extern "C" )?(?:fn|struct|enum) {name}\b', re.M)
    return [os.path.basename(path)[:-3] for path in sources(crate) if begins.search(read(path))]


def proofs_of(crate, name):
    """In proofs/m/f for `f` of src/m.rt, in proofs/m/T/f for `T::f` where T stands in src/m.rt; without the m where that is lib.rt or main.rt."""
    folders = name.split("::")
    places = [[] if module in ("lib", "main") else [module] for module in modules_of(crate, folders[0])]
    return ["/".join(["crates", crate, "proofs", *place, *folders, file]) for place in places for file in PROOFS]


@functools.cache
def goals():
    """What the check has to prove of each function, by crate and by the function's path in it, as `rt names` lists it."""
    told = {}
    with tempfile.TemporaryDirectory() as folder:
        done = subprocess.run(["rt", "names", folder], stdin=subprocess.DEVNULL, capture_output=True, text=True, check=False)
        assert done.returncode == 0, (done.stdout + done.stderr)[-400:]
        for path in glob.glob(f"{folder}/crates/*/names.json"):
            crate = path.split("/")[-2]
            for key, names in json.loads(read(path)).items():
                if key.endswith(".Lts"):
                    function = key.removeprefix(f"Rattle-{crate}-proofs.").removesuffix(".Lts").replace(".", "::")
                    told[crate, function] = {*(goal for _, goal in names["needs"]), *names["settled"]}
    return told


def goals_of(crate, name):
    """The goals of all functions of this name."""
    return {goal for (place, path), its in goals().items() if place == crate and f"::{path}".endswith(f"::{name}") for goal in its}
