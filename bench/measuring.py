"""Both programs on the bench's sessions: what they print, the instructions that they take, and their times."""
import functools
import os
import platform
import shutil
import subprocess
import time

import sessions
from cardtools import calls
from limits import Fault

CARDRUN = "crates/cardrun/out/cardrun"
INDEPENDENT = "target/oracle/release/oracle"
fail = functools.partial(calls.fail, "bench")


def native():
    return platform.machine() in ("x86_64", "AMD64")


# ---- the programs

def build(name):
    if subprocess.run(["tools/build", name], stdin=subprocess.DEVNULL, check=False).returncode:
        fail(f"there is no {name} to measure")


def split(command):
    """The words of a command that can be run."""
    words = calls.words_of("bench", "--cardrun", command)
    program = words and shutil.which(words[0])
    if not program:
        fail(f"--cardrun {command}: no such program")
    return [program, *words[1:]]


def programs(given):
    """The commands of both programs; cardrun, where none is given, goes by ./cardrun where the machine must emulate."""
    build("oracle")
    if given is None:
        build("cardrun")
    cardrun = [CARDRUN] if native() else ["./cardrun"]
    return {"cardrun": cardrun if given is None else split(given), "independent": [INDEPENDENT, "play"]}


def emulator():
    """The words that start cardrun here, by tools/launcher; none on x86-64, and none where the emulator isn't there."""
    return subprocess.run(["tools/launcher"], stdout=subprocess.PIPE, stderr=subprocess.DEVNULL, text=True, check=False).stdout.splitlines()


def output_of(command, path):
    with open(path, "rb") as given:
        return subprocess.run(command, stdin=given, stdout=subprocess.PIPE, check=False).stdout


def answered(printed):
    return sum(1 for line in printed.decode("ascii", "replace").splitlines() if line[:1].isdigit())


# ---- counts

# What a counted program is given of the environment: where the stack begins goes by its length, and with that what filling an array takes.
GIVEN = {"PATH": os.defpath}


def instructions(valgrind, command, path, folder):
    """By callgrind; the whole run, its start too."""
    with open(path, "rb") as given:
        done = subprocess.run([valgrind, "--tool=callgrind", f"--callgrind-out-file={folder}/callgrind", *command],
                              stdin=given, stdout=subprocess.DEVNULL, stderr=subprocess.PIPE, text=True, check=False, env=GIVEN)
    for line in done.stderr.splitlines():
        if "Collected :" in line:
            return int(line.split(":")[-1])
    raise Fault(f"callgrind gave no count for {' '.join(command)}: {done.stderr[-300:]}")


def traced(path, folder):
    """x86-64 instructions of cardrun by the emulator's trace, a line for each; the whole run, its start too."""
    program, *loaded = emulator()
    trace = os.path.join(folder, "trace")
    with open(path, "rb") as given:
        subprocess.run([program, "-one-insn-per-tb", "-d", "exec,nochain", "-D", trace, *loaded, CARDRUN],
                       stdin=given, stdout=subprocess.DEVNULL, check=False)
    with open(trace, "rb") as lines:
        count = sum(1 for line in lines if line.startswith(b"Trace "))
    os.remove(trace)
    if not count:
        raise Fault("the emulator gave no trace of cardrun")
    return count


class Bench:
    """The programs, the counter that there is here, and a folder for the sessions."""

    def __init__(self, cardrun, folder):
        self.folder = folder
        self.programs = programs(cardrun)
        self.callgrind = native() and shutil.which("valgrind")
        self.trace = not native() and cardrun is None and emulator()
        self.counted = "instructions" if self.callgrind or self.trace else "accesses answered"

    def path(self, kind, parts):
        path = os.path.join(self.folder, f"{kind}-{parts}")
        if not os.path.exists(path):
            with open(path, "wb") as file:
                file.write(sessions.session(kind, parts)[0])
        return path

    def cost(self, name, kind, parts):
        path, command = self.path(kind, parts), self.programs[name]
        if self.callgrind:
            return instructions(self.callgrind, command, path, self.folder)
        if self.trace:
            return traced(path, self.folder)
        return answered(output_of(command, path))

    def names(self):
        """The programs whose cost is counted: the emulator's trace is of cardrun alone."""
        return ["cardrun"] if self.trace else list(self.programs)

    def line(self, name, kind):
        """(accesses, cost) for each length."""
        return [(sessions.session(kind, parts)[1], self.cost(name, kind, parts)) for parts in sessions.lengths(kind)]

    def same(self, kind):
        """Every access has an answer, and the programs print the same."""
        parts = sessions.most_parts(kind)
        printed = {name: output_of(command, self.path(kind, parts)) for name, command in self.programs.items()}
        accesses = sessions.session(kind, parts)[1]
        for name, text in printed.items():
            if answered(text) != accesses:
                raise Fault(f"{kind}, {name}: it answers {answered(text)} of {accesses} accesses")
        if len(set(printed.values())) != 1:
            raise Fault(f"{kind}: the programs print different things")


# ---- times

def run_once(command, path):
    """Seconds of one run."""
    actions = [(os.POSIX_SPAWN_OPEN, 0, path, os.O_RDONLY, 0), (os.POSIX_SPAWN_OPEN, 1, os.devnull, os.O_WRONLY, 0)]
    began = time.perf_counter()
    pid = os.posix_spawnp(command[0], command, os.environ, file_actions=actions)
    os.waitpid(pid, 0)
    return time.perf_counter() - began


def rates(bench, kind, rounds):
    """Accesses a second of each program; None where the run is too short to tell."""
    full, empty = (bench.path(kind, parts) for parts in (sessions.most_parts(kind), 0))
    accesses = sessions.session(kind, sessions.most_parts(kind))[1] - sessions.session(kind, 0)[1]
    best = {}
    for _ in range(rounds):
        for name, command in bench.programs.items():
            for path in (full, empty):
                best[name, path] = min(best.get((name, path), 9e9), run_once(command, path))
    spans = {name: best[name, full] - best[name, empty] for name in bench.programs}
    return {name: accesses / span if span > 0 else None for name, span in spans.items()}
