"""bench/: its sessions, its straight-line check, its plot; and its three calls: the tables, --write to another folder, --check."""
import contextlib
import importlib.machinery
import importlib.util
import io
import os
import re
import shutil
import subprocess
import sys
import tempfile
import xml.etree.ElementTree
from unittest import mock

sys.path.append("bench")
import limits  # noqa: E402
import measuring  # noqa: E402
import page as results  # noqa: E402
import plot  # noqa: E402
import sessions  # noqa: E402
import setting  # noqa: E402
import tables  # noqa: E402
from cardtools.records import LONGEST, records_of  # noqa: E402
from faults import fault_of  # noqa: E402
from made import program  # noqa: E402

LOADER = importlib.machinery.SourceFileLoader("bench_run", "bench/run")
bench = importlib.util.module_from_spec(importlib.util.spec_from_loader("bench_run", LOADER))
LOADER.exec_module(bench)


def text_of(path):
    with open(path, encoding="utf-8") as file:
        return file.read()


def test_sessions_are_well_formed_and_equal_each_time():
    for kind in sessions.KINDS:
        lengths = sessions.lengths(kind)
        counts = [sessions.session(kind, parts)[1] for parts in lengths]
        assert len(lengths) > 2 and counts[0] >= 999 > sessions.session(kind, lengths[0] - 1)[1], (kind, lengths, counts)
        for parts in lengths:
            file, accesses = sessions.session(kind, parts)
            records, broken = records_of(file)
            assert broken is None and len(records) == accesses + 1 and len(file) <= LONGEST
            assert file == sessions.session(kind, parts)[0]
        assert len(sessions.session(kind, lengths[-1] + 1)[0]) > LONGEST


def test_every_command_of_a_session_that_moves_data_ends_well():
    measuring.build("oracle")
    for kind in (kind for kind in sessions.KINDS if kind.startswith(("words", "bytes"))):
        file, _ = sessions.session(kind, 2)
        done = subprocess.run([measuring.INDEPENDENT, "play"], input=file, stdout=subprocess.PIPE, check=True).stdout.decode().splitlines()
        status = [line[-4:] for line, access in zip(done[1:], records_of(file)[0][1:]) if not access.write and access.address == 7]
        assert len(status) == (2 if kind.endswith(("read", "written")) else 4) and set(status) == {"0050"}, (kind, status)


def test_the_line_is_straight_or_told():
    line = [(x, 5000 + 200 * x) for x in (1, 800, 1600, 2400, 3200)]
    limits.straight("a", "b", line)
    assert limits.bend(line) == 0 and limits.per_access(line) == 200
    for bent in ([(x, x * x) for x, _ in line], [(x, 200 * x + (90000 if x > 1000 else 0)) for x, _ in line], [(x, 200 * x + x * x // 200) for x, _ in line]):
        assert "no straight line" in str(fault_of(limits.Fault, limits.straight, "a", "b", bent))


def test_the_digits_of_access_numbers_bend_no_line():
    for kind in sessions.KINDS:
        counts = [sessions.session(kind, parts)[1] for parts in sessions.lengths(kind)]
        assert limits.bend([(count, sum(140 + 5 * len(str(number)) for number in range(1, count + 1))) for count in counts]) < 1e-9


def costing(cost, counted="instructions"):
    """A bench at which each access costs this."""
    return mock.Mock(counted=counted, line=lambda name, kind: [(0, 5000), (1000, 5000 + 1000 * cost)])


def test_each_session_keeps_to_its_bound():
    assert list(limits.MOST) == list(sessions.KINDS)
    for kind, most in limits.MOST.items():
        limits.held(costing(most), kind, ["cardrun"])
        fault = str(fault_of(limits.Fault, limits.held, costing(most + 1), kind, ["cardrun"]))
        assert fault == f"{kind}: cardrun takes {most + 1}.0 instructions an access, and {most} is the most"
        limits.held(costing(most + 1, "accesses answered"), kind, ["cardrun"])


def test_the_help_names_the_bounds():
    told = re.search(r"^The most instructions that an access may take: (.*)\.$", bench.help_text(), re.M)
    assert dict(bound.split() for bound in told[1].split(", ")) == {kind: str(most) for kind, most in limits.MOST.items()}, told[1]


def test_counts_are_named_as_they_are():
    class Made:
        def __init__(self, callgrind, trace):
            self.callgrind, self.trace = callgrind, trace

    with tempfile.TemporaryDirectory() as folder:
        emulator = program(folder, "emulator", "echo emulator 5")
        assert setting.counter(Made(False, [emulator])) == "the trace of emulator 5"
        assert setting.counter(Made(False, False)) == "no counter: accesses answered"
        assert setting.counter(Made(program(folder, "valgrind", "echo valgrind-4"), False)) == "valgrind-4"


def test_the_check_fails_where_nothing_counts():
    class Uncounted:
        counted = "accesses answered"

    printed = io.StringIO()
    with contextlib.redirect_stdout(printed):
        assert bench.check(Uncounted) == 1
    assert printed.getvalue().startswith("FAILED no counter: ") and printed.getvalue().endswith("\n0 passed, 1 failed\n"), printed.getvalue()


def test_both_programs_are_built_each_time():
    names = []
    with mock.patch.object(measuring, "build", names.append):
        measuring.programs(None)
    assert names == ["oracle", "cardrun"], names


def test_wrong_calls_are_told():
    for words in (("--cardrun", "no-such-program"), ("--cardrun", "x 'y"), ("--cardrun", ""), ("--rounds", "0"), ("--rounds", "x"), ("--what",), ("word",)):
        done = subprocess.run([sys.executable, "bench/run", *words], capture_output=True, text=True, check=False)
        assert done.returncode == 2 and done.stderr.startswith("bench: ") and done.stderr.count("\n") == 1, (words, done)


def test_a_program_is_looked_for_as_a_shell_does():
    assert measuring.run_once(["sh", "-c", "exit 0"], "README.md") > 0
    with tempfile.TemporaryDirectory() as folder, mock.patch.dict(os.environ, {"PATH": folder}):
        assert measuring.split(f"{os.path.basename(program(folder, 'other', 'exit 0'))} -x") == [os.path.join(folder, "other"), "-x"]
    assert measuring.split("bench/run --help") == ["bench/run", "--help"]


def test_what_stands_by_hand_on_the_page_is_kept():
    page = text_of("bench/RESULTS.md")
    by_hand = page[page.index("## Kept by hand"):]
    for before in (page, results.page_of("other numbers", page)):
        after = results.page_of("new numbers", before)
        assert after.startswith("# Results") and "new numbers\n" in after and "other numbers" not in after
        assert after.endswith(f"\n\n{by_hand}") and after.count("## Kept by hand") == 1
    assert results.page_of("numbers", "").endswith("(cost.svg)\n")
    assert all(part in page for part in results.page_of("", "").split("\n\n")), "the page has another head or foot than --write gives it"


def test_the_plot_is_svg():
    text = plot.svg("title", "across", "up", [("one, a", False, [(0, 0), (10, 123456)]), ("one, b", True, [(0, 5), (10, 10)])])
    assert xml.etree.ElementTree.fromstring(text).tag.endswith("svg") and text.count("<polyline") == 2
    assert len(set(plot.COLOURS)) >= len(sessions.KINDS)
    both = plot.svg("title", "across", "up", [(f"{kind}, {name}", False, [(0, 0), (10, 10)]) for kind in sessions.KINDS for name in ("a", "b")])
    assert max(int(y) for y in re.findall(r'y="(\d+)">[\w-]+, [ab]</text>', both)) < plot.HIGH


def test_times_of_both_programs_are_in_the_table():
    class Quick:
        programs = {"cardrun": ["true"], "independent": ["true"]}

        def path(self, kind, parts):
            return "README.md"

    head, _, *rows = tables.time_table(Quick(), 1).splitlines()
    assert head == "| session | cardrun | independent | cardrun / independent |", head
    assert [row.split(" | ")[0] for row in rows] == [f"| {kind}" for kind in sessions.KINDS] and all(row.count("|") == 5 for row in rows), rows


def well_reported(text, rounds, native):
    """What the bench prints without --check: where it ran, and a row for each session, twice where times are taken."""
    assert re.search(r"^- date: \d{4}-\d\d-\d\d$", text, re.M), text
    for name, holds in (("machine", "processors"), ("load", "processes"), ("Rattle", "rattle"), ("Rust", "rustc "), ("counts", "valgrind-" if native else "the trace of ")):
        assert re.search(rf"^- {name}: .*{holds}", text, re.M), (name, text)
    counts = re.findall(r"^\| ([\w-]+) \| [\d,]+ \| [\d,.]+ \| \S+ \| \S+ \| [\d.]+ % \|$", text, re.M)
    assert "**Instructions an access**" in text and counts == list(sessions.KINDS), text
    if native:
        times = re.findall(r"^\| ([\w-]+) \| [^|]+ \| [^|]+ \| \S+ \|$", text, re.M)
        assert f"the best of {rounds} turns" in text and times == list(sessions.KINDS), text
    else:
        assert text.endswith("must emulate x86-64 to run cardrun: times mean nothing here, so none are given.\n") and "a second" not in text, text


def test_the_tables():
    done = subprocess.run(["bench/run"], capture_output=True, text=True, check=False)
    assert done.returncode == 0, done
    well_reported(done.stdout, 500, measuring.native())
    assert subprocess.run(["bench/run", "--help"], capture_output=True, text=True, check=True).stdout.startswith("Measures cardrun")


def test_the_page_of_results_is_such_a_report():
    well_reported(text_of("bench/RESULTS.md"), 500, True)


def test_results_are_written():
    """--write, to another folder; two short sessions of each kind are counted for it, too short for the bound to be of them."""
    before, printed = text_of("bench/RESULTS.md"), io.StringIO()
    with tempfile.TemporaryDirectory() as folder:
        shutil.copy("bench/RESULTS.md", folder)
        loose = {kind: 2 * most for kind, most in limits.MOST.items()}
        with contextlib.redirect_stdout(printed), mock.patch.object(sessions, "lengths", lambda kind: [0, 1]), mock.patch.object(limits, "MOST", loose):
            assert bench.main(["--write", "--rounds", "2"], folder) == 0
        assert sorted(os.listdir(folder)) == ["RESULTS.md", "cost.svg"]
        after, svg = (text_of(os.path.join(folder, name)) for name in ("RESULTS.md", "cost.svg"))
    well_reported(printed.getvalue(), 2, measuring.native())
    assert after == results.page_of(printed.getvalue().rstrip("\n"), before) and after.endswith(before[before.index("\n## Kept by hand\n"):]), after
    names = [f"{kind}, {name}" for kind in sessions.KINDS for name in (["cardrun", "independent"] if measuring.native() else ["cardrun"])]
    assert xml.etree.ElementTree.fromstring(svg).tag.endswith("svg") and svg.count("<polyline") == len(names)
    assert all(f">{name}</text>" in svg for name in names) and ">instructions</text>" in svg, svg


def test_callgrind_counts_the_same_in_any_environment():
    with tempfile.TemporaryDirectory() as folder:
        made = measuring.Bench(None, folder)
        if not made.callgrind:
            print("       callgrind is not here: not asked")
            return
        counts = set()
        for length in range(0, 64, 8):
            with mock.patch.dict(os.environ, {"LONGER": "x" * length}):
                counts.add(made.cost("cardrun", "errors", 1))
    assert len(counts) == 1, counts


def test_cardrun_keeps_to_the_line_and_the_bound():
    done = subprocess.run(["bench/run", "--check"], capture_output=True, text=True, check=False)
    print("".join(f"       {line}\n" for line in done.stdout.splitlines()[:-1]), end="")
    assert done.returncode == 0, done.stdout + done.stderr
