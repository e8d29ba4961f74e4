"""The independent program: its environment, and the pages about it."""
import os
import re
import subprocess

ORACLE = "target/oracle/release/oracle"


def call(*words, given=b"", **more):
    """(status, what it printed, what it said)"""
    assert subprocess.run(["tools/build", "oracle"], check=False).returncode == 0
    done = subprocess.run([ORACLE, *words], input=given, capture_output=True, env={**os.environ, **more}, check=False)
    return done.returncode, done.stdout.decode(), done.stderr.decode()


def test_a_launcher_has_one_word_on_a_line():
    status, printed, _ = call("compare", "no-such-program", ORACLE_LAUNCHER="/no such/launcher\n--word")
    assert status == 1 and "can't run /no such/launcher: " in printed, printed[:500]


def test_compare_finds_a_small_change():
    status, printed, _ = call("compare", "-", "trial", ORACLE_LAUNCHER=ORACLE, ORACLE_MUTANT="HighLinesIgnored")
    assert status == 1 and re.search(r"\n\d+ passed, [1-9]\d* failed\n$", printed), printed[-500:]


def test_wrong_environment_values_are_told():
    for name, value, words in (("ORACLE_SEED", "abc", "coverage"), ("ORACLE_SEED", "-1", "mutants"), ("ORACLE_MUTANT", "3", "play"), ("ORACLE_MUTANT", "NoSuchChange", "trial"), ("ORACLE_MUTANT", "", "play")):
        status, printed, said = call(words, **{name: value})
        assert (status, printed) == (1, "") and said.startswith(f'{name} is "{value}"'), (name, value, said)
    assert call("play", ORACLE_MUTANT="AttributeInIde")[:2] == (0, "n op answer value\nbad 0\n")


def test_the_example_of_a_trial():
    with open("oracle/TRIAL.md", encoding="utf-8") as file:
        records, printed = re.findall(r"^```text\n(.*?)^```$", file.read(), re.M | re.S)
    before, after = printed.split("...\n")
    status, text, _ = call("trial", given=bytes.fromhex(records))
    assert status == 0 and text.startswith(before) and text.endswith(after), text
    assert text.count("\n") == printed.count("\n") - 1 + 254, text.count("\n")


def test_the_page_names_every_source():
    with open("oracle/README.md", encoding="utf-8") as file:
        named = set(re.findall(r"`src/(\w+\.rs)`", file.read()))
    assert named == set(os.listdir("oracle/src")), named ^ set(os.listdir("oracle/src"))


def test_the_decision_has_what_is_compared():
    with open("docs/DECISIONS.md", encoding="utf-8") as file:
        told = re.search(r"the ([\d,]+) session files \(([\d,]+) accesses\) and the ([\d,]+) trial inputs \(([\d,]+) accesses\) of seed 1", file.read())
    status, printed, _ = call("coverage", ORACLE_SEED="1")
    counts = re.findall(r"^(?:sessions|trials): (\d+), (\d+) accesses$", printed, re.M)
    assert status == 0 and [f"{int(count):,}" for pair in counts for count in pair] == list(told.groups()), (counts, told.groups())
