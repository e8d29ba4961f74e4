"""docs/RULES.md: every name of a row stands where the row says (named.py has the form), rows are numbered without a gap, and every decision is there."""
import re

from decided import decisions, decisions_in
from named import Told, read

PAGE = "docs/RULES.md"
SAMPLES = 13


class Rows(Told):
    """The rows of a page, and the text of its chapters."""

    def __init__(self):
        super().__init__()
        self.rows = self.decisions = 0

    def of_introduction(self, line):
        """It tells the form of a place by words that name none: `crate/File`, crate/edit, sessions/NAME."""
        for sentence in re.sub(r"`?\b(?:crate/[\w/]+|sessions/NAME\b)`?", "", line).split(". "):
            self.look_up("introduction", sentence, placed=True)

    def of_cell(self, row, cell):
        self.look_up(row, cell)
        for numbers in re.findall(r"\bsamples? ((?:\d+(?:, )?)+)", cell):
            if not all(1 <= int(number) <= SAMPLES for number in re.findall(r"\d+", numbers)):
                self.faults.append(f"{row}: no sample {numbers}")

    def of_decisions(self, row, line, known):
        for number in re.findall(r"\bD\d+\b", line):
            self.decisions += 1
            if number not in known:
                self.faults.append(f"{row}: no decision {number}")

    def of_rows(self, row, line, rows):
        for number in re.findall(r"\bR\d+[a-z]?\b", line):
            if number not in rows:
                self.faults.append(f"{row}: no row {number}")

    def of_number(self, row, before):
        """R1, R2, …; one that was added between two has the number before it with a letter."""
        number, letter = int(re.match(r"R(\d+)", row)[1]), row.lstrip("R0123456789")
        next_letter = chr(ord(before[1]) + 1) if before[1] else "a"
        if (number, letter) not in ((before[0] + 1, ""), (before[0], next_letter)):
            self.faults.append(f"{row}: it stands after R{before[0]}{before[1]}")
        return number, letter


def looked_up(page, known):
    """All that is to be looked up in a page: in the text before its chapters, in theirs, and in their rows but for the rule's own words."""
    told, before, chapter = Rows(), (0, ""), None
    rows = re.findall(r"^\| (R\d+[a-z]?) \|", page, re.M)
    for line in page.splitlines():
        if line.startswith("## "):
            chapter = line[3:]
        elif not chapter:
            told.of_introduction(line)
        elif line.startswith("| R"):
            row, *cells = [cell.strip() for cell in line.strip("|").split(" | ")]
            told.rows += 1
            before = told.of_number(row, before)
            if len(cells) != 3 or not all(cells) or "–" in cells:
                told.faults.append(f"{row}: it has not four cells that say something")
                continue
            told.of_decisions(row, " ".join(cells), known)
            told.of_rows(row, " ".join(cells), rows)
            for cell in cells[1:]:
                told.of_cell(row, cell)
        elif line.startswith("|"):
            if not re.match(r"\| No\. \||\|---", line):
                told.faults.append(f"{chapter}: what is this row: {line[:40]}")
        else:
            told.of_rows(chapter, line, rows)
            told.look_up(chapter, line)
    return told


def test_names_of_the_rules_stand_where_their_rows_say():
    told = looked_up(read(PAGE), decisions())
    print(f"       {told.rows} rows: {told.names} names at {told.places} places, {told.paths} paths, {told.decisions} decisions")
    assert not told.faults, "\n" + "\n".join(told.faults)
    assert told.rows and told.names and told.places and told.decisions


RIGHT = """A place stands before its names: `crate/File` (answers/Answers `outcome_number`). `no-name` has none; must-fail crate/edit, sessions/NAME.
## Answers
What is refused: answers/Answers `refused`.
| R1 | a rule (D1) | answers/Answers `number_of StoreLength`, answers/Rows `FirstRow`; `ground` | promise of answers/src/lib `Refusal::number` |
| R2 | a rule | registers/src/lib `Phase`, `Idle`; answers/Answers `Says` | card/proofs/FirstRow `first-row`: sample 13; must-fail card/order_3_5; run: sessions/sample |
| R2a | a rule | no definition | `tools/compare` |
"""
# What is changed in it, and what is to be told.
WRONG = {
    ("`outcome_number`", "`outcome_weight`"): "introduction: no `outcome_weight` in crates/answers/specs/Answers.antt",
    ("(answers/Answers", "(answers/Refusals"): "introduction: there is no crates/answers/specs/Refusals.antt",
    ("`refused`", "`refuted`"): "Answers: no `refuted` in crates/answers/specs/Answers.antt",
    ("`number_of StoreLength`", "`numbers_of`"): "R1: no `numbers_of` in crates/answers/specs/Answers.antt",
    ("`number_of StoreLength`", "`outcome_value StoreLength`"): "R1: no StoreLength in `outcome_value` of crates/answers/specs/Answers.antt",
    ("answers/Rows `FirstRow`", "answers/Columns `FirstRow`"): "R1: there is no crates/answers/specs/Columns.antt",
    ("answers/Rows `FirstRow`", "answers/Answers `FirstRow`"): "R1: no `FirstRow` in crates/answers/specs/Answers.antt, but in crates/answers/specs/Rows.antt",
    ("`ground`", "`grounds`"): "R1: there is no grounds",
    ("`Refusal::number`", "`Refusal::value`"): "R1: no `Refusal::value` in crates/answers/src/lib.rt",
    ("`Idle`", "`Idler`"): "R2: no `Idler` in crates/registers/src/lib.rt",
    ("`first-row`", "`last-row`"): "R2: no `last-row` in crates/card/proofs/FirstRow.antt",
    ("sample 13", "sample 14"): "R2: no sample 14",
    ("order_3_5", "order_5_3"): "R2: there is no crates/card/must-fail/order_5_3.edit",
    ("sessions/sample", "sessions/simple"): "R2: there is no sessions/simple.session",
    ("tools/compare", "tools/comparison"): "R2a: there is no tools/comparison",
    ("(D1)", "(D1, D999)"): "R1: no decision D999",
    ("| R2 |", "| R3 |"): "R3: it stands after R1",
    ("| R2 |", "| 2 |"): "Answers: what is this row: | 2 | a rule | registers/src/lib `Phase`",
    ("sample 13", "R13"): "R2: no row R13",
    ("| R2a |", "| R2 |"): "R2: it stands after R2",
    ("| no definition |", "| – |"): "R2a: it has not four cells that say something",
}


def test_what_is_wrong_in_rules_is_told():
    right = looked_up(RIGHT, {"D1"})
    assert not right.faults and (right.rows, right.names, right.decisions) == (3, 9, 1), (right.faults, vars(right))
    for (old, new), fault in WRONG.items():
        assert RIGHT.count(old) == 1, old
        assert fault in looked_up(RIGHT.replace(old, new), {"D1"}).faults, (new, looked_up(RIGHT.replace(old, new), {"D1"}).faults)


def test_decisions_are_found_by_their_first_words():
    page = '**D1.** One.\n<a id="d2"></a><a id="d3"></a>**D2** (also D3, D41). Two, as in D5.\n| D6 |\nSee **D7.**\n<a id="d8"></a>**D8.** Three.\n'
    assert decisions_in(page) == {"D1", "D2", "D3", "D41", "D8"}, decisions_in(page)
