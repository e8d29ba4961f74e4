"""Runs of a session for the tests of --annotate: what was printed is given with each step."""
from cardtools.annotate import annotated
from cardtools.from_text import file_from
from cardtools.records import records_of


def lines_of(mode, *steps, fold=False):
    """The explained lines of a run. A step is a text, after it the values that its reads printed, or the number of their refusal."""
    opening = f"open 4 2 4 {mode}\n"
    printed = ["n op answer value"]
    for text, *rest in steps:
        given = rest[0] if rest else []
        answer = given if isinstance(given, int) else 0
        values = iter([] if answer else given)
        for access in records_of(file_from(f"{opening}{text}\n"))[0][1:]:
            value = 0 if answer else access.value if access.write else next(values)
            printed.append(f"{len(printed)} {'W' if access.write else 'R'} {answer} {value:04X}")
        assert next(values, None) is None, text
    return list(annotated(*records_of(file_from(opening + "\n".join(text for text, *_ in steps) + "\n")), printed, fold))
