"""The bench's tables: what an access costs, and how many there are in a second."""
import platform

import sessions
from cardtools import pages
from limits import bend, per_access
from measuring import native, rates
from setting import setting


def shown(number):
    return "too short to tell" if number is None else f"{number:,.0f}"


def ratio(one, other):
    return f"{one / other:.2f}" if one and other else "–"


def count_table(lines):
    rows = []
    for kind in sessions.KINDS:
        ours, theirs = lines[kind, "cardrun"], lines.get((kind, "independent"))
        other = [f"{per_access(theirs):,.1f}", ratio(per_access(ours), per_access(theirs))] if theirs else ["–", "–"]
        rows.append([kind, f"{ours[-1][0]:,}", f"{per_access(ours):,.1f}", *other, f"{100 * bend(ours):.1f} %"])
    return pages.table(["session", "accesses", "cardrun", "independent", "cardrun / independent", "off the line"], rows)


def time_table(bench, rounds):
    rows = []
    for kind in sessions.KINDS:
        found = rates(bench, kind, rounds)
        rows.append([kind, shown(found["cardrun"]), shown(found["independent"]), ratio(found["cardrun"], found["independent"])])
    return pages.table(["session", "cardrun", "independent", "cardrun / independent"], rows)


def report(bench, lines, rounds):
    """All that the bench prints; the lines are the counted ones, the times are taken here."""
    parts = ["\n".join(f"- {name}: {what}" for name, what in setting(bench))]
    parts.append(f"**{bench.counted.capitalize()} an access**, of those whose numbers have four digits:")
    parts.append(count_table(lines))
    if native():
        parts.append(f"**Accesses a second**, the best of {rounds} turns, beyond the start of the program (with a load above the number of processors, only a hint):")
        parts.append(time_table(bench, rounds))
    else:
        parts.append(f"This machine ({platform.machine()}) must emulate x86-64 to run cardrun: times mean nothing here, so none are given.")
    return "\n\n".join(parts)
