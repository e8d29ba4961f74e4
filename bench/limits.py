"""What the cost of a session is held to: a straight line over its length, and a bound for an access."""
import sessions

OFF_LINE = 0.005  # of the rise from the shortest session to the longest
# Instructions an access, by session: none more than before the card kept the number of bad sectors (02, "Eight"), the fraction dropped;
# of Read and Write Multiple (02, "One") three more than they took at first, rounded up.
MOST = {
    "words": 141,
    "bytes": 165,
    "polling": 129,
    "errors": 181,
    "words-read": 137,
    "bytes-read": 160,
    "words-written": 145,
    "bytes-written": 170,
    "words-multiple": 133,
    "bytes-multiple": 159,
}


class Fault(Exception):
    """A check that fails."""


def per_access(points):
    """The rise of the line through the first and the last point."""
    (x0, y0), (x1, y1) = points[0], points[-1]
    return (y1 - y0) / (x1 - x0)


def bend(points):
    """How far the points are from that line, as a part of the rise."""
    (x0, y0), rise = points[0], per_access(points)
    return max(abs(y - y0 - rise * (x - x0)) for x, y in points) / max(points[-1][1] - y0, 1)


def straight(name, kind, points):
    off = bend(points)
    if off > OFF_LINE:
        raise Fault(f"{kind}, {name}: the cost is no straight line: {100 * off:.1f} % off, and {100 * OFF_LINE:.1f} % is the most: {points}")


def bounded(kind, points):
    """Points of cardrun, in instructions."""
    most, takes = MOST[kind], per_access(points)
    if takes > most:
        raise Fault(f"{kind}: cardrun takes {takes:,.1f} instructions an access, and {most} is the most")


def held(bench, kind, names):
    """The (accesses, cost) points of a session by program, held to all this; both programs print the same."""
    bench.same(kind)
    lines = {}
    for name in names:
        lines[name] = bench.line(name, kind)
        straight(name, kind, lines[name])
    if bench.counted == "instructions":
        bounded(kind, lines["cardrun"])
    return lines


def all_held(bench):
    """The points of every session and counted program, by (session, program)."""
    return {(kind, name): points for kind in sessions.KINDS for name, points in held(bench, kind, bench.names()).items()}


def check(bench):
    """Prints a line for each session; whether all are good."""
    failed = 0
    for kind in sessions.KINDS:
        try:
            points = held(bench, kind, ["cardrun"])["cardrun"]
            print(f"{kind}: {per_access(points):,.1f} {bench.counted} an access, {100 * bend(points):.1f} % off the line")
        except Fault as fault:
            print(f"FAILED {fault}")
            failed += 1
    print(f"{len(sessions.KINDS) - failed} passed, {failed} failed")
    return not failed
