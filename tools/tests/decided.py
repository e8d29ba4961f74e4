"""The decisions, on two pages that share one row of numbers."""
import re

from named import read

PAGES = ("docs/DECISIONS.md", "docs/CODE.md")


def decisions_in(page):
    """`**D1.** …`, or `**D2** (also D3, D4). …`, with anchors before it or none."""
    heads = re.findall(r"^(?:<a [^>]*></a>)*\*\*(D\d+)(?:\.\*\*|\*\* \(also ([D\d, ]+)\)\.)", page, re.M)
    return {number for head in heads for part in head for number in re.findall(r"D\d+", part)}


def decisions():
    return {number for page in PAGES for number in decisions_in(read(page))}
