"""The page of results, RESULTS.md, and its picture, cost.svg."""
import os

import plot

KEPT = "## Kept by hand"  # the heading from which on what stands there is kept


def picture(counted, lines):
    """The lines by session and program, drawn; the independent program's are dashed."""
    drawn = [(f"{kind}, {name}", name == "independent", points) for (kind, name), points in lines.items()]
    return plot.svg("Cost against session length", "accesses in the session", counted, drawn)


def kept(page):
    """What stands by hand on the page: all from its heading on."""
    found = page.find(f"\n{KEPT}\n")
    return page[found:] if found >= 0 else ""


def page_of(text, before):
    """The page with a new text; `before` is the page as it was."""
    head = (f"# Results of the bench\n\nA run of `bench/run --write`, which wrote this page down to the heading \"{KEPT[3:]}\" and keeps what stands from there on. "
            "What is measured and how is said by `bench/run --help`.")
    foot = "The independent program (`oracle/`, in Rust) is written to be compared with, not to be fast, and counts what it covers at every access."
    line = "Cost against session length is a straight line, or the bench fails: ![cost](cost.svg)"
    return "\n\n".join((head, text, foot, line)) + "\n" + kept(before)


def write(text, drawing, folder):
    """The page and its picture, in a folder."""
    with open(os.path.join(folder, "cost.svg"), "w", encoding="utf-8") as file:
        file.write(drawing)
    with open(os.path.join(folder, "RESULTS.md"), "a+", encoding="utf-8") as file:
        file.seek(0)
        page = page_of(text, file.read())
        file.truncate(0)
        file.write(page)
