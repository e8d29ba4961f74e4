"""Where the bench was run: the machine, the programs that built and counted."""
import datetime
import os
import platform
import subprocess


def first_line(command):
    try:
        done = subprocess.run(command, capture_output=True, text=True, check=False)
        return (done.stdout or done.stderr).splitlines()[0]
    except (OSError, IndexError):
        return "not there"


def processor():
    try:
        with open("/proc/cpuinfo", encoding="utf-8") as file:
            return next(line.split(":")[1].strip() for line in file if line.startswith("model name"))
    except (OSError, StopIteration):
        return platform.processor() or "a processor of unknown name"


def counter(bench):
    if bench.callgrind:
        return first_line([bench.callgrind, "--version"])
    return "the trace of " + first_line([bench.trace[0], "--version"]) if bench.trace else "no counter: accesses answered"


def setting(bench):
    return [
        ("date", datetime.date.today().isoformat()),
        ("machine", f"{platform.system()} {platform.machine()}, {processor()}, {os.cpu_count()} processors"),
        ("load", f"{os.getloadavg()[0]:.1f} processes wanted a processor in the last minute"),
        ("Rattle", first_line(["rt", "version"])),
        ("Rust", first_line(["rustc", "--version"])),
        ("counts", counter(bench)),
    ]
