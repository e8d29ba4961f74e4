"""tools/launcher: what it prints for x86-64 and for another processor, here by a `uname` and a toolchain made for it; and ./cardrun by it."""
import os
import subprocess
import tempfile

from made import program


def call(command, folder, machine, **more):
    """(status, what it printed, what it said) on a machine of this name."""
    program(folder, "uname", f"echo {machine}")
    path = os.pathsep.join((folder, os.environ["PATH"]))
    done = subprocess.run(command, stdin=subprocess.DEVNULL, capture_output=True, text=True, env={**os.environ, "PATH": path, **more}, check=False)
    return done.returncode, done.stdout, done.stderr


def test_x86_64_needs_no_words():
    with tempfile.TemporaryDirectory() as folder:
        assert call(["tools/launcher"], folder, "x86_64", RATTLE_HOME="") == (0, "", "")


def test_another_processor_has_the_emulator_before_the_program():
    with tempfile.TemporaryDirectory() as folder:
        kit = os.path.join(folder, "a kit")  # a path may hold spaces
        tools = os.path.join(kit, "on", "aarch64", "toolchain")
        lib = os.path.join(tools, "lib")
        loader = os.path.join(lib, "ld-linux-x86-64.so.2")
        rt = program(os.path.join(kit, "bin"), "rt", "exit 1")

        missing = call(["tools/launcher"], folder, "aarch64", RATTLE_HOME=kit)
        assert missing[:2] == (1, "") and "no emulator for this processor, aarch64" in missing[2], missing
        emulator = program(os.path.join(tools, "bin"), "qemu-x86_64", "printf '%s\\n' \"$@\"")
        missing = call(["tools/launcher"], folder, "aarch64", RATTLE_HOME=kit)
        assert missing[:2] == (1, "") and "no loader for its programs" in missing[2], missing
        program(lib, "ld-linux-x86-64.so.2", "exit 1")

        words = f"{emulator}\n{loader}\n--library-path\n{lib}\n"
        assert call(["tools/launcher"], folder, "aarch64", RATTLE_HOME=kit) == (0, words, "")
        os.symlink(rt, os.path.join(folder, "rt"))  # without RATTLE_HOME the kit is where rt really stands
        words = words.replace(kit, os.path.realpath(kit))
        assert call(["tools/launcher"], folder, "aarch64", RATTLE_HOME="") == (0, words, "")

        status, printed, said = call(["./cardrun", "sessions/sample.session"], folder, "aarch64", RATTLE_HOME=kit)
        assert (status, printed.splitlines()[:3], said) == (0, [loader, "--library-path", lib], ""), (status, printed, said)
        assert printed.endswith("/crates/cardrun/out/cardrun\n"), printed


def test_cardrun_says_what_is_not_there():
    with tempfile.TemporaryDirectory() as folder:
        status, printed, said = call(["./cardrun", "sessions/sample.session"], folder, "aarch64", RATTLE_HOME=folder)
        assert (status, printed) == (2, "") and said.startswith("cardrun: the toolchain has no emulator for this processor, aarch64: "), said


def test_cardrun_by_a_link_from_another_place():
    with open("sessions/sample.txt", "rb") as file:
        wanted = file.read()
    with tempfile.TemporaryDirectory() as folder:
        link = os.path.join(folder, "linked")
        os.symlink(os.path.abspath("cardrun"), link)
        assert subprocess.run([link, os.path.abspath("sessions/sample.session")], cwd=folder, capture_output=True, check=False).stdout == wanted


def test_cardrun_takes_standard_input_and_says_its_usage():
    with open("sessions/sample.session", "rb") as file, open("sessions/sample.txt", "rb") as wanted:
        assert subprocess.run(["./cardrun", "-"], stdin=file, capture_output=True, check=False).stdout == wanted.read()
    for words, status in ((["--help"], 0), (["-h"], 0), (["a", "b"], 2)):
        done = subprocess.run(["./cardrun", *words], capture_output=True, text=True, check=False)
        assert done.returncode == status and "usage: ./cardrun [FILE]" in (done.stderr if status else done.stdout), (words, done)
    assert subprocess.run(["./cardrun", ""], stdin=subprocess.DEVNULL, capture_output=True, text=True, check=False).stderr == "cardrun: no such file: \n"
