#!/usr/bin/env python3
"""Types the commands of docs/FIRST_RUN.md again and compares what they print; `..` stands there for lines, or for the rest of one.

    tools/tests/transcript.py    all of them, with the program that `./ghost --unproved` has or builds, and prints what differs

`tools/test` types those that need no program."""
import itertools
import os
import pathlib
import re
import subprocess
import sys
import tempfile
import unittest

TOP = pathlib.Path(__file__).resolve().parent.parent.parent
DOCUMENT = TOP / "docs/FIRST_RUN.md"
# How the commands begin that need no program.
ALONE = ("cp ", "sed ", "tools/convert ", "./ghost frob;", "./ghost replay ")


def commands():
    """Each command with the lines that stand below it."""
    for part in DOCUMENT.read_text().split("```console\n")[1:]:
        for text in re.split(r"(?m)^\$ ", part.partition("```")[0])[1:]:
            command, *lines = text.rstrip("\n").split("\n")
            yield command, lines


def is_line(wanted, line):
    return line == wanted or wanted.endswith(" ..") and line.startswith(wanted[:-2])


def is_same(wanted, printed):
    """Whether lines are printed as they stand, where `..` stands for any number of them."""
    if not wanted:
        return not printed
    if wanted[0] == "..":
        return any(is_same(wanted[1:], printed[at:]) for at in range(len(printed) + 1))
    return bool(printed) and is_line(wanted[0], printed[0]) and is_same(wanted[1:], printed[1:])


def typed(folder, command):
    """What a command prints in a folder, its errors too."""
    ran = subprocess.run(["bash", "-c", command], cwd=folder, stdin=subprocess.DEVNULL, stdout=subprocess.PIPE, stderr=subprocess.STDOUT)
    return ran.stdout.decode().rstrip("\n").split("\n") if ran.stdout else []


def clone(folder):
    """What stands for a clone: links to the repository."""
    for name in ("ghost", "tools", "examples", "docs"):
        os.symlink(TOP / name, pathlib.Path(folder) / name)
    return folder


def differences(folder, is_typed):
    """Each command that printed something else, with what stands there and what it printed."""
    for command, wanted in commands():
        if is_typed(command):
            printed = typed(folder, command)
            if not is_same(wanted, printed):
                yield command, wanted, printed
    for name in re.findall(r"\(pictures/(\w+\.svg)\)", DOCUMENT.read_text()):
        made = pathlib.Path(folder) / name
        if made.exists() and made.read_bytes() != (TOP / "docs/pictures" / name).read_bytes():
            yield f"the picture {name}", [], ["another one"]


class Transcript(unittest.TestCase):
    def test_without_the_program(self):
        with tempfile.TemporaryDirectory(prefix="test-transcript-") as folder:
            self.assertEqual(list(differences(clone(folder), lambda command: command.startswith(ALONE))), [])
        self.assertGreater(sum(command.startswith(ALONE) for command, _ in commands()), 5)

    def test_comparison(self):
        for wanted, printed, same in (
            (["a", "b"], ["a", "b"], True),
            (["a"], ["a", "b"], False),
            (["a", ".."], ["a", "b", "c"], True),
            (["..", "c"], ["a", "b"], False),
            (["a", "..", "c ..", "d"], ["a", "c 1", "d"], True),
            ([], ["a"], False),
        ):
            self.assertEqual(is_same(wanted, printed), same, (wanted, printed))


def main():
    with tempfile.TemporaryDirectory(prefix="transcript-") as folder:
        found = list(differences(clone(folder), lambda command: True))
    for command, wanted, printed in found:
        print("\n".join(itertools.chain([f"== {command}, stands:"], wanted, ["== printed:"], printed)))
    return 1 if found else 0


if __name__ == "__main__":
    sys.exit(main())
