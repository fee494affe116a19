"""Asks the program which plans it refuses, and where."""
import json
import os
import re
import subprocess
import sys

GHOST = f"{os.path.dirname(os.path.dirname(os.path.realpath(__file__)))}/ghost"

REFUSAL = re.compile(r"refused (\d+) (\w+)(?: (.*))?\n")


class Refusal:
    """A code, its name, the place as it is printed, and the numbers in it, from 1."""

    def __init__(self, code, name, place):
        self.code, self.name, self.place = code, name, place
        self.numbers = [int(number) for number in re.findall(r"\d+", place)]

    def line(self):
        return f"refused {self.code} {self.name} {self.place}".rstrip()


def refusal_in(printed):
    """The refusal that the program printed, or none."""
    found = REFUSAL.fullmatch(printed)
    return Refusal(int(found[1]), found[2], found[3] or "") if found else None


def program_here():
    """The path of the program that `./ghost` has; where there is none, `./ghost` has said why."""
    ran = subprocess.run([GHOST, "--path"], stdin=subprocess.DEVNULL, stdout=subprocess.PIPE)
    if ran.returncode != 0:
        sys.exit(ran.returncode)
    return os.fsdecode(ran.stdout.rstrip(b"\n"))


class Program:
    """A built program. `asked` counts the plans that it was asked of."""

    def __init__(self, path):
        self.path, self.asked = path, 0

    def answer(self, data):
        """What `check` answers to the bytes of a plan."""
        self.asked += 1
        ran = subprocess.run([self.path, "check"], input=data, stdout=subprocess.PIPE)
        if ran.returncode not in (0, 2):
            raise OSError(None, f"the program ended with status {ran.returncode}", self.path)
        return ran.stdout.decode("utf-8", "replace") if ran.returncode == 2 else ""


class Asking:
    """Asks each plan once. `answer` is a program's."""

    def __init__(self, answer):
        self.answer, self.known = answer, {}

    def bytes(self, data):
        if data not in self.known:
            self.known[data] = refusal_in(self.answer(data))
        return self.known[data]

    def plan(self, plan):
        return self.bytes(toml(plan).encode("utf-8", "surrogateescape"))

    def code(self, plan):
        refusal = self.plan(plan)
        return refusal.code if refusal else None


def value(it):
    if isinstance(it, dict):
        return "{" + ", ".join(f"{key(name)} = {value(part)}" for name, part in it.items()) + "}"
    if isinstance(it, list):
        return "[" + ", ".join(map(value, it)) + "]"
    if isinstance(it, (str, bool, int)):
        return json.dumps(it, ensure_ascii=False).replace("\x7f", "\\u007f")
    return str(it)


def key(name):
    return name if re.fullmatch(r"[\w-]+", name, re.A) else value(name)


def toml(plan):
    """A plan as a document of TOML, each of its values on a line of its own."""
    tables = plan.get("tables")
    is_array = isinstance(tables, list) and all(isinstance(table, dict) for table in tables)
    lines = [f"{key(name)} = {value(it)}\n" for name, it in plan.items() if name != "tables" or not is_array]
    for table in tables if is_array else []:
        lines += ["[[tables]]\n", *(f"{key(name)} = {value(it)}\n" for name, it in table.items())]
    return "".join(lines)
