"""Runs a plan again and again, each time with other losses of sessions, and gathers how the runs end."""
import collections
import concurrent.futures
import os
import random
import re
import subprocess
import tomllib

from asking import toml
from traces import name_of

# The plan's actors but the operator, who has no session, and the words of its losses.
SIDES = ("before", "after")
SEED = 1


class Refused(Exception):
    """The program's refusal of the plan itself."""


class Ending:
    """How a run ended: its verdict, how many turns it took, and what its clients saw."""

    def __init__(self, printed):
        lines = printed.split("\n")
        self.verdict, self.seen, self.turns, self.order = lines[0], collections.Counter(), 0, []
        for line in lines:
            word, _, rest = line.partition(" ")
            if re.fullmatch(r"\d+\.\d+", word) and (rest == "lost" or rest.startswith("error ")):
                self.seen[rest] += 1
            elif word == "turns" and rest.isdigit():
                self.turns = int(rest)
            elif word == "order":
                self.order = [actor for part in rest.split() for actor in repeated(part)]

    def kind(self):
        """The verdict without its places."""
        words = self.verdict.split()
        return " ".join(words[:3] if words[1:2] == ["spent"] else words[:2])

    def told(self, usual):
        """What clients saw beyond what they see without a loss."""
        more = self.seen - usual
        return ", ".join(f"{what} {count}" if count > 1 else what for what, count in sorted(more.items())) or "nothing more"


def repeated(word):
    actor, _, count = word.partition("*")
    return [actor] * int(count or 1)


class Sweep:
    """A plan, and a program that runs it."""

    def __init__(self, program, data):
        self.program = program
        self.plan = tomllib.loads(data.decode())
        self.plan.pop("faults", None)
        shown = {"show_turns": True, "show_replies": True, "show_tables": False, "show_history": False}
        self.plan["options"] = {**self.plan.get("options", {}), **shown}
        self.usual = self.run(self.plan)
        # (no loss and no command strikes a new tool's turns)
        self.order = self.usual.order[: self.plan["options"].get("turn_limit", len(self.usual.order))]

    def run(self, plan):
        ran = subprocess.run([self.program, "replay"], input=toml(plan).encode("utf-8", "surrogateescape"), stdout=subprocess.PIPE)
        if ran.returncode == 2:
            raise Refused(ran.stdout.decode("utf-8", "replace").strip())
        if ran.returncode not in (0, 3, 7):
            raise OSError(None, f"the program ended with status {ran.returncode}", self.program)
        ending = Ending(ran.stdout.decode("utf-8", "replace"))
        if not ending.verdict:
            raise OSError(None, "the program printed no report", self.program)
        return ending

    def turns_of(self):
        """The actors with sessions, and how many turns each took."""
        return collections.Counter(actor for actor in self.order if actor != "op")

    def losses(self, every):
        """Each turn of each actor, before its call and after it; of every so many turns where that is more than one."""
        return [f"{actor} {turn} {side}" for actor, turns in self.turns_of().items() for turn in range(1, turns + 1, every) for side in SIDES]

    def singles(self, every):
        for loss in self.losses(every):
            yield loss.split()[0], loss, {**self.plan, "faults": [loss]}

    def pairs(self, count):
        """So many pairs of losses, the same ones at each call."""
        losses, chance = self.losses(1), random.Random(SEED)
        for _ in range(count if len(losses) > 1 else 0):
            one, other = (losses[place] for place in sorted(chance.sample(range(len(losses)), 2)))
            yield f"{one.split()[0]} and {other.split()[0]}", f"{one}, {other}", {**self.plan, "faults": [one, other]}

    def panics(self, every):
        """The operator's panic before each turn."""
        commands = [word for line in self.plan.get("operator", "").split("\n") for word in commands_in(line)]
        for at in range(0, len(self.order) + 1, every):
            before, after = self.order[:at], self.order[at:]
            taken = before.count("op")
            operator = "\n".join([*commands[:taken], "panic"])
            turns = " ".join([*before, "op", *(actor for actor in after if actor != "op")])
            yield "panic", f"panic at turn {at + 1}", {**self.plan, "operator": operator, "turns": turns}

    def endings(self, jobs, tick):
        """The runs, as (group, words, ending), in the order of the jobs."""
        jobs = list(jobs)
        with concurrent.futures.ThreadPoolExecutor(os.cpu_count() or 1) as pool:
            for done, ((group, words, _), ending) in enumerate(zip(jobs, pool.map(self.run, (plan for _, _, plan in jobs))), 1):
                tick(done, len(jobs))
                yield group, words, ending


def commands_in(line):
    word, _, number = line.strip().partition(" ")
    if word == "wait" and number.strip().isdigit():
        return ["wait 1"] * int(number)
    return [line.strip()] if word else []


def lines(title, sweep, endings):
    """A table: by group how the runs end, what clients see, and the longest run."""
    groups, longest, count = collections.Counter(), {}, 0
    for group, words, ending in endings:
        key = (group, ending.kind(), ending.told(sweep.usual.seen))
        groups[key] += 1
        count += 1
        longest[key] = max(longest.get(key, (0, "")), (ending.turns, words), key=lambda it: it[0])
    yield f"{count} runs, {title}:"
    order = list(dict.fromkeys(group for group, _, _ in groups))
    rows = sorted(groups.items(), key=lambda it: (order.index(it[0][0]), -it[1]))
    names = {group: " and ".join(map(name_of, group.split(" and "))) for group in order}
    widths = [max((len(text) for text in column), default=0) for column in ((names[key[0]] for key, _ in rows), (key[1] for key, _ in rows), (key[2] for key, _ in rows))]
    for (group, kind, seen), times in rows:
        turns, words = longest[group, kind, seen]
        yield f"  {names[group]:{widths[0]}} {times:5}  {kind:{widths[1]}}  clients see {seen:{widths[2]}}  longest {turns} turns, by `{words}`"
