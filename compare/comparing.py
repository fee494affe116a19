"""The comparison of many plans: runs them on both sides, explains what differs, and tells it."""
import copy
import dataclasses
import re
import sys

from judge import ROWS_REFUSED, Count, Judge
from program import Ran
from reports import Report
from rules import OWN, OWN_OF_STATEMENTS, REPHRASINGS, in_other_words
from server import Server
from serving import Bench


class Comparison:
    def __init__(self, server):
        self.bench, self.count = Bench(server), Count()
        self.by_rule, self.unexplained = {}, []
        self.turns = {}

    def plan(self, plan, check, replay, turns=None):
        """The differences of a plan, each with its rule. `turns` has the clients' turns, where their transactions go beside each other."""
        self.turns[plan.name] = turns
        differences = Judge(plan, check, replay, self.bench.serve(plan, turns), self.count, rule_of).judge()
        for difference in differences:
            difference.rule = rule_of(plan, difference)
        if any(it.rule is None for it in differences):
            self.rephrase(plan, check, replay, differences)
        for difference in differences:
            if difference.rule is None:
                self.unexplained.append((plan, difference))
            else:
                self.by_rule.setdefault(difference.rule, []).append((plan, difference))
        return differences

    def rephrase(self, plan, check, replay, differences):
        """Says the plan to the server in the words that a rule takes it for: what then is the same, the rule explains."""
        chosen = [rule for rule in REPHRASINGS if rule.speaks_of(plan, differences)]
        for rules in [[rule] for rule in chosen]:
            self.explain(plan, check, replay, differences, rules)
        if len(chosen) > 1 and self.explained(plan, check, replay, differences, chosen):
            self.explain(plan, check, replay, differences, self.least(plan, check, replay, differences, chosen))

    def least(self, plan, check, replay, differences, rules):
        """The same rules without those that aren't needed."""
        for rule in list(rules):
            fewer = [it for it in rules if it is not rule]
            if self.explained(plan, check, replay, differences, fewer) == self.explained(plan, check, replay, differences, rules):
                rules = fewer
        return rules

    def explain(self, plan, check, replay, differences, rules):
        keys = self.explained(plan, check, replay, differences, rules)
        for difference in differences:
            if difference.rule is None and difference.key() in keys:
                difference.rule = " and ".join(rule.name for rule in rules)

    def explained(self, plan, check, replay, differences, rules):
        """The keys of the differences that these rules together leave none of; nothing where they bring a new one."""
        unexplained = {it.key() for it in differences if it.rule is None}
        for other in in_other_words(plan, rules):
            again = Judge(plan, check, replay, self.bench.serve(other, self.turns[plan.name]), Count(), rule_of).judge()
            left = {it.key() for it in again if rule_of(plan, it) is None}
            if left < unexplained:
                return unexplained - left
        return set()


def rule_of(plan, difference):
    plan = plan.of_second() if difference.place == "u" else plan
    return next((rule.name for rule in [*OWN, *OWN_OF_STATEMENTS] if rule.explains(plan, difference)), None)


def printed_by(program, plans):
    """Each plan with what `check` and `replay` print; a plan that is refused has no altered schema to be printed."""
    replays = program.run("replay", plans)
    checked = [plan for plan, replay in zip(plans, replays) if replay.status != 2]
    # A bad row and a statement that is left out come ahead of the ALTER's own faults, which a plan without them has.
    checked += [bare(plan) for plan, replay in zip(plans, replays) if Report(replay).refused in ROWS_REFUSED]
    checks = dict(zip((plan.name for plan in checked), program.run("check", checked)))
    turns = turns_of(program, [(plan, Report(replay)) for plan, replay in zip(plans, replays) if plan.client_wait])
    return [(plan, checks.get(plan.name, replay), replay, turns.get(plan.name)) for plan, replay in zip(plans, replays)]


def turns_of(program, pairs):
    """The clients' turns of each plan: the client, and whether it waits, up to a time-out. What a turn did is seen from a run that
    ends with it."""
    asked = [(plan, report, at) for plan, report in pairs for at in range(1, len(report.order) + 1) if has_waits(report)]
    ran = iter(program.asker.run("replay", [dataclasses.replace(plan, turn_limit=at) for plan, _, at in asked]))
    turns = {}
    for plan, report in pairs:
        reported = [[[] for _ in report.replies], *(Report(next(ran)).replies for _ in report.order)] if has_waits(report) else None
        turns[plan.name] = [(client, reported is not None and is_wait(reported[at][client], reported[at + 1][client])) for at, client in enumerate(report.order)]
    return turns


def is_wait(before, after):
    return len(before) == len(after) or after[-1] == ("error", 1205)


def has_waits(report):
    return len(report.order) > sum(len(it) for it in report.replies)


def bare(plan):
    return dataclasses.replace(plan, rows=[], clients=[], second_rows=[])


def run_both(comparison, program, plans):
    for number, (plan, check, replay, turns) in enumerate(printed_by(program, plans)):
        comparison.plan(plan, check, replay, turns)
        if sys.stderr.isatty() and number % 50 == 0:
            print(f"\r{number} of {len(plans)} plans", end="", file=sys.stderr)


def tell(plan, difference):
    print(f"plan {plan.name}, {difference.kind} {difference.place}")
    print(f"  ghost:  {difference.ours}\n  server: {difference.theirs}")
    for line in plan.toml().strip().split("\n"):
        print(f"  {line}" if len(line) < 2000 else f"  {line[:200]} ..")


def tell_counts(comparison, plans, version):
    count = comparison.count
    print(f"server: {version}")
    print(f"plans: {len(plans)}, of which {count.done} ended with the ALTER done")
    titles = {"create": "CREATE TABLEs", "rows": "lists of opening rows", "answer": "statements", "alter": "ALTERs", "table": "tables at the end"}
    for kind, title in titles.items():
        print(f"{title}: {count.same[kind]} of {count.compared[kind]} the same")
    print(f"rows in those tables: {count.rows_left}")
    if count.numbers:
        print(f"numbers that AUTO_INCREMENT columns gave out alike: {count.numbers}")
    for why, plans_left in sorted(count.left.items()):
        print(f"plans of several clients followed up to where {why}: {plans_left}")
    if count.parted:
        print(f"plans followed up to a statement that by rule one side does and the other refuses: {count.parted}")
    differing = sum(len(found) for found in comparison.by_rule.values())
    print(f"differences: {differing} by a rule of this project's own, {len(comparison.unexplained)} unexplained")
    for rule, found in sorted(comparison.by_rule.items(), key=lambda it: -len(it[1])):
        print(f"  {len(found):5} {rule}")


def compare(program, plans, tells_all):
    """The status of the whole: 0 where nothing is unexplained."""
    with Server() as server:
        comparison = Comparison(server)
        run_both(comparison, program, plans)
        for rule, found in comparison.by_rule.items() if tells_all else ():
            print(f"== {rule}")
            for plan, difference in found:
                tell(plan, difference)
        for plan, difference in comparison.unexplained:
            print("== unexplained")
            tell(plan, difference)
        tell_counts(comparison, plans, server.version)
    return 1 if comparison.unexplained else 0


SAME = "the same on both sides: "


def show_rules(program, plans):
    """Each example begins with the rule that it shows, and differs by that rule alone, or with what is the same on both sides, and
    differs in nothing; and each rule has an example."""
    wrong, shown, same = [], set(), 0
    with Server() as server:
        for plan, check, replay, turns in printed_by(program, plans):
            with open(plan.name, encoding="utf-8") as file:
                wanted = file.readline().removeprefix("# ").strip()
            found = {difference.rule for difference in Comparison(server).plan(plan, check, replay, turns)}
            shown |= found
            same += wanted.startswith(SAME)
            if found != (set() if wanted.startswith(SAME) else {wanted}):
                wrong.append(f"{plan.name} shows {found or 'no difference'}, and not: {wanted}")
    wrong += [f"no example shows: {rule.name}" for rule in [*OWN, *OWN_OF_STATEMENTS, *REPHRASINGS] if rule.name not in shown]
    print("\n".join(wrong) if wrong else f"{len(plans) - same} plans show {len(shown)} rules, {same} what is the same on both sides")
    return 1 if wrong else 0


def changed(ran, pattern, by):
    """The same output with one place changed; none where it has no such place."""
    text, changes = re.subn(pattern, by, ran.text, count=1, flags=re.M)
    return Ran(text, ran.status) if changes else None


def refused(text):
    """Another output in place of both."""
    return lambda check, replay: (Ran(text, 2), Ran(text, 2))


def in_replay(pattern, by):
    return lambda check, replay: (check, changed(replay, pattern, by))


# For each kind of difference one in a copy of what `check` and `replay` print.
PLANTS = {
    "create": refused("refused 15 columns table 1\n"),
    "rows": refused("refused 58 bad_row table 1 row 1\n"),
    "alter": refused("refused 30 last_column\n"),
    "answer": in_replay(r"^(\d+\.\d+ ok )(\d+)$", lambda it: f"{it.group(1)}{int(it.group(2)) + 1}"),
    "number": in_replay(r"^(\d+\.\d+ ok \d+ id )(\d+)$", lambda it: f"{it.group(1)}{int(it.group(2)) + 1}"),
    "table": in_replay(r"^(table t .*\n)\(.*\n", r"\1"),
    "unfit": lambda check, replay: (check, Ran(re.sub(r"\Adone", "reverted unfit turn 8 key (1) column 'a' 1406", replay.text), 3)),
    "shape": lambda check, replay: (changed(check, r" INT\b", " BIGINT"), replay),
}


def plant(program, plans):
    """Changes a copy of an output in one place, once for each kind of difference, and wants it to be reported as unexplained."""
    missed = 0
    with Server() as server:
        printed = [it for it in printed_by(program, [plan for plan in plans if plan.clients]) if it[2].status == 0]
        plain = [it for it in printed if not Comparison(server).plan(*it)]
        for kind, change in PLANTS.items():
            found = next((it for it in plain if plant_one(server, it, kind, change)), None)
            print(f"planted, {kind}: {'found' if found else 'NOT found'}")
            missed += found is None
    return 1 if missed else 0


def plant_one(server, printed, kind, change):
    plan, check, replay, turns = printed
    wrong = change(check, replay)
    if None in wrong or wrong == (check, replay):
        return False
    comparison = Comparison(server)
    comparison.plan(copy.copy(plan), *wrong, turns)
    wanted = "answer" if kind == "number" else kind
    return wanted in [difference.kind for _, difference in comparison.unexplained]
