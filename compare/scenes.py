"""Several sessions of a server beside each other: the steps of `scenes.txt`, each with the answer that the definitions give."""
import os
import re

from server import Server
from serving import answer_of

FILE = f"{os.path.dirname(os.path.realpath(__file__))}/scenes.txt"
STEP = re.compile(r"(\w+): (.*?)(?: -> ([^|#]*?))?(?: \| ([^#]*?))?(?: # (.*))?\Z")
# A session whose answer takes longer waits for a lock; a poll that should find an answer is patient.
SOON, PATIENT = 0.4, 20


class Step:
    """A step with the answer of the definitions, what is seen of that from outside, and what a server answers."""

    def __init__(self, line):
        self.session, self.text, ours, theirs, self.rule = STEP.match(line).groups()
        self.ours = ours or "lost"
        self.seen = "waits" if self.ours.startswith("waits") else self.ours
        self.theirs = theirs or self.seen


class Scene:
    def __init__(self, text):
        lines = text.strip().split("\n")
        self.title = lines[0]
        self.tables = [it for it in lines[1:] if not STEP.match(it)]
        self.steps = [Step(it) for it in lines[1:] if STEP.match(it)]


def scenes():
    with open(FILE, encoding="utf-8") as file:
        return [Scene(it) for it in re.split(r"^== ", file.read(), flags=re.M)[1:]]


class Stage:
    """The sessions of a scene, by their names."""

    def __init__(self, server, scene):
        self.server, self.sessions, self.waiting = server, {}, set()
        session = server.session()
        session.need("DROP DATABASE IF EXISTS scene")
        server.database(session, "scene")
        for statement in scene.tables:
            session.need(statement)
        session.close()

    def session(self, name):
        if name not in self.sessions:
            self.sessions[name] = self.server.session()
            self.sessions[name].need("USE scene")
        return self.sessions[name]

    def take(self, step):
        """What the server answers to a step."""
        if step.text == "cut":
            self.waiting.discard(step.session)
            self.lose(self.sessions.pop(step.session))
            return "lost"
        session = self.session(step.session)
        if step.text != "poll":
            session.begin(step.text)
        is_expected = step.theirs != "waits"
        if not session.is_answered(PATIENT if is_expected else SOON):
            self.waiting.add(step.session)
            return "waits"
        self.waiting.discard(step.session)
        form, what = answer_of(session.answer())
        return f"{form} {' '.join(what) if form == 'rows' else what}".strip()

    def lose(self, session):
        """The server ends the session: one that waits doesn't see that its client went."""
        killer = self.server.session()
        killer.need(f"KILL {session.number}")
        while any(row[0] == session.number for row in killer.need("SHOW PROCESSLIST").rows):
            pass
        killer.close()
        session.close()

    def close(self):
        for session in self.sessions.values():
            self.lose(session)


def play(server, scene):
    """Each step with the server's answer, up to one that differs from what is known: behind it nothing is as reported."""
    stage, played = Stage(server, scene), []
    for step in scene.steps:
        answer = stage.take(step)
        played.append((step, answer))
        if answer != step.theirs:
            break
    stage.close()
    return played


def compare_scenes(plants=False):
    """The status: 0 where each step was answered as the definitions say, or as a rule of this project's own tells. Of a planted
    answer of the first scene, where it was found."""
    same, by_rule, unexplained = 0, [], 0
    with Server() as server:
        listed = scenes()[: 1 if plants else None]
        for step in listed[0].steps[:1] if plants else ():
            step.ours = step.seen = step.theirs = "ok 7"
        for scene in listed:
            for step, answer in play(server, scene):
                same += answer == step.seen
                if answer == step.theirs != step.seen:
                    by_rule.append((scene, step, answer))
                if answer != step.theirs:
                    unexplained += 1
                    print(f"unexplained, in: {scene.title}\n  {step.session}: {step.text}\n  definitions: {step.ours}\n  server: {answer}")
        for scene, step, answer in by_rule:
            print(f"{step.rule}\n  {step.session}: {step.text}\n  definitions: {step.ours}\n  server: {answer}")
        print(f"server: {server.version}")
        print(f"scenes: {len(listed)}; steps: {same} the same, {len(by_rule)} by a rule of this project's own, {unexplained} unexplained")
    if plants:
        print(f"the planted answer was {'found' if unexplained else 'NOT found'}")
    return 1 if bool(unexplained) != plants else 0
