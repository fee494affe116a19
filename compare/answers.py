"""A migration's answers one by one: the line of a trace that the server's answer makes of a turn, and what the program prints there."""
import re
from collections import Counter

END = ("done", "reverted ", "unfinished")
WAITS = re.compile(r" waits (\d+)$")
# A REPLACE by an equal row counts 1 in the server, and 2 in the model.
EQUAL_ROW = "answers of a REPLACE by an equal row, which counts 1 in the server"


def answer_text(reported):
    """An answer of rehearsal.py as a trace has it: what the tool alone gets is `other`."""
    if reported[0] == "refused":
        return f"error {reported[1]}"
    return f"ok {reported[1]}" if reported[0] == "ok" else "other"


def loss_text(is_done, is_refused, is_over):
    """Of a session that is lost after its call: what came of the call. `is_over` says that its wait was over in that turn."""
    return "lost " + ("refused" if is_refused or not is_done and is_over else "done" if is_done else "waited")


def lines_of(turns):
    """The lines, each with the rows that a client read, sorted. A wait doesn't tell for whom: the server has no such number."""
    lines, begun = [], set()
    for number, turn in enumerate(turns, 1):
        asked = "cut" if turn.note == "cut" else "word" if turn.actor == "op" else "rename" if turn.what == "rename" else "call"
        if turn.wait and turn.note != "cut":
            asked = "poll" if turn.wait in begun else asked
            begun.add(turn.wait)
        side = f"-{turn.side}" if turn.side else ""
        rows = turn.reply[2:] if turn.reply and turn.answer.startswith("rows ") else ()
        lines.append((f"{number} {turn.actor} {asked}{side} {turn.answer}", *sorted(rows)))
    return lines


def journal(text):
    """What `trace` printed of each turn: its line, and the rows that a client read, sorted. None where it printed no trace."""
    _, found, rest = text.rpartition("\n#journal\n")
    if not found:
        return None
    lines, given = [], rest.split("\n")
    while given and not given[0].startswith(END):
        line = given.pop(0)
        count = int(line.rpartition(" ")[2]) if re.search(r" rows \d+$", line) else 0
        lines.append((line, *sorted(given[:count])))
        del given[:count]
    return lines


def printed_lines(text):
    """The same of what `trace` printed; none where it printed no trace. A number that was drawn is left out where the server doesn't
    tell it: of a statement that was refused, or whose answer was lost."""
    lines = journal(text)
    return None if lines is None else [(told_alike(line), *rows) for line, *rows in lines]


def told_alike(line):
    return re.sub(r" (error \d+|lost done) id \d+$", r" \1", re.sub(WAITS, " waits", line))


def blockers_compared(turns, text):
    """For whom a session waits, of each turn at which it does: a count of the ways in which the program and the server agree, and the
    first turn at which they don't, in words. Sessions are numbered as they are opened; one that was lost is opened anew."""
    live, opened, waits, ways = {}, 0, {}, Counter()
    for turn, (line, *_) in zip(turns, journal(text)):
        if turn.actor != "op" and turn.actor not in live:
            opened += 1
            live[turn.actor] = opened
        found = re.search(WAITS, line)
        waits[turn.actor] = int(found[1]) if found else 0
        if found and turn.blockers is not None:
            answered = {waits.get(it, 0) for it in turn.blockers & turn.early}
            way = way_to_agree(int(found[1]), *({live.get(it, 0) for it in some} for some in (turn.blockers, turn.behind)), answered)
            if way is None:
                ours = [it for it in live if live[it] == int(found[1])]
                return ways, f"{line}, {turn.line}: the program waits for {ours}, the server for {sorted(turn.blockers)}"
            ways[way] += 1
        if turn.note in ("lost", "cut"):
            live.pop(turn.actor, None)
    return ways, None


def way_to_agree(ours, direct, behind, answered):
    """`direct` has the sessions that the server names, and `behind` those for whom these wait in turn; `answered` those for whom some of
    these wait in the model alone, as the server has answered them already."""
    if ours in direct:
        return "waits for a session that the server names too"
    if ours in behind:
        # (a server takes locks one after the other: who waits for one has others already)
        return "waits for a session, where the server names one that waits for it and has locks already"
    if ours in answered:
        return "waits for a session, where the server names one that it has answered, and that waits for it in the model"
    if direct and ours < min(direct):
        # (the program names the first of all that are in the way, and a server the one that it meets first)
        return "waits for a session that is numbered before those that the server names"
    return None


def is_equal_row(turn, ours, theirs):
    """Whether a REPLACE counts one row more in the model than in the server."""
    mine, other = (re.fullmatch(r"(.* ok )(\d+)", it[0]) for it in (ours, theirs))
    is_replace = turn.line.upper().startswith("REPLACE")
    return bool(is_replace and mine and other and mine[1] == other[1] and int(mine[2]) == int(other[2]) + 1)


def compared(turns, text):
    """How many turns have the same answer, how many are a REPLACE by an equal row, and the first that has another one, in words."""
    ours, theirs = printed_lines(text), lines_of(turns)
    same = equal = 0
    for at, (mine, other) in enumerate(zip(ours, theirs)):
        if mine == other:
            same += 1
        elif is_equal_row(turns[at], mine, other):
            equal += 1
        else:
            return same, equal, f"turn {at + 1}, {turns[at].line}: the program {mine}, the server {other}"
    if len(ours) != len(theirs):
        return same, equal, f"the program has {len(ours)} turns, and the server {len(theirs)}"
    return same, equal, None
