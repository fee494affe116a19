"""A plan in the words that a rule takes it for."""
import dataclasses
import re

from facts import Known
from words import clauses, items, joined, spaced, words


def as_copied(plan):
    listed = [it for it in clauses(plan.alter) if it]
    return dataclasses.replace(plan, steps=[plan.alter], carried=carried(plan.create, listed), order=Known(plan.create).clustered)


def clause_by_clause(plan):
    listed = [it for it in clauses(plan.alter) if it]
    if len(listed) < 2:
        return None
    return dataclasses.replace(as_copied(plan), steps=[joined(it) for it in listed])


def carried(create, listed):
    """The columns that an ALTER keeps: each by its new name and its old one."""
    old_names = {name: name for name in Known(create).families}
    for clause in listed:
        rest = [it.name() for it in clause[1:] if not it.is_word("COLUMN")] + [None, None]
        if clause[0].is_word("DROP"):
            old_names.pop(rest[0], None)
        elif clause[0].is_word("CHANGE") and rest[0] in old_names:
            old_names[rest[1]] = old_names.pop(rest[0])
        elif clause[0].is_word("RENAME") and rest[0] in old_names:
            old_names[rest[2]] = old_names.pop(rest[0])
    return list(old_names.items())


def without_collation(plan):
    pattern = re.compile(r"(?i)\s+(DEFAULT\s+)?(CHARSET|CHARACTER\s+SET|COLLATE)\s*=?\s*\w+")
    create, alter = pattern.sub("", plan.create), pattern.sub("", plan.alter)
    return dataclasses.replace(plan, create=create, alter=alter) if (create, alter) != (plan.create, plan.alter) else None


def texts_of(create):
    return {name for name, kind in Known(create).families.items() if kind in ("VARCHAR", "VARBINARY")}


def keys_as_texts(plan):
    texts_of_table = {"t": texts_of(plan.create), "u": texts_of(plan.second) if plan.second else set()}

    def line_of(line):
        listed, column, quoted_one, inside = words(line), None, False, False
        texts = next((texts_of_table[it.name()] for it in listed if it.name() in texts_of_table), set())
        for word in listed:
            inside = inside or word.is_word("WHERE")
            column = word.name() if word.name() and not word.is_word("AND", "BETWEEN") else column
            if inside and word.kind == "number" and column in texts:
                word.text, quoted_one = f"'{int(word.text)}'", True
        return joined(listed) if quoted_one else line

    clients = [[line_of(line) for line in script] for script in plan.clients]
    return dataclasses.replace(plan, clients=clients) if clients != plan.clients else None


def with_spare_numbers(plan):
    return dataclasses.replace(plan, spares=True) if plan.second and not plan.spares else None


def with_two_keys(plan):
    """A column's UNIQUE beside its PRIMARY KEY as an item of its own."""
    listed, behind = items(plan.create)
    texts, both = [], False
    for item in listed:
        is_both = len([it for it in item if it.is_word("PRIMARY")]) == len([it for it in item[1:] if it.is_word("UNIQUE")]) == 1
        both = both or is_both
        plain = re.sub(r"(?i) UNIQUE( KEY)?(?= |$)", "", joined(item), count=1) if is_both else joined(item)
        texts += [plain, f"UNIQUE ({item[0].text})"] if is_both else [plain]
    create = f"CREATE TABLE t ({', '.join(texts)}) {joined(behind)}"
    return dataclasses.replace(plan, create=create) if both else None


# Words that MySQL reserves and the model doesn't: where one is a name, it needs backquotes there.
RESERVED = "RANK GROUPS ORDER SELECT INTERVAL RANGE".split()
KEYWORDS = "KEY INDEX UNIQUE PRIMARY NOT NULL DEFAULT TO ADD DROP CHANGE RENAME COLUMN INT VARCHAR UNSIGNED".split()


def quoted(listed, is_name):
    return spaced(f"`{it.text}`" if is_name(place, it) else it.text for place, it in enumerate(listed))


def with_backquotes(plan):
    """Each reserved word in backquotes; and each keyword for itself, which may be a name there."""
    create, alter, second = words(plan.create), words(plan.alter), words(plan.second or "")
    if any(it.is_word(*RESERVED) for it in create + alter + second):
        texts = [quoted(listed, lambda _, it: it.is_word(*RESERVED)) for listed in (create, alter, second)]
        # A statement's first word is never a name.
        clients = [[quoted(words(line), lambda at, it: at > 0 and it.is_word(*RESERVED)) for line in script] for script in plan.clients]
        yield dataclasses.replace(plan, create=texts[0], alter=texts[1], second=texts[2] or None, clients=clients)
    for part, listed in (("create", create), ("alter", alter)):
        for place in [at for at, it in enumerate(listed) if it.is_word(*KEYWORDS)]:
            yield dataclasses.replace(plan, **{part: quoted(listed, lambda at, _, place=place: at == place)})
