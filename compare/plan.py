"""A plan: what `ghost` reads as TOML, and the same for a server in SQL."""
import dataclasses
import json


@dataclasses.dataclass
class Plan:
    name: str
    create: str
    rows: list
    alter: str
    clients: list
    approve: bool = True
    # How often a client's wait is polled, where its clients' transactions go beside each other; the report then has the turns.
    client_wait: int = 0
    turn_limit: int = 0  # how many turns are taken, where that is said
    # What a rule says to a server in place of the ALTER: texts, pairs of a new and an old column, and the columns of the clustered
    # key. The texts are run on an empty copy of the table, and its rows are then inserted there in order of the key. Where there
    # are no pairs, the server alters the table itself.
    steps: list = None
    carried: list = None
    order: list = None
    # The CREATE TABLE of a table `u` beside the migrated one, which gives out numbers, and its rows: the plan is of version 2 then.
    second: str = None
    second_rows: list = None
    # Whether the server gives out a number too where it refuses a statement before it would.
    spares: bool = False

    def of_second(self):
        """The plan as rules look at it where they are asked of the second table."""
        return dataclasses.replace(self, create=self.second, rows=self.second_rows)

    def toml(self):
        text = f'version = {2 if self.second else 1}\ntable = "t"\nalter = {quoted(self.alter)}\n'
        if self.clients:
            scripts = ", ".join(quoted("\n".join(script)) for script in self.clients)
            text += f"clients = [{scripts}]\n"
            # The tool waits until all clients are done, as the server gets the ALTER after their lines.
            text += f'turns = "{self.order_of_clients()}"\n'
        text += table_text(self.create, self.rows)
        if self.second:
            text += table_text(self.second, self.second_rows)
        options = ["approve_renamed_columns = true"] if self.approve else []
        options += [f"client_wait = {self.client_wait}", "show_turns = true"] if self.client_wait else []
        options += [f"turn_limit = {self.turn_limit}"] if self.turn_limit else []
        return text + "".join(f"{it}\n" for it in (["[options]"] if options else []) + options)

    def alters(self):
        return [with_front(it) for it in (self.steps if self.steps is not None else [self.alter])]

    def order_of_clients(self):
        """Whose turn it is; where clients can wait, as many rounds as they can need: a word whose client isn't ready is passed over."""
        if not self.client_wait:
            return " ".join(f"c{number + 1}" for number, _, _ in self.turns())
        rounds = (self.client_wait + 1) * sum(len(script) for script in self.clients)
        return " ".join([f"c{number + 1}" for number in range(len(self.clients))] * rounds)

    def turns(self):
        """The clients' lines in the order of their turns: round after round, a line of each client that has one left."""
        longest = max((len(script) for script in self.clients), default=0)
        for place in range(longest):
            for number, script in enumerate(self.clients):
                if place < len(script):
                    yield number, place, script[place]


def table_text(create, rows):
    listed = f"rows = [{', '.join(quoted(row) for row in rows)}]\n" if rows else ""
    return f"[[tables]]\ncreate = {quoted(create)}\n{listed}"


def quoted(text):
    return json.dumps(text, ensure_ascii=False).replace("\x7f", "\\u007f")


def with_front(alter):
    """A server takes an ALTER with its front alone."""
    return alter if alter.upper().split()[:2] == ["ALTER", "TABLE"] else f"ALTER TABLE t {alter}"


def plan_of_file(path):
    """A plan of a file, as far as the comparison reads one; none where it has another form or table."""
    import tomllib

    try:
        with open(path, "rb") as file:
            read = tomllib.load(file)
    except (tomllib.TOMLDecodeError, UnicodeDecodeError):
        return None
    tables = read.get("tables", [])
    if set(read) - {"version", "table", "alter", "clients", "tables", "options"} or len(tables) != read.get("version", 1):
        return None
    scripts = [[it for it in script.split("\n") if it.strip()] for script in read.get("clients", [])]
    options = read.get("options", {})
    approve = options.get("approve_renamed_columns", False)
    if read["table"] != "t" or set(options) - {"approve_renamed_columns", "client_wait", "show_turns"}:
        return None
    second = (tables[1]["create"], tables[1].get("rows", [])) if len(tables) == 2 else (None, None)
    wait = options.get("client_wait", 0)
    return Plan(path, tables[0]["create"], tables[0].get("rows", []), read["alter"], scripts, approve, wait, second=second[0], second_rows=second[1])
