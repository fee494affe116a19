"""Random scripts of clients: a function for each form of statement."""
import making

EDGES = [-2147483648, 2147483647, 127, 128, -128, -129, 255, 256, 32767, 32768, 65536, 1000, 99999]


def number(r):
    return r.randrange(-1, 10) if making.chance(r, 85) else r.choice(EDGES)


def value(r, column):
    if column.is_auto:
        return counted(r, column)
    if making.chance(r, 70):
        return making.odd_literal(r, column) if making.chance(r, 6) else making.literal_for(r, column)
    return str(number(r))


def counted(r, column):
    """A value of the column that counts: what stands for the next number, as a rule."""
    if making.chance(r, 60):
        return r.choice(["NULL", "NULL", "0", "0", "'0'", "-0", "00"])
    return str(making.number_for(r, column) if making.chance(r, 15) else number(r) + r.choice([0, 0, 3, 20]))


def compared(r, column):
    """The same of a condition, where NULL isn't read."""
    return str(number(r)) if column.is_auto else value(r, column)


def name_of(r, column):
    bare = column.name.strip("`")
    return f"`{bare}`" if column.name != bare or making.chance(r, 20) else column.name


def insert(r, table, word="INSERT"):
    columns, listed = list(table.columns), ""
    if table.counts and len(columns) > 1 and making.chance(r, 30):
        columns = [it for it in columns if not it.is_auto]
        listed = f" ({', '.join(name_of(r, it) for it in columns)})"
    elif making.chance(r, 40):
        columns = r.sample(columns, r.randrange(1, len(columns) + 1))
        listed = f" ({', '.join(name_of(r, it) for it in columns)})"
    values = [value(r, it) for it in columns]
    if making.chance(r, 3):
        values = values[1:] or ["1", "2"]
    return f"{making.letters(r, word + ' INTO')} {table.name}{listed} VALUES ({', '.join(values)})"


def replace(r, table):
    return insert(r, table, "REPLACE")


def comparison(r, table):
    """A condition on the clustered key, on another unique key, or none."""
    if making.chance(r, 50):
        return f" WHERE {name_of(r, table.key)} = {number(r)}"
    name = name_of(r, table.clustered[0])
    form = r.choice(["all", "range", "between", "unique"])
    if form == "all":
        return ""
    if form == "range":
        return f" WHERE {name} {r.choice(['<', '<=', '>', '>='])} {compared(r, table.clustered[0])}"
    if form == "between":
        return f" WHERE {name} BETWEEN {number(r)} AND {number(r) + 3}"
    listed = r.choice([table.clustered, *table.uniques])
    return " WHERE " + " AND ".join(f"{name_of(r, it)} = {compared(r, it)}" for it in listed)


def delete(r, table):
    return f"{making.letters(r, 'DELETE FROM')} {table.name}{comparison(r, table)}"


def select(r, table):
    shown = "*"
    if making.chance(r, 40):
        columns = r.sample(table.columns, r.randrange(1, len(table.columns) + 1))
        shown = r.choice(["COUNT(*)", ", ".join(name_of(r, it) for it in columns)])
    return f"{making.letters(r, 'SELECT')} {shown} FROM {table.name}{comparison(r, table)}"


def update(r, table):
    columns = r.sample(table.columns, r.choice([1, min(2, len(table.columns))]))
    sets = ", ".join(f"{name_of(r, it)} = {value(r, it)}" for it in columns)
    return f"{making.letters(r, 'UPDATE')} {table.name} SET {sets}{comparison(r, table)}"


def statement(r, tables):
    table = tables[0] if len(tables) == 1 else r.choice(tables)
    made = [insert] * 5 + [delete] * 2 + [select] * 3 + [update] * 3 + [replace] * 2
    made += [insert] * 9 + [replace] * 2 if table.counts else []
    return r.choice(made)(r, table)


def transaction(r, tables):
    lines = [statement(r, tables) for _ in range(r.choice([1, 2, 3]))]
    if making.chance(r, 50):
        return lines
    return ["BEGIN", *lines, r.choice(["COMMIT", "COMMIT", "ROLLBACK"])]


def script(r, tables):
    lines = []
    for _ in range(r.choice([1, 2, 3, 4, 5])):
        lines += transaction(r, tables)
    return lines


def make_clients(r, *tables):
    return [script(r, tables) for _ in range(r.choice([1, 1, 1, 2, 3]))]
