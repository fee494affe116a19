"""Random ALTERs of a table: clauses that fit it, as a rule."""
import making

ODD_CLAUSES = """ADD UNIQUE (b)|ADD UNIQUE KEY u9 (id)|ADD COLUMN z INT UNIQUE|ADD COLUMN z INT PRIMARY KEY|ADD PRIMARY KEY (id)
DROP PRIMARY KEY|RENAME TO u|RENAME AS u|ENGINE=InnoDB|ADD CONSTRAINT c CHECK (1 = 1)|ADD COLUMN z DATE|ADD COLUMN z VARCHAR(2000)
ADD COLUMN z INT AFTER nothing|DROP COLUMN nothing|DROP INDEX nothing|MODIFY nothing INT|CHANGE nothing z INT|RENAME COLUMN nothing TO z
ADD INDEX i9 (nothing)|ADD COLUMN z INT NOT NULL|ADD COLUMN z INT DEFAULT 'x'|ADD COLUMN z TINYINT DEFAULT 200|ADD COLUMN z INT NOT NULL DEFAULT NULL
ADD z|MODIFY|ADD COLUMN z INT INT|DROP id|ALTER COLUMN id DROP DEFAULT|ADD COLUMN z INT DEFAULT x'05'|ADD COLUMN z VARCHAR(3) DEFAULT x'41'
ADD COLUMN z INT,,|RENAME COLUMN id TO id|RENAME INDEX k0 TO k9|ADD COLUMN z VARCHAR(3) DEFAULT 'abc '|ADD COLUMN z INT DEFAULT ' 5'
DROP INDEX `PRIMARY`|ADD INDEX i1 (id), ADD INDEX i1 (id)|ADD COLUMN z INT, ADD COLUMN Z INT|ADD INDEX i9 (id, id)|ADD COLUMN z INT AFTER z|ADD COLUMN (z INT)|ADD COLUMN z INT DEFAULT 5.5|ADD COLUMN z INT AUTO_INCREMENT|DROP FOREIGN KEY f""".replace("\n", "|").split("|")
FAMILIES = {"VARCHAR": "VARCHAR", "VARBINARY": "VARBINARY"}
ALLOWED = {"integer": ["integer", "VARCHAR", "VARBINARY"], "VARCHAR": ["VARCHAR", "VARBINARY"], "VARBINARY": ["VARBINARY"]}


class Altering:
    """The columns that no clause has touched yet: clauses on different columns mean the same in any order."""

    def __init__(self, r, table):
        self.r, self.table = r, table
        self.untouched = list(table.columns)
        self.fresh = [it for it in making.NAMES if it not in {column.name for column in table.columns}]
        r.shuffle(self.fresh)
        self.indexes = [it for it in table.indexes if it]
        self.added = 0

    def take(self, wanted=lambda column: True):
        """A column for a clause, an untouched one as a rule; none where no column is as wanted."""
        pool = self.table.columns if making.chance(self.r, 4) else self.untouched
        fitting = [it for it in pool if wanted(it)]
        if not fitting:
            return None
        column = self.r.choice(fitting)
        if column in self.untouched:
            self.untouched.remove(column)
        return column

    def cased(self, name):
        """A name as a clause may write it: columns are named without regard to case."""
        return name.swapcase() if making.chance(self.r, 12) else name

    def spot(self):
        if making.chance(self.r, 70):
            return ""
        if making.chance(self.r, 40) or not self.untouched:
            return " FIRST"
        return f" AFTER {self.cased(self.name_one().name)}"

    def name_one(self):
        """A column that is only named, and left alone by the clauses to come, as a rule."""
        column = self.r.choice(self.untouched)
        if not making.chance(self.r, making.ODD):
            self.untouched.remove(column)
        return column

    def column_text(self, column, name=None):
        return f"{name or column.name} {column.written(self.r)}{making.attributes(self.r, column)}"

    def add_column(self):
        column = making.random_column(self.r, self.fresh.pop())
        making.random_default(self.r, column)
        if not column.nullable and column.default in (None, "NULL"):
            column.default = making.literal_for(self.r, column)
        return f"ADD {self.r.choice(['COLUMN ', ''])}{self.column_text(column)}{self.spot()}"

    def drop_column(self):
        column = self.take(lambda it: not it.in_unique or making.chance(self.r, 3))
        return column and f"DROP {self.r.choice(['COLUMN ', ''])}{self.cased(column.name)}"

    def converted(self, column):
        """The same column with another kind, one that is allowed as a rule."""
        new = making.random_column(self.r, column.name)
        family = FAMILIES.get(column.kind, "integer")
        allowed = [family] if column.in_unique else ALLOWED[family]
        if FAMILIES.get(new.kind, "integer") not in allowed and not making.chance(self.r, making.ODD):
            new.kind, new.length, new.unsigned = column.kind, max(1, column.length + self.r.choice([-1, 0, 1, 5])), column.unsigned
        new.nullable = column.nullable if making.chance(self.r, 80) else not column.nullable
        if column.in_clustered and not making.chance(self.r, making.ODD):
            new.nullable = False
        making.random_default(self.r, new)
        return new

    def modify(self):
        column = self.take()
        if column is None:
            return None
        return f"MODIFY {self.r.choice(['COLUMN ', ''])}{self.column_text(self.converted(column))}{self.spot()}"

    def change(self):
        column = self.take()
        if column is None:
            return None
        name = self.fresh.pop() if making.chance(self.r, 70) else column.name
        return f"CHANGE {self.r.choice(['COLUMN ', ''])}{self.cased(column.name)} {self.column_text(self.converted(column), name)}{self.spot()}"

    def rename(self):
        column = self.take()
        return column and f"RENAME COLUMN {self.cased(column.name)} TO {self.fresh.pop()}"

    def add_index(self):
        if not self.untouched:
            return None
        self.added += 1
        listed = [self.name_one()]
        if self.untouched and making.chance(self.r, 30):
            listed = list(dict.fromkeys([*listed, self.name_one()]))
        name = f"i{self.added} " if making.chance(self.r, 70) else ""
        return f"ADD {self.r.choice(['INDEX', 'KEY'])} {name}({', '.join(self.cased(it.name) for it in listed)})"

    def drop_index(self):
        if not self.indexes:
            return None
        return f"DROP {self.r.choice(['INDEX', 'KEY'])} {self.indexes.pop()}"

    def clause(self):
        if making.chance(self.r, making.ODD):
            return self.r.choice(ODD_CLAUSES)
        made = [self.add_column] * 5 + [self.modify] * 4 + [self.change] * 2
        made += [self.drop_column, self.drop_column, self.rename, self.add_index, self.drop_index]
        return self.r.choice(made)()


def alter_of(r, table):
    altering = Altering(r, table)
    clauses = []
    for _ in range(r.choice([1, 1, 2, 2, 3, 4])):
        clause = altering.clause()
        clauses += [clause] if clause else []
    if not clauses:
        clauses = [altering.add_column()]
    text = making.with_remark(r, ", ".join(clauses))
    return f"{making.letters(r, 'ALTER TABLE')} {r.choice(['t', '`t`'])} {text}" if making.chance(r, 15) else text
