"""A client of a migration on its way through its script."""


class Client:
    def __init__(self, script):
        self.lines = [it.strip().rstrip("; ") for it in script.split("\n")]
        self.lines = [it for it in self.lines if it and it[0] != "#" and not it.startswith("-- ")]
        self.at, self.is_over = 0, not self.lines
        self.transaction, self.statement, self.is_inside = 1, 1, False

    def word(self):
        return self.lines[self.at].split()[0].upper()

    def said(self):
        """A SELECT outside a transaction takes its locks as one inside does."""
        return f"{self.lines[self.at]} LOCK IN SHARE MODE" if self.word() == "SELECT" and not self.is_inside else self.lines[self.at]

    def place(self):
        return f"{self.transaction}.{self.statement}"

    def answered(self):
        """Goes on by a line; whether that ended a transaction."""
        word = self.word()
        self.is_inside = word in ("BEGIN", "START") or self.is_inside and word not in ("COMMIT", "ROLLBACK")
        self.at, self.statement = self.at + 1, self.statement + 1
        if not self.is_inside:
            self.transaction, self.statement = self.transaction + 1, 1
        self.is_over = self.at >= len(self.lines)
        return not self.is_inside

    def timed_out(self):
        """The rest of the transaction isn't said."""
        while self.is_inside and self.word() not in ("COMMIT", "ROLLBACK"):
            self.at += 1
        self.at, self.is_inside = self.at + 1, False
        self.transaction, self.statement = self.transaction + 1, 1
        self.is_over = self.at >= len(self.lines)
