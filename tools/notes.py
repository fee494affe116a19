"""What a conversion changes, and what that costs in truth: a line for each on standard error."""


class Notes:
    """`place` is the file, and `lines` what was noted of it, each once."""

    def __init__(self):
        self.lines = []
        self.changed = 0
        self.left = 0

    def change(self, place, text):
        """Something is written in another way, or left out."""
        self.changed += self.add(place, text)

    def leave(self, place, text):
        """Something stands as it was, and the program refuses it."""
        self.left += self.add(place, f"left as it is: {text}")

    def warn(self, place, text):
        """Nothing is changed, but the program does another thing than MySQL."""
        self.add(place, text)

    def mark(self):
        """Where the notes stand now, for `back`."""
        return len(self.lines), self.changed, self.left

    def back(self, mark):
        """Takes back what was noted since."""
        count, self.changed, self.left = mark
        del self.lines[count:]

    def add(self, place, text):
        line = f"{place}: {text}"
        if line in self.lines:
            return 0
        self.lines.append(line)
        return 1

    def summary(self):
        left = f", and {self.left} left as they are, for which the program refuses the plan" if self.left else ""
        if self.left == 1:
            left = ", and 1 left as it is, for which the program refuses the plan"
        return f"{self.changed} {'change' if self.changed == 1 else 'changes'}{left}"
