"""Counting what is right and what is wrong."""
import sys


class Checks:
    def __init__(self):
        self.made = self.wrong = 0

    def same(self, what, expected, got):
        self.made += 1
        if expected == got:
            return True
        self.wrong += 1
        if self.wrong <= 20:
            print(f"WRONG: {what}\n  expected {shown(expected)}\n  got      {shown(got)}", file=sys.stderr)
        return False

    def holds(self, what, true, said=""):
        return self.same(what, "as it should be", "as it should be" if true else f"not so: {said}")


def shown(value):
    text = value if isinstance(value, str) else repr(value)
    return text if len(text) <= 600 else text[:600] + "..."
