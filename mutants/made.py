"""Mutants made of the sources by rules."""

import re
import zlib
from bisect import bisect

from source import Mutant

OTHER = {
    "<": "<=", "<=": "<", ">": ">=", ">=": ">", "==": "!=", "!=": "==", "&&": "||", "||": "&&",
    "+": "-", "-": "+", "+=": "-=", "-=": "+=", "<<": ">>", "true": "false", "false": "true",
    "Some": "(|_| None)",
}
NO_STATEMENT = ["}", ")", "]", ",", ";", ".", "=", "let", "use", "const", "else"]
NUMBER = re.compile(r"(0x[0-9a-fA-F_]+|0b[01_]+|[0-9][0-9_]*)(usize|u8|u16|u32|u64|i32|i64)?$")


class Maker:
    """The mutants of a file."""

    def __init__(self, path, source, rows):
        self.path, self.source, self.rows, self.made = path, source, rows, []
        places = [place for _, place in source.tokens]
        for body in source.bodies:
            self.body = body
            inside = range(bisect(places, body.start), bisect(places, body.end - 2))
            variants = self.variants(inside)
            for at in inside:
                self.token(at, variants)
            for at in inside:
                self.statement(at)
                self.arguments(at)

    def start(self, at):
        return self.source.tokens[at][1]

    def end(self, at):
        return self.start(at) + len(self.source.word(at))

    def is_apart(self, at):
        """Returns whether there are blanks around a token: it compares, and no type ends there."""
        return self.source.text[self.start(at) - 1] == " " == self.source.text[self.end(at)]

    def put(self, rule, first, last, new):
        """Replaces the tokens from `first` to `last`."""
        place = (self.start(first), self.end(last))
        text = self.source.text
        old = " ".join(text[slice(*place)].split())
        line = text[text.rfind("\n", 0, place[0]) + 1:].split("\n")[0].strip()
        what = f"{rule} {old}" if old in line else f"{rule} {line}.."
        what += f" in {line}" if old in line != old else ""
        self.made.append(Mutant(self.path, self.body.name, what, place, new))

    def variants(self, inside):
        """Returns, for each type, what stands behind its name in this body."""
        word, found = self.source.word, {}
        for at in inside:
            if word(at + 1) == "::" and re.match("[A-Z]", word(at + 2) + " "):
                found.setdefault(word(at), {})[word(at + 2)] = word(at + 3) in "({"
        return found

    def token(self, at, variants):
        word = self.source.word
        text = word(at)
        if text in ("if", "while") and word(at + 1) != "let":
            end = at + 1
            while word(end) not in ("{", "=>", ""):
                end = max(self.source.partner.get(end, end), end) + 1
            if all(word(n) != "let" for n in range(at, end)):
                self.put("negated", at + 1, end - 1,
                         f"!({self.source.text[self.start(at + 1):self.end(end - 1)]})")
        elif text == "rows" and word(at + 1) == "::" and word(at + 2) in self.rows:
            self.put("row", at + 2, at + 2, self.rows[word(at + 2)])
        elif number := NUMBER.match(text):
            if word(at - 1) != ".":
                value = int(number[1].replace("_", ""), 0)
                self.put("number", at, at, f"{value + 1}{number[2] or ''}")
        elif text in OTHER and (text not in "<>" or self.is_apart(at)):
            self.put("sign", at, at, OTHER[text])
        elif re.match("[A-Z][A-Z0-9_]+$", text) and word(at - 1) != "::":
            self.put("constant", at, at, f"({text} + 1)")
        elif word(at + 1) == "::" and word(at + 2) in variants.get(text, {}):
            shape = variants[text][word(at + 2)]
            alike = [name for name, other in variants[text].items() if other == shape]
            # A variant of none is known in this body.
            following = alike[(alike.index(word(at + 2)) + 1) % len(alike)]
            if following != word(at + 2):
                self.put("variant", at + 2, at + 2, following)

    def statement(self, at):
        """Leaves out the statement that begins at this token."""
        word, end = self.source.word, at
        if word(at - 1) not in ("{", ";", "}") or word(at) in NO_STATEMENT:
            return
        while word(end) not in (";", "}", ","):
            end = max(self.source.partner.get(end, end), end) + 1
            if end >= len(self.source.tokens) or self.start(end) >= self.body.end:
                return
        if word(end) == ";":
            self.put("left out", at, end, "")

    def arguments(self, at):
        """Swaps the first two arguments of a call or members of a tuple."""
        word, commas = self.source.word, []
        close = self.source.partner.get(at, at)
        if word(at) != "(" or close <= at:
            return
        n = at + 1
        while n < close:
            if word(n) == ",":
                commas.append(n)
            n = max(self.source.partner.get(n, n), n) + 1
        for n, comma in enumerate(commas):
            left = commas[n - 1] + 1 if n else at + 1
            right = (commas + [close])[n + 1] - 1
            if comma < right and "|" not in map(word, range(left, right)):
                text, middle = self.source.text, (self.end(comma - 1), self.start(comma + 1))
                first, second = (text[self.start(left):middle[0]], text[middle[1]:self.end(right)])
                if first != second:
                    self.put("swapped", left, right, f"{second}, {first}")


def chosen(made, number):
    """Returns this many of the mutants, the same ones as long as their texts remain."""
    seen = {}

    def rank(mutant):
        name = mutant.name()
        seen[name] = seen.get(name, 0) + 1
        return zlib.crc32(f"{name} {seen[name]}".encode())

    ranked = sorted(((rank(mutant), n) for n, mutant in enumerate(made)))
    return [made[n] for _, n in sorted(ranked[:number], key=lambda pair: pair[1])]
