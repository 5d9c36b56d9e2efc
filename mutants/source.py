"""Rust as tokens, and the bodies that a mutant can replace."""

import re

TOKEN = re.compile(
    r"(?P<comment>//[^\n]*|/\*.*?\*/)"
    r"|(?P<text>[bc]?r(?P<hashes>#*)\".*?\"(?P=hashes)|[bc]?\"(?:\\.|[^\"\\])*\""
    r"|b?'(?:\\.[^']*|[^'\\])')"
    r"|(?P<lifetime>'\w+)|(?P<word>\w+)"
    r"|(?P<sign>::|=>|->|==|!=|<=|>=|<<|&&|\|\||\.\.=|\.\.|[+\-|&^*/]=|[^\s])",
    re.S,
)
CLOSES = {")": "(", "]": "[", "}": "{"}


class Body:
    """The block of a function or closure: its place in the text, and the function's name."""

    def __init__(self, name, start, end):
        self.name, self.start, self.end = name, start, end


class Source:
    """A file of Rust, with the tokens of its code and the bodies of its functions."""

    def __init__(self, text):
        self.text = text
        found = (match for match in TOKEN.finditer(text) if match.lastgroup != "comment")
        self.tokens = [(match.group(), match.start()) for match in found]
        self.partner = {}
        opened = []
        for at, (token, _) in enumerate(self.tokens):
            if token in "([{":
                opened.append(at)
            elif token in CLOSES and opened:
                start = opened.pop()
                self.partner[start], self.partner[at] = at, start
        # Without those within another one.
        self.bodies = []
        for at, end in sorted(self.partner.items()):
            start = self.tokens[at][1]
            if self.word(at) != "{" or self.bodies and start < self.bodies[-1].end:
                continue
            if name := self.names(at):
                self.bodies.append(Body(name, start, self.tokens[end][1] + 1))

    def word(self, at):
        return self.tokens[at][0] if 0 <= at < len(self.tokens) else ""

    def names(self, brace):
        """Returns the name of the function whose body this brace opens, `||` for a closure's."""
        if self.word(brace - 1) in ("|", "||"):
            return "||"
        at, name = brace - 1, None
        while at >= 0 and self.word(at) not in (";", "{"):
            if self.word(at) == "}" and self.word(self.partner.get(at, 0) - 1) != "where":
                break
            if self.word(at) == "fn" and re.match(r"[a-z_$]", self.word(at + 1)):
                name = self.word(at + 1)
                if self.word(at - 1) == "const":
                    return None
            at = self.partner.get(at, at) - 1 if self.word(at) in CLOSES else at - 1
        return name

    def around(self, start, end):
        """Returns the body around a part of the text."""
        return next((b for b in self.bodies if b.start < start and end < b.end), None)

    def find(self, old, function=None):
        """Returns where these tokens stand, blanks aside, in the bodies of this function."""
        wanted = [match.group() for match in TOKEN.finditer(old)]
        places = []
        for at in range(len(self.tokens) - len(wanted) + 1):
            if all(self.word(at + n) == word for n, word in enumerate(wanted)):
                last, begin = self.tokens[at + len(wanted) - 1]
                places.append((self.tokens[at][1], begin + len(last)))
        if function is not None:
            bodies = [body for body in self.bodies if body.name == function]
            places = [place for place in places if self.around(*place) in bodies]
        return places


class Mutant:
    """A part of a file and the text in its place."""

    is_planted = False

    def __init__(self, path, function, what, place, new):
        self.path, self.function, self.what, self.place, self.new = path, function, what, place, new

    def name(self):
        return f"{self.path} {self.function}: {self.what}".replace(" :", ":")


def switched(source, mutants, first):
    """Returns the text with all mutants as switches by their numbers.

    Also returns the mutants of each line: one that is wrong in itself, or all in a body whose parts
    don't fit each other; and the mutants of each body, which are numbered from `first`.
    """
    pieces = {}
    for mutant in mutants:
        body = source.around(*mutant.place)
        place = (body.start, body.end) if body else mutant.place
        pieces.setdefault(place, []).append(mutant)
    text, owners, at = "", [set()], 0

    def put(more, numbers=()):
        nonlocal text
        text += more
        last = len(owners) - 1
        owners.extend(set() for _ in range(more.count("\n")))
        for owner in owners[last:]:
            owner.update(numbers)

    for body, ((start, end), inside) in enumerate(sorted(pieces.items()), first):
        put(source.text[at:start])
        old, everyone = source.text[start:end], [mutant.number for mutant in inside]
        number = f"crate::mutants::number({body})"
        if "MUTANT" in inside[0].new:
            put(inside[0].new.replace("MUTANT", f"({number} == {everyone[0]})"), everyone)
        elif inside[0].place == (start, end):
            put(f"(if {number} == {everyone[0]} {{ {inside[0].new} }} else {{ {old} }})", everyone)
        else:
            put(f"{{ match {number} {{", everyone)
            for mutant in inside:
                left, right = (offset - start for offset in mutant.place)
                put("\n")
                put(f"{mutant.number} => {old[:left]}{mutant.new}{old[right:]}", [mutant.number])
            put("\n")
            put(f"_ => {old}\n}} }}", everyone)
        at = end
    put(source.text[at:])
    return text, owners, [inside for _, inside in sorted(pieces.items())]
