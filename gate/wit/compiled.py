"""Makes a component of a world: the official tools make it of the world's text and of a core
module, which has the functions that they ask for."""
import collections
import re

from written import number, section, text

TYPES = {"I32": 0x7F, "I64": 0x7E, "F32": 0x7D, "F64": 0x7C}
FUNCTION = re.compile(r"(?:(import|export) )?(\S+): (static )?(?:async )?func\(")
REALLOC = (("I32",) * 4, ("I32",))


class World:
    """The functions of a printed world, as a core module imports and exports them: pairs of the
    name of an interface and that of a function."""

    def __init__(self, wit):
        self.imports, self.exports = [], []
        self.interfaces, self.used = collections.defaultdict(list), []
        self.package = self.interface = self.resource = None
        blocks = []
        for line in map(str.strip, wit.splitlines()):
            if line.endswith("{"):
                blocks.append(self.open(line))
            elif line == "}":
                block = blocks.pop()
                if block:
                    setattr(self, block, None)
            else:
                self.line(line)
        for way, key in self.used:
            # one without a package may be imported, and another exported, under one name
            functions = [(key.split()[-1], function) for function in self.interfaces[key]]
            (self.imports if way == "import" else self.exports).extend(functions)

    def open(self, line):
        """Begins a block. Returns what it is."""
        found = re.match(r"(import|export) (\S+): interface \{$", line)
        if found:
            self.interface = f"{found[1]} {found[2].replace('%', '')}"
            self.used.append((found[1], self.interface))
            return "interface"
        kind, name = line.split()[0], line.split()[1].replace("%", "")
        if kind == "interface":
            front, _, version = self.package.partition("@")
            name = f"{front}/{name}" + (f"@{version}" if version else "")
        if kind not in ("package", "interface", "resource"):
            return None
        setattr(self, kind, name)
        return kind

    def line(self, line):
        used = re.match(r"(import|export) (\S+);$", line)
        if used:
            self.used.append((used[1], used[2].replace("%", "")))
        elif line.startswith("constructor("):
            self.add(None, f"[constructor]{self.resource}")
        elif found := FUNCTION.match(line):
            name = found[2].replace("%", "")
            if self.resource:
                name = f"[{'static' if found[3] else 'method'}]{self.resource}.{name}"
            self.add(found[1], name)

    def add(self, way, function):
        if self.interface:
            self.interfaces[self.interface].append(function)
        elif way == "export":
            self.exports.append(("", function))
        else:
            self.imports.append(("$root", function))


def core(imports, exports):
    """Returns a core module with these functions, each with its parameters and results."""
    def encoded(signature):
        lists = (number(len(part)) + bytes(TYPES[ty] for ty in part) for part in signature)
        return b"\x60" + b"".join(lists)
    signatures = [signature for _, signature in [*imports, *exports]] + [REALLOC]
    names = [f"{module}#{name}" if module else name for (module, name), _ in exports]
    names.append("cabi_realloc")
    out = b"\0asm\1\0\0\0" + section(1, [encoded(signature) for signature in signatures])
    out += section(2, [text(module) + text(name) + b"\0" + number(index)
                       for index, ((module, name), _) in enumerate(imports)])
    first = len(imports)
    out += section(3, [number(first + index) for index in range(len(names))])
    out += section(5, [b"\0\1"])
    exported = [text(name) + b"\0" + number(first + index) for index, name in enumerate(names)]
    out += section(7, [*exported, text("memory") + b"\2\0"])
    # bodies that trap
    return out + section(10, [b"\3\0\0\x0b"] * len(names))


def meant(world, said, known, found):
    """Returns the function that the linker speaks of."""
    names = re.findall(r"`([^`]+)`", said)
    is_import = "failed to resolve import" in said or "import interface" in said
    way, functions = ("import", world.imports) if is_import else ("export", world.exports)

    def is_whole(module, name):
        return f"{module}::{name}" in names or f"{module}#{name}" in names

    def is_part(module, name):
        return name in names and module in ("", "$root", *names)

    for is_meant in (is_whole, is_part):
        for function in functions:
            if is_meant(*function) and known.get((way, function)) != found:
                return way, function
    return None


def component_of(wit, link):
    """Returns the component of a world, or what the linker says. It says which signature each
    function has to have."""
    world, known, said = World(wit), {}, ""
    for _ in range(4 * (len(world.imports) + len(world.exports)) + 4):
        pairs = [[(function, known.get((way, function), ((), ()))) for function in functions]
                 for way, functions in (("import", world.imports), ("export", world.exports))]
        component, said = link(wit, core(*pairs))
        expected = re.search(r"expected `?\[(.*?)\] -> \[(.*?)\]`?", said)
        if component is not None or not expected:
            break
        lists = ((ty.strip() for ty in part.split(",")) for part in expected.groups())
        found = tuple(tuple(ty for ty in part if ty) for part in lists)
        function = meant(world, said, known, found)
        if function is None:
            break
        known[function] = found
    return component, said


def parts(wit):
    """Returns what a text consists of, in any order: each part with the blocks around it."""
    found, around, body = set(), [], None
    for line in map(str.strip, wit.splitlines()):
        if body is not None:
            body.append(line)
            if line == "}":
                found.add((*around, " ".join(body)))
                body = None
        elif re.match(r"(record|variant|flags|enum) .*\{$", line):
            body = [line]
        elif line.endswith("{"):
            around.append(line)
            found.add(tuple(around))
        elif line == "}":
            around.pop()
        elif line.startswith("resource "):
            found.add((*around, line.replace(";", " {")))
        elif line:
            found.add((*around, line))
    return found
