#!/usr/bin/env python3
"""Has the official WIT parser and validator judge what `wenc-dump --wit` prints.

    judge.py DUMP LINKER CORPUS FOLDER

LINKER is the `wasm-component-ld` of a Rust toolchain, which contains them. Of each component of
the folder CORPUS, of each wrapped once, twice and three times in one that imports and exports the
same, and of each in FOLDER:

- what is printed is read by the parser, and the component type that it makes of it by the
  validator;
- if all of the world is printed (status 0), a component is made of the world and of a core module
  (`compiled.py`), whose world has to be the same but for what the linker leaves out: what no
  function of an import needs;
- a wrapped component has the world of the inner one, but for byte offsets in comments.

Then it plants mistakes in texts, each of which has to be refused. The last line says how many
components and mistakes passed and failed.
"""
import os
import re
import subprocess
import sys
import tempfile

from compiled import component_of, parts
from wrapped import CannotWrap, wrap

# In seconds and in bytes of output; a file of 100 KB takes a hundredth of a second.
LIMITS = (20, 1 << 24)
# How the linker reports a text that it can't read, or whose component type isn't valid.
REFUSED = ("unable to add component type", "custom section component-type", "panicked")


class Judge:
    def __init__(self, dump, linker, room):
        self.dump, self.linker, self.room = dump, linker, room
        # stands for the linker of core modules, which there is nothing to link for
        self.copy = self.path("copy")
        with open(self.copy, "w", encoding="ascii") as file:
            file.write('#!/bin/sh\ncp "$2" "$4"\n')
        os.chmod(self.copy, 0o755)

    def path(self, name):
        return os.path.join(self.room, name)

    def world(self, component):
        """Returns whether all is printed, and the text."""
        with open(self.path("x.wasm"), "wb") as file:
            file.write(component)
        with open(self.path("out"), "w+b") as out:
            ran = subprocess.run([self.dump, "--wit", file.name], stdout=out, timeout=LIMITS[0],
                                 stderr=subprocess.DEVNULL, check=False)
            out.seek(0)
            text = out.read(LIMITS[1])
        if ran.returncode not in (0, 1) or len(text) == LIMITS[1]:
            raise ValueError(f"status {ran.returncode}, {len(text)} bytes")
        return ran.returncode == 0, text.decode()

    def link(self, text, module):
        """Returns the component of a world and a core module, or what the linker says."""
        names = [self.path(name) for name in ("w.wit", "m.wasm", "o.wasm")]
        with open(names[0], "w", encoding="utf-8") as file:
            file.write(text)
        with open(names[1], "wb") as file:
            file.write(module)
        ran = subprocess.run(
            [self.linker, "--no-entry", "--validate-component", "true", "--wasm-ld-path", self.copy,
             "--component-type", *names[:2], "-o", names[2]],
            capture_output=True, text=True, check=False)
        if ran.returncode:
            return None, ran.stderr
        with open(names[2], "rb") as file:
            return file.read(), ""

    def refusal(self, text):
        """Returns what the parser or the validator says against a text."""
        _, said = self.link(as_world(text), b"\0asm\1\0\0\0")
        return said if any(words in said for words in REFUSED) else ""

    def fault(self, text):
        """Returns why a world isn't that of the component that is made of it."""
        component, said = component_of(text, self.link)
        if component is None:
            # the linker makes no intrinsics for functions that are asynchronous or have streams
            return "" if re.search(r"\b(async|stream|future|error-context)\b", text) else said
        first, again = parts(text), parts(self.world(component)[1])
        # An interface that is imported and exported is written once, with all that is exported.
        # As an import it needs interfaces for it that may only be exported.
        known = {(*around, line.replace("export ", "import ")) for *around, line in first}
        return "".join(f"there: {part}\n" for part in sorted(again - first - known))


def as_world(text):
    """Returns the text of a package as that of a world with all of it."""
    package, _, rest = text.partition(";\n")
    package = package.removeprefix("package ")
    if package.startswith("root:component"):
        return text
    name, _, version = package.partition("@")
    end = re.search(r"^package |\Z", rest, re.M).start()
    own, others = rest[:end], rest[end:]

    def path(item):
        return f"{name}/{item}" + (f"@{version}" if version else "")

    used = [f"import {path(item)};" for item in re.findall(r"^interface (\S+) ", own, re.M)]
    used += [f"include {path(item)};" for item in re.findall(r"^world (\S+) ", own, re.M)]
    world = "\n".join(used)
    head = f"package judge:judge;\nworld judge {{\n{world}\n}}\n"
    return f"{head}package {package} {{\n{own}}}\n{others}"


def without_places(text):
    return re.sub("0x[0-9a-f]+", "0x", text)


class Sum:
    passed = failed = 0

    def tell(self, name, why):
        if why:
            self.failed += 1
            print(f"FAILED: {name}: {' | '.join(why.split(chr(10))[:12])}")
        else:
            self.passed += 1


def judge_one(judge, component):
    """Returns the text, and what is wrong with it."""
    is_whole, text = judge.world(component)
    why = judge.refusal(text) or (is_whole and text.startswith("package root:") and
                                  judge.fault(text))
    return text, why


def judge_wrapped(judge, name, component, text, told):
    for times in (1, 2, 3):
        try:
            component = wrap(component)
        except CannotWrap:
            return
        _, again = judge.world(component)
        same = without_places(text) == without_places(again)
        told.tell(f"{name}, wrapped {times} times", "" if same else f"prints {again}")


# A world, and mistakes: what is replaced, and by what. The first are refused by the parser or the
# validator, the others since a component of the world prints another.
WORLD = """package root:component;

world root {
  import a:b/c;
  export g: func(x: list<u8>) -> u8;
}

package a:b {
  interface c {
    record r {
      x: u32,
    }
    f: func(x: r) -> u8;
  }
}
"""
READ = [("(x: r)", "(x: s)"), ("a:b/c;", "a:b/d;"), ("x: u32,", ""), ("func(x: r)", "func(x, r)"),
        ("x: u32", "x: u32, x: u8"), ("record r", "record u8"), ("}\n}", "}")]
PRINTED = [("list<u8>) -> u8", "list<u8>) -> u16"), ("x: u32", "x: s32"), ("export g", "export h"),
           ("(x: r)", "(y: r)")]


def plant(judge, told):
    told.tell("a world without mistakes", judge.refusal(WORLD) or judge.fault(WORLD))
    component, _ = component_of(WORLD, judge.link)
    world = parts(judge.world(component)[1])
    for old, new in READ:
        refusal = judge.refusal(WORLD.replace(old, new, 1))
        told.tell(f"`{new}` for `{old}`", "" if refusal else "isn't refused")
    for old, new in PRINTED:
        text = WORLD.replace(old, new, 1)
        is_seen = not judge.refusal(text) and parts(text) - world
        told.tell(f"`{new}` for `{old}`", "" if is_seen else "isn't seen")


def components(folder):
    for name in sorted(os.listdir(folder)):
        if name.endswith(".wasm"):
            with open(os.path.join(folder, name), "rb") as file:
                yield name, file.read()


def main():
    dump, linker, corpus, folder = sys.argv[1:]
    told = Sum()
    with tempfile.TemporaryDirectory() as room:
        judge = Judge(os.path.abspath(dump), linker, room)
        for name, component in components(corpus):
            text, why = judge_one(judge, component)
            told.tell(name, why)
            judge_wrapped(judge, name, component, text, told)
        for name, component in components(folder):
            told.tell(name, judge_one(judge, component)[1])
        plant(judge, told)
    print(f"{told.passed} passed, {told.failed} failed")
    sys.exit(told.failed > 0)


if __name__ == "__main__":
    main()
