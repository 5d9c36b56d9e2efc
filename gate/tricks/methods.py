#!/usr/bin/env python3
"""Finds functions of traits of the proved sources that a type of Rust's library has itself, or that
plain Rust gives to a proved type. Rust would call that one, where the kit, which knows fewer, calls
the trait's.

    methods.py CODE PLAIN ROOM

CODE has the sources without clauses and ghost items (`erase --code`), PLAIN the Rust around them,
and ROOM is for files. Prints each as TYPE::NAME, and fails if there are any, or no traits.
"""
import re
import subprocess
import sys
from pathlib import Path

TYPES = """bool char u8 u16 u32 u64 u128 usize i8 i16 i32 i64 i128 isize () (u8,u8) (u8,u8,u8) str
    &'static_str [u8] &'static_[u8] [u8;2] ::std::vec::Vec<u8>
    ::std::vec::Vec<::std::string::String> ::std::string::String ::std::option::Option<u8>
    ::std::result::Result<u8,u8> ::std::option::Option<::std::option::Option<u8>>
    ::std::option::Option<&'static_u8> ::std::boxed::Box<u8> &'static_u8 &'static_mut_u8
    ::std::vec::IntoIter<u8> ::std::slice::Iter<'static,u8> ::std::str::Chars<'static>
    ::std::cmp::Ordering ::std::marker::PhantomData<u8> Own"""
# What is in scope: the traits of Rust's that the shim's prelude has, and a type of a source.
SCOPE = """#![no_implicit_prelude] #![allow(warnings)] pub struct Own; \
use ::core::{iter::{IntoIterator, Iterator}, convert::{From, Into, TryFrom}};"""
# What the eraser renames isn't called by its own name.
RENAMED = re.compile(r"(allocator|collect|extend_from_slice|insert|push|try_reserve|clone)$")


def bodies(text, head):
    """Yields what stands before each brace behind this head, and what is in the braces."""
    text = re.sub(r"//[^\n]*", "", text)
    for found in re.finditer(rf"\b{head}\b([^{{;]*)\{{", text):
        depth = 1
        for at in range(found.end(), len(text)):
            depth += {"{": 1, "}": -1}.get(text[at], 0)
            if depth == 0:
                yield found[1], text[found.end():at]
                break


def functions(body):
    return {name for name in re.findall(r"\bfn\s+(\w+)", body) if not RENAMED.match(name)}


code, plain, room = map(Path, sys.argv[1:])
sources = [file.read_text(encoding="utf-8") for file in sorted(code.rglob("*.rt"))]
declared = [body for text in sources for _, body in bodies(text, "trait")]
names = sorted(set().union(*map(functions, declared)))
types = {name for text in sources for name in re.findall(r"\b(?:struct|enum) (\w+)", text)}
found = []
for file in sorted(plain.rglob("*.rs")):
    for head, body in bodies(file.read_text(encoding="utf-8"), "impl"):
        # Of a macro, the type isn't known.
        of = re.sub(r"^\s*<.*?>\s|<.*", "", head).strip().rpartition("::")[2]
        if not re.search(r"\bfor\b(?!<)", head) and (of in types or "$" in head):
            found += [f"{of}::{name}" for name in sorted(functions(body).intersection(names))]
asked = [(of.replace("_", " "), name) for of in TYPES.split() for name in names]
lines = [f"fn _{n}() {{ let _ = <{of}>::{name}; }}" for n, (of, name) in enumerate(asked)]
(room / "methods.rs").write_text("\n".join([SCOPE, *lines]))
words = "rustc --edition 2024 --crate-type lib --error-format short methods.rs"
said = subprocess.run(words.split(), cwd=room, capture_output=True, text=True).stderr
none = {int(line) - 2 for line in re.findall(r"^methods\.rs:(\d+):\d+: error\[E0599\]", said, re.M)}
found += [f"{of}::{name}" for n, (of, name) in enumerate(asked) if n not in none]
counts = (f"{len(names)} functions of {len(declared)} traits, {len(TYPES.split())} types, "
          f"{len(types)} proved ones")
print("\n".join(found[:100]) or counts)
sys.exit(1 if found or len(declared) < 10 else 0)
