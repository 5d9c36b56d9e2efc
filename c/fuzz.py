#!/usr/bin/env python3
"""Writes the calls that fuzz.c makes, each with random arguments, by the header's prototypes."""
import re
from pathlib import Path

HEADER = re.sub(r"/\*.*?\*/", "", (Path(__file__).parent / "wenc.h").read_text(), flags=re.S)
# What fuzz.c calls by itself.
BY_HAND = re.compile(r"wenc_(\w*new|finish|bytes|last_error|count|len|list|walk\w*)$")


def arguments(declared):
    """What declares the random arguments, and what hands them over."""
    declares, hands, args = [], [], [" ".join(arg.split()) for arg in declared.split(",")]
    handles = 0
    while args:
        ty, name = re.fullmatch(r"(.*?)(\w+)", args.pop(0)).groups()
        ty = ty.strip()
        if ty in ("wenc_handle *", "const wenc_handle *"):
            hands.append(["to", "other"][handles])
            handles += 1
        elif name == "index" and ty.endswith("*"):
            hands.append("index")
        elif ty == "const wenc_text *":
            declares.append(f"const wenc_text *{name} = a_debug_name();")
            hands.append(name)
        elif ty in ("wenc_listed_section *", "wenc_listed_item *"):
            hands.append("NULL")
        elif ty.endswith("*"):
            kind = re.sub(r"const |wenc_|_t| \*", "", ty)
            kind = {"char": "text", "uint8": "bytes", "uint32": "numbers"}.get(kind, kind)
            is_list = args and re.match(r"size_t \w*len$", args[0])
            declares.append(f"list_of_{kind} {name} = {'some' if is_list else 'one'}_{kind}();")
            hands.append(f"{name}.at")
            if is_list:
                hands.append(f"{name}.len")
                args.pop(0)
        elif ty.startswith("enum"):
            hands.append(f"({ty})a_kind()")
        else:
            made = {"bool": "a_flag()", "size_t": "a_size()", "uint8_t": "(uint8_t)a_number()"}
            hands.append(made.get(ty, "a_number()"))
    return " ".join(declares), ", ".join(hands)


def main():
    cases = []
    for name, declared in re.findall(r"enum wenc_status (wenc_\w+)\(([^()]*)\);", HEADER):
        if not BY_HAND.match(name):
            declares, hands = arguments(declared)
            params = " ".join(re.findall(r"(\w+) *(?:,|$)", declared))
            cases.append(f'    case {len(cases)}: {{ name = "{name}";\n'
                         f'      parameters = " handle {params} "; {declares}\n'
                         f"      return {name}({hands}); }}")
    print(f"#define CASES {len(cases)}\n")
    print("static enum wenc_status call(uint32_t number, wenc_handle *to, wenc_handle *other,")
    print("                             uint32_t *index) {\n  switch (number) {")
    print("\n".join(cases))
    print("  }\n  abort();\n}")


main()
