#!/usr/bin/env python3
"""Brings the names of this repository's own definitions, lemmas, fields and variables to one spelling.

usage: python3 tools/respell.py      at the top of the repository, after the kit's own script (docs/PORT.md)

Types and facts are in upper camel case, all else in snake case: `Reads-back` becomes `ReadsBack`, `with-sign` becomes `with_sign`.
Folders and files of lemmas become modules in upper camel case. Names of the library, names that the check makes, functions of src/, strings and comments stay.
It says which of the new names stood in the tree before.
"""

import os
import re

NAME = r"[A-Za-z◌≤≡ℕℤ_][A-Za-z0-9◌≤≡ℕℤ_'-]*"
WORDS = r"(?:(?:pub|abbrev|unfoldable|ghost|infixl|infixr|infix)\s+)*"
SIGNATURE = re.compile(rf"\s*{WORDS}((?:{NAME}\s+)+)(?:[({{].*)?:\s")
TYPE = re.compile(rf"\s*(?:pub )?(?:record|data) ({NAME})")
LET = re.compile(rf"\blet ({NAME})\s*[:=]")
USE = re.compile(r"\s*(?:ghost )?(?:pub )?use ([\w.]+?)\.?\{(.*)\}")
# variables that a pattern or a λ binds
BOUND = ["all-is", "each-here", "few-places", "good-l", "good-p", "good-r", "small-a", "whole-q", "long-c", "running-c"]
# folders of lemmas, by crate
MODULES = {
    "language": ["acceptance", "bounds", "following", "refusals", "rounded", "tickets", "tokens"],
    "ledger": ["laws"],
}
TOKEN = re.compile(r"[A-Za-z0-9_◌][A-Za-z0-9_'◌-]*")


def files():
    for folder, dirs, names in os.walk("crates"):
        dirs[:] = sorted(d for d in dirs if d != "out")
        for name in sorted(names):
            if name.endswith((".antt", ".rt")):
                yield os.path.join(folder, name)


def parts(path, text):
    """The text as (is code, piece): strings and comments are left alone."""
    mark = "--" if path.endswith(".antt") else "//"
    for line in text.splitlines(keepends=True):
        at = 0
        for m in re.finditer(r'"(?:\\.|[^"\\])*"|(?:^|(?<=\s))' + re.escape(mark) + r"(?=\s).*", line):
            yield True, line[at : m.start()]
            yield False, m.group(0)
            at = m.end()
        yield True, line[at:]


def code(path, text):
    return "".join(p if c else ('""' if p.startswith('"') else "") for c, p in parts(path, text))


def spelled(name):
    if name[0].isupper():
        return "".join(w[:1].upper() + w[1:] for w in name.split("-"))
    return name.replace("-", "_")


def main():
    own = set(os.listdir("crates"))
    texts = {p: open(p, encoding="utf-8").read() for p in files()}
    declared, foreign, standing = set(BOUND), set(), set()
    for path, text in texts.items():
        for line in code(path, text).splitlines():
            standing.update(TOKEN.findall(line))
            use = USE.match(line)
            if use:
                head = use.group(1).split(".")
                if not (head[0] == "Rattle" and len(head) > 1 and head[1] in own):
                    foreign.update(n.split(" as ")[0].strip() for n in use.group(2).split(","))
                continue
            sig = SIGNATURE.match(line)
            if sig and "goal." not in line:
                declared.update(sig.group(1).split())
            kind = TYPE.match(line)
            if kind:
                declared.add(kind.group(1))
            declared.update(LET.findall(line))
    turned = {n: spelled(n) for n in declared if "-" in n and n not in foreign and not n.endswith("-")}
    for path, text in texts.items():
        new = "".join(TOKEN.sub(lambda m: turned.get(m.group(0), m.group(0)), p) if c else p for c, p in parts(path, text))
        for crate, modules in MODULES.items():
            for module in modules:
                new = re.sub(rf"(Rattle\.{crate}\.proofs\.){module}(?=\.)", lambda m: m.group(1) + module.capitalize(), new)
            if path == f"crates/{crate}/proofs/Lib.antt":
                new = re.sub(r"(mod )(\w+)", lambda m: m.group(1) + (m.group(2).capitalize() if m.group(2) in modules else m.group(2)), new)
        if new != text:
            with open(path, "w", encoding="utf-8") as f:
                f.write(new)
    for crate, modules in MODULES.items():
        for module in modules:
            for end in ("", ".antt"):
                old = f"crates/{crate}/proofs/{module}{end}"
                if os.path.exists(old):
                    os.rename(old, f"crates/{crate}/proofs/{module.capitalize()}{end}")
    print(f"{len(turned)} names respelled")
    print("stood before:", ", ".join(sorted(f"{o} -> {n}" for o, n in turned.items() if n in standing)))


if __name__ == "__main__":
    main()
