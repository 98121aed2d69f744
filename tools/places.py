#!/usr/bin/env python3
"""Lines of src/ where a newer form of the language may be plainer, by the points of docs/DESIGN-PASS.md.

    python3 tools/places.py [FOLDER]            the counts
    python3 tools/places.py -v [FOLDER]         the lines too

A line that is listed is a candidate; the page says which of them are places.
"""
import collections
import pathlib
import re
import sys

POINTS = [
    ("1", "own Option or Result, a number for none, a kind or a refusal",
     r"\benum \w|\) -> u8\b|\bsign: u8\b|\bas u8[,;]?$|Ok\(None\)|\bNone => (?!Ok\(Non)|\bErr\(_\) =>|^\s*0$|\b255\b|\b0 for\b"),
    ("3", "loops, and reads or writes at an index",
     r"^\s*(for|while|loop)\b|\w\[[a-z0-9][^\]]*\](?!\s*[>)]?\s*(->|\{))"),
    ("4", "conversion, comparison and printing by hand",
     r"\bas (u|i)(8|16|32|64|size)\b|\bformat!|\bimpl From|\bfn (\w+_of|number|pair|whole|complement|from_complement|sign_of|with_sign|digit|byte)\b|=> got =="),
    ("5", "conditions on parameters, and a letter beside a size or a number beside its places",
     r"\brequires\b|\bletter\b.*\bsize\b|\b(n|number)\b.*\bplaces: u8"),
    ("6", "fixed arrays", r"\[[^\]\[]+; ?\w+\]"),
    ("7", "choices by kind, closures, functions as values", r"\bmatch (self(\.kind)?|kind)\b|\bFn(Once|Mut)?\(|\bdyn\b"),
]


def sources(top):
    for path in sorted(top.glob("crates/*/src/**/*.rt")):
        for number, line in enumerate(path.read_text().splitlines(), 1):
            bare = line.split("//")[0].rstrip() if not line.lstrip().startswith("//") else ""
            yield path.relative_to(top), number, bare, line


def main():
    words = [w for w in sys.argv[1:] if w != "-v"]
    wordy = "-v" in sys.argv[1:]
    top = pathlib.Path(words[0] if words else ".")
    lines = list(sources(top))
    for point, what, pattern in POINTS:
        found = [(p, n, l) for p, n, bare, l in lines
                 if not bare.lstrip().startswith(("ghost use", "#", "use ")) and re.search(pattern, l if point == "1" else bare)]
        print(f"point {point}: {len(found):3} lines ({what})")
        for p, n, l in found if wordy else []:
            print(f"    {p}:{n}: {l.strip()}")
        if point == "1":
            named = collections.defaultdict(set)
            for p, n, bare, l in lines:
                for name in re.findall(r"\bfn (\w+)", bare):
                    named[name].add(str(p))
            twins = {k: v for k, v in named.items() if len(v) > 1}
            print(f"point 2: {len(twins):3} names of functions in more than one file")
            for k, v in sorted(twins.items()) if wordy else []:
                print(f"    {k}: {', '.join(sorted(v))}")
    proofs = [p for p in top.glob("crates/*/proofs/**/*.antt")]
    answers = [p for p in proofs if p.name in ("Answers.antt", "Invariants.antt")]
    size = sum(len(p.read_text().splitlines()) for p in proofs)
    print(f"point 8: {len(answers):3} files of answers and invariants; {size} lines in proofs/ in all")


if __name__ == "__main__":
    main()
