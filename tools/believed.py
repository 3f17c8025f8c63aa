#!/usr/bin/env python3
"""Counts the definitions that have to be believed for a claim.

    tools/believed.py [--files] [FILE ..]
    tools/believed.py --guide

From FILE, a file of a crate's specs/, or one of its src/ whose contracts cite definitions, it follows the lines
`use Rattle.CRATE.specs.NAME` to the definitions that FILE stands on, to those that these stand on, and so on. It
prints how many files of definitions it comes to and how many lines they have, without imports, comments and blank
lines; with --files each file with its lines first. FILE itself is counted if it is one of definitions.

A definition may also speak of a type of the code (`Rattle.CRATE.specs.declared.MODULE.TYPE`). The files that
declare such types are told apart, and only their number: what is believed of them is the declarations of the types
and nothing of the functions beside them. What the toolchain's own library defines isn't counted.

Without FILE it answers for the two claims that the documents speak of: that of a safe text, and that of `run_tool`.
With --guide it writes the figures of these two into docs/GUIDE.md, and the columns "Lines" and "Stands on" of its
tables, and names each file that `run_tool` stands on and no table has, and each that a table has and `run_tool` doesn't
stand on.
"""
import os
import re
import sys

ROOT = os.path.normpath(os.path.join(os.path.dirname(os.path.abspath(__file__)), ".."))
CLAIMS = [
    ("IsSafeText", "crates/text_reader_rules/specs/SafeTexts.antt"),
    ("run_tool", "crates/etylizer_program/src/tool.rt"),
]
USE = re.compile(r"^\s*(?:pub )?(?:ghost )?use Rattle\.(\w+)\.specs\.([\w.]+)", re.MULTILINE)
IMPORT = re.compile(r"^\s*(pub )?use ")
ROW = re.compile(r"^(?P<head>\| \[[^]]*\]\(\.\./(?P<path>crates/\w+/specs/\w+\.antt)\) )\| [^|]* \|(?P<says>(?:[^|\n]|\\\|)*)\|[^|\n]*\|$", re.MULTILINE)


def read(path):
    with open(os.path.join(ROOT, path), encoding="utf-8") as file:
        return file.read()


def is_counted(line):
    """Whether the line has a definition's text."""
    return line.strip() != "" and not line.strip().startswith("--") and not IMPORT.match(line)


def lines_of(path):
    return sum(1 for line in read(path).splitlines() if is_counted(line))


def cited_by(path):
    """The files that the imports of a file name: first those of definitions, then those that declare types."""
    specs, declared = [], []
    for crate, name in USE.findall(read(path)):
        words = name.strip(".").split(".")
        folder = "crates/" + crate
        if not os.path.isdir(os.path.join(ROOT, folder)):
            continue
        if words[0] == "declared":
            declared.append(source_of(folder + "/src", words[1:]))
        else:
            specs.append(f"{folder}/specs/{words[0]}.antt")
    return specs, declared


def source_of(folder, words):
    """The file that declares a type: that of its module, or the crate's root."""
    path = f"{folder}/{words[0]}.rt"
    return path if os.path.exists(os.path.join(ROOT, path)) else folder + "/lib.rt"


def closure(start):
    """All files of definitions that a file stands on, itself among them if it is one, and those that declare types."""
    specs, declared, waiting = {}, set(), [start]
    while waiting:
        path = waiting.pop(0)
        if path in specs:
            continue
        if path.endswith(".antt"):
            specs[path] = lines_of(path)
        cited, types = cited_by(path)
        declared.update(types)
        waiting.extend(cited)
    return specs, declared


def mend_guide():
    """Writes the two columns of the guide's tables anew, and tells which rows are missing or too many."""
    specs, _ = closure(CLAIMS[-1][1])
    listed = []

    def row(match):
        path = match.group("path")
        listed.append(path)
        if path not in specs:
            return match.group(0)
        cited = list(dict.fromkeys(os.path.basename(spec)[: -len(".antt")] for spec in cited_by(path)[0]))
        return f"{match.group('head')}| {specs[path]} |{match.group('says')}| {', '.join(cited) or 'nothing'} |"

    guide = os.path.join(ROOT, "docs", "GUIDE.md")
    with open(guide, encoding="utf-8") as file:
        text = file.read()
    text = ROW.sub(row, text)
    for name, start in CLAIMS:
        files, declared = closure(start)
        figures = f"| `{name}` | {len(files)} | {sum(files.values()):,} | {len(declared)} |"
        text = re.sub(rf"^\| `{name}` \|.*\|$", figures, text, flags=re.MULTILINE)
    with open(guide, "w", encoding="utf-8") as file:
        file.write(text)
    for path in specs:
        if path not in listed:
            print(f"no row: {path}")
    for path in listed:
        if path not in specs:
            print(f"run_tool doesn't stand on: {path}")


def main(words):
    if words == ["--guide"]:
        mend_guide()
    show = "--files" in words
    starts = [(word, os.path.relpath(os.path.abspath(word), ROOT)) for word in words if not word.startswith("--")]
    for name, start in starts or CLAIMS:
        specs, declared = closure(start)
        if show:
            for path, lines in specs.items():
                print(f"{lines:6} {path}")
        print(f"{name}: {len(specs)} files of definitions, {sum(specs.values())} lines; types declared in {len(declared)} files of code")


if __name__ == "__main__":
    main(sys.argv[1:])
