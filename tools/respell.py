#!/usr/bin/env python3
"""Spells this repository's own definitions, lemmas and record fields in snake case.

usage: respell.py [--check] [ROOT]     after port.py, once

    leastBlocked, setter-holds, below-lowest  ->  least_blocked, setter_holds, below_lowest

It goes by the names that specs/*.antt and proofs/*.antt declare, and in these files by every name with a dash that no library of the kit gives. The names
that Rattle makes for a function's proof (proofs/F/) keep their dashes. In comments and in pages a name with a dash is turned between backticks alone,
since a word of prose can be spelled so. With --check nothing is written; either way, names that would fall together in a file are listed.
"""
import glob
import os
import re
import sys

TOKEN = re.compile(r"[^\s(){}.;,@\"«»\[\]\\`:|]+")
DECLARED = re.compile(r"^\s*(?:(?:abbrev|opaque|unfoldable|pub|instance)\s+)*(?:(?:record|data)\s+)?([^\s:(){},.=|`]+)(?:\s*\{[^{}]*\})*\s*(?:\([^()]*\)\s*)*:(?=\s|$)")
USE = re.compile(r"\buse\s+([^\s{;]+)(?:\{([^}]*)\})?")
CAMEL = re.compile(r"[a-z][a-z0-9]*(?:[A-Z][a-z0-9]*)+")


def turned(name):
    it = re.sub(r"(?<=[a-z0-9])([A-Z])", lambda m: "_" + m[1].lower(), name) if CAMEL.match(name) else name
    return re.sub(r"(?<=[\w'])-(?=\w)", "_", it).replace("′", "'")


def is_spelled_otherwise(name):
    return turned(name) != name and bool(re.match(r"[A-Za-z]", name))


def read(path):
    with open(path, encoding="utf-8") as it:
        return it.read()


def code_and_comments(text, mark):
    """Yields (is_comment, part)."""
    for line in text.splitlines(keepends=True):
        at = line.find(mark)
        while at > 0 and mark == "--" and not line[at - 1].isspace():
            at = line.find(mark, at + 1)
        if at < 0:
            yield False, line
        else:
            yield False, line[:at]
            yield True, line[at:]


def in_backticks(text, names):
    return re.sub(r"`[^`\n]+`", lambda m: TOKEN.sub(lambda t: names.get(t[0], t[0]), m[0]), text)


def camel_only(text, names):
    return TOKEN.sub(lambda t: names.get(t[0], t[0]) if CAMEL.fullmatch(t[0]) else t[0], text)


def main(argv):
    check = "--check" in argv
    root = ([it for it in argv if not it.startswith("--")] or ["."])[0]
    own = {os.path.basename(it) for it in glob.glob(f"{root}/crates/*")}
    of = lambda part: [it for it in sorted(glob.glob(f"{root}/crates/*/{part}", recursive=True)) if "/out/" not in it]
    texts = of("specs/*.antt") + of("proofs/*.antt")
    made = of("proofs/*/**/*.antt")
    declared, stated, lent = set(), set(), {}
    for path in texts + made:
        got = set()
        for where, names in USE.findall(read(path)):
            crate = re.match(r"Rattle\.(\w+)", where)
            if not crate or crate[1] not in own:
                for it in names.split(","):
                    got |= set(it.split(" as ")[:1] and it.split()[:1])
        lent[path] = got
    for path in texts:
        for line in read(path).split("\n"):
            m = DECLARED.match(line)
            if m and m[1] not in ("use", "mod", "open", "module", "let", "where"):
                declared.add(m[1])
                # a definition, or a lemma
                if "/specs/" in path or "-" not in m[1]:
                    stated.add(m[1])
            # several fields of one line
            for it in re.findall(r"(?:^|\s)pub ([^\s:(){},.=]+) :", line):
                declared.add(it)
    # a lemma that would have a definition's name gets `_lem`
    taken = {turned(it) for it in stated}
    names = {it: turned(it) + "_lem" * (it not in stated and turned(it) in taken) for it in declared if is_spelled_otherwise(it)}
    changed = 0

    def put(path, new):
        nonlocal changed
        if new != read(path):
            changed += 1
            if not check:
                with open(path, "w", encoding="utf-8") as it:
                    it.write(new)

    fall = 0
    for path in texts + made:
        text, keep = read(path), lent[path]
        here = dict(names)
        if path in texts:
            for is_comment, part in code_and_comments(text, "--"):
                if not is_comment:
                    here.update({t: names.get(t, turned(t)) for t in TOKEN.findall(part) if is_spelled_otherwise(t) and re.search(r"[\w']-\w", t)})
                    here.update({t: turned(t) for t in TOKEN.findall(part) if "′" in t})
        here = {k: v for k, v in here.items() if k not in keep and not re.match(r"(Need|After|At|Joined|Then|Else|In)-", k)}
        out = []
        for is_comment, part in code_and_comments(text, "--"):
            if is_comment:
                out.append(camel_only(in_backticks(part, here), here))
            elif part.lstrip().startswith(("use ", "pub use ", "mod ", "pub mod ")):
                # the path stays; what it brings is turned, unless the kit gives it
                m = re.match(r"(\s*(?:pub )?use [^\s{]+\{)([^}]*)(\}.*)", part, re.S)
                crate = re.match(r"\s*(?:pub )?use Rattle\.(\w+)", part)
                if m and crate and crate[1] in own:
                    part = m[1] + TOKEN.sub(lambda t: here.get(t[0], t[0]), m[2]) + m[3]
                out.append(part)
            else:
                out.append(TOKEN.sub(lambda t: here.get(t[0], t[0]), part))
        seen = {}
        for is_comment, part in code_and_comments(text, "--"):
            if not is_comment:
                for t in TOKEN.findall(part):
                    seen.setdefault(here.get(t, t), set()).add(t)
        for it, olds in sorted(seen.items()):
            if len(olds) > 1:
                fall += 1
                print(f"falls together: {path}: {' '.join(sorted(olds))}")
        put(path, "".join(out))
    for path in of("src/*.rt"):
        out = []
        for is_comment, part in code_and_comments(read(path), "//"):
            out.append(camel_only(in_backticks(part, names), names) if is_comment else TOKEN.sub(lambda t: names.get(t[0], t[0]), part))
        put(path, "".join(out))
    edits = of("must-fail/*.edit") + glob.glob(f"{root}/tests/**/*.edit", recursive=True)
    for path in sorted(edits):
        out = []
        for line in read(path).splitlines(keepends=True):
            out.append(TOKEN.sub(lambda t: names.get(t[0], t[0]), line) if line.startswith(("old:", "new:")) else camel_only(in_backticks(line, names), names))
        put(path, "".join(out))
    pages = [it for it in glob.glob(f"{root}/*.md") + glob.glob(f"{root}/docs/*.md") + glob.glob(f"{root}/bench/*.md") if not it.endswith("PORT.md")]
    for path in sorted(pages):
        put(path, camel_only(in_backticks(read(path), names), names))
    print(f"names {len(names)}, files changed {changed}, falls together {fall}")
    return 0


if __name__ == "__main__":
    sys.exit(main(sys.argv[1:]))
