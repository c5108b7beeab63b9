#!/usr/bin/env python3
"""Brings this repository's own definitions and lemmas to today's spelling: words in snake case, as floorRoot to floor_root and all-below to all_below.

usage: python3 tools/respell.py     at the top of a checkout, once, right after the toolchain's port.py

It goes through specs/, proofs/, src/ and must-fail/ of every crate, and the code spans of README.md, docs/ and crates/. What turns is every
name that an .antt file of a crate declares, and every name that a `use` gives a module. Names of functions of src/, of types and of modules
stay, and so does quoted text. Where a lemma would get the name of a definition it gets `_lem`; fields of records keep the plain name.
"""

import collections
import os
import re
import sys

WORD = re.compile(r'[^\s(){}.;,@"«»`]+')
QUIET = re.compile(r'"(?:[^"\\\n]|\\.)*"|(?<![^\s(){};,])--[^\n]*|\{-.*?-\}', re.S)
DECLARED = re.compile(
    r'^(?!\s*(?:use|module|infix\w*|open)\b)[ \t]*(?:(?:abbrev|unfoldable|pub|data|record|ruleset)[ \t]+)*([^\s(){}.;,@"«»=:]+)'
    r"[ \t]*(?:\([^()]*\)|\{[^{}]*\}|[ \t])*(?::|=)(?=\s)",
    re.M,
)
ALIAS = re.compile(r"^use\s[^\n{}]*?\sas\s+([\w'+-]+)$", re.M)
# Names that the check itself looks for, made from a loop, a step or a call, in the proof files of functions; they come with the proofs.
MADE = re.compile(r"(?:invariant|decreases|overflow|returns|loop\d*|cast|mul|add|sub|rem|neg|slice|shared)-|.*-requires(-\d+)?$|.*-with-sample")
# Behind these names of modules stands a theorem, not a field.
MODULES = {"balanced", "event-files", "hand-checks"}


def snake(name):
    if re.match("[a-zμ+]", name):
        name = re.sub(r"(?<=[A-Za-z0-9])[A-Z]", lambda m: "_" + m.group().lower(), name)
    return name.replace("-", "_")


def texts(*endings):
    for folder, folders, files in os.walk("crates"):
        folders[:] = sorted(f for f in folders if f != "out")
        for f in sorted(files):
            if f.endswith(endings):
                yield os.path.join(folder, f)


def read(path):
    with open(path, encoding="utf-8") as f:
        return f.read()


def table():
    names, aliases, others = set(), set(), set()
    for path in texts(".antt"):
        code = QUIET.sub(lambda m: "\n" * m.group().count("\n"), read(path))
        names |= set(DECLARED.findall(code))
        if not path.endswith("/Proof.antt"):
            others |= set(DECLARED.findall(code))
        aliases |= set(ALIAS.findall(code))
    # a name of a module turns where no definition then has it too
    spelled = {snake(n) for n in names}
    names = {n for n in names | {a for a in aliases if snake(a) not in spelled} if n in others or not MADE.match(n)}
    turned = {n: snake(n) for n in names}
    same = collections.defaultdict(set)
    for old, new in turned.items():
        same[new].add(old)
    lemmas = {}
    for new, olds in same.items():
        definitions = {n for n in olds if re.search(r"[a-z0-9][A-Z]", n)} or olds & {"is_forward"}
        if len(olds) > 1:
            lemmas |= {n: new + "_lem" for n in olds - definitions}
    return {o: n for o, n in turned.items() if o != n}, lemmas


def turn(code, path, turned, lemmas):
    """Whole words of a piece of code."""

    def word(m):
        w = m.group()
        if w in lemmas:
            before, after = code[: m.start()], code[m.end() :]
            line = before[before.rfind("\n") + 1 :]
            if before.endswith("."):
                plain = not any(before.endswith(x + ".") or before.endswith(x.replace("-", "_") + ".") for x in MODULES)
            else:
                plain = re.search(r"[{;]\s*$", before) and re.match(r"\s*=", after)
                plain = plain or "/specs/" in path or (path.endswith("promises/proofs/Promises.antt") and line.strip() in ("", "pub") and re.match(r"\s+[:=]", after))
            if path.endswith("promises/proofs/Promises.antt") and line.lstrip().startswith("use ") and " as " in line:
                plain = True
            if code[m.end() :].startswith(".") and path.endswith("promises/proofs/Promises.antt"):
                plain = True
            return snake(w) if plain else lemmas[w]
        return turned.get(w, w)

    return WORD.sub(word, code)


def comment(text, turned, lemmas):
    """Code spans, and bare words in camel case, which are no English."""
    text = re.sub(r"`[^`\n]+`", lambda m: "`" + turn(m.group()[1:-1], "specs/ /specs/", turned, lemmas) + "`", text)
    return WORD.sub(lambda m: turned.get(m.group(), m.group()) if re.match(r"[a-z]+[a-z0-9]*[A-Z]", m.group()) else m.group(), text)


def declared():
    return {n for path in texts(".antt") for n in DECLARED.findall(QUIET.sub("", read(path)))}


def main():
    turned, lemmas = table()
    # port.py turned some names already, and no page
    pages_too = {w.replace("_", "-"): w for w in declared() if "_" in w and w.replace("_", "-") not in turned} | turned
    pages_too |= {re.sub("_([a-z])", lambda m: m.group(1).upper(), w): w for w in pages_too.values()}
    rt_quiet = re.compile(r'b?"(?:[^"\\\n]|\\.)*"|//[^\n]*')
    for path in texts(".antt", ".rt", ".edit"):
        old = read(path)
        if path.endswith(".edit"):
            new = []
            for line in old.split("\n"):
                head = re.match(r"(old|new): ?", line)
                if head:
                    new.append(line[: head.end()] + turn(line[head.end() :], path, turned, lemmas))
                else:
                    new.append(comment(line, pages_too, lemmas) if line.startswith("#") else line)
            new = "\n".join(new)
        else:
            quiet, new, at = (QUIET if path.endswith(".antt") else rt_quiet), "", 0
            for m in quiet.finditer(old):
                # the code before a quiet piece is turned with the whole text at hand
                new += piece(old, at, m.start(), path, turned, lemmas)
                new += comment(m.group(), pages_too, lemmas) if m.group()[:2] in ("--", "{-", "//") else m.group()
                at = m.end()
            new += piece(old, at, len(old), path, turned, lemmas)
        if new != old:
            with open(path, "w", encoding="utf-8") as f:
                f.write(new)
    pages = [os.path.join("docs", f) for f in os.listdir("docs") if f.endswith(".md")]
    pages += [os.path.join("docs/changes", f) for f in os.listdir("docs/changes")] + ["README.md"]
    for path in pages:
        old = read(path)
        new = re.sub(r"(?<!`)`[^`\n]+`(?!`)", lambda m: "`" + turn(m.group()[1:-1], "specs/ /specs/", pages_too, lemmas) + "`", old)
        if new != old:
            with open(path, "w", encoding="utf-8") as f:
                f.write(new)
    print(f"{len(turned)} names turned; with _lem: {', '.join(sorted(lemmas.values()))}")


def piece(text, start, end, path, turned, lemmas):
    return turn(text[start:end], path, turned, {} if path.endswith(".rt") else lemmas)


if __name__ == "__main__":
    sys.exit(main())
