#!/usr/bin/env python3
"""Spells this repository's own definitions and lemmas as today's Rattle does: words in snake case, types and modules in camel case.

usage: python3 tools/snake_names.py        at the top, once, right after the kit's port.py

A name in camel case gets underscores. A dash stays where it joins the names of two functions, as in length-body_of; else it becomes an
underscore. A lemma that would get the name of a definition, where some file has both, ends in _lem. Functions of src/, names that the kit
makes, strings, and constructors and types, which begin with a capital, keep their spelling.
"""

import collections
import glob
import re

KEYWORDS = {"abbrev", "unfoldable", "pub", "private", "data", "record", "mutual", "ruleset"}
OPERATIONS = {"length", "get_or", "take", "drop", "append", "replicate", "sets", "set", "map", "reverse", "sum"}
# Names in snake case already that a definition in camel case would meet; and names that are no declarations: what an import calls them.
BESIDE = {"end_step": "end_step_lem", "near_of": "near_of_lem", "too_long": "is_too_long"}
CALLED = "asWritten asPublished readInner tryBody cutMain branchTo tryLength catchLength finallyLength".split()
TOKEN = re.compile(r'[^\s(){}.;,@"«»]+')


def code_of(line):
    return re.sub(r"(^|\s)--(\s.*)?$", "", line)


def declared(path):
    """The names that a file of antt declares, each with whether it is a definition."""
    for line in open(path, encoding="utf-8"):
        words = code_of(line).split()
        heads = []
        while words and words[0] in KEYWORDS:
            heads.append(words.pop(0))
        if not words or words[0] == "use" or re.search(r'[(){}.;,@"=:λ→]', words[0]):
            continue
        depth = 0
        for word in words[1:]:
            if depth == 0 and word in (":", "="):
                if word == ":":
                    yield words[0], "abbrev" in heads or "unfoldable" in heads
                break
            depth += word.count("(") + word.count("{") - word.count(")") - word.count("}")


def snake(name):
    name = re.sub(r"\bgetD\b", "get_or", name)
    return re.sub(r"(?<=[a-z0-9])[A-Z]", lambda m: "_" + m[0].lower(), name)


def files():
    return sorted(f for f in glob.glob("crates/*/*/**/*", recursive=True) if f.endswith((".antt", ".rt")) and "/out/" not in f)


def table():
    names = {}
    for path in glob.glob("crates/*/specs/*.antt") + glob.glob("crates/*/proofs/*.antt"):
        for name, is_definition in declared(path):
            names[name] = names.get(name, False) or is_definition
    functions = OPERATIONS | {n for n, d in names.items() if d and snake(n) != n}
    new = {}
    for name in names:
        if not name[0].islower() or name == snake(name).replace("-", "_"):
            continue
        parts = re.sub(r"\bgetD\b", "get_or", name).split("-")
        joins = len(parts) == 2 and parts[0] in functions and parts[1] in functions
        new[name] = snake(name) if joins else snake(name).replace("-", "_")
    together = collections.defaultdict(set)
    for name in names:
        together[new.get(name, name)].add(name)
    tokens = {f: set(TOKEN.findall(open(f, encoding="utf-8").read())) for f in files() if f.endswith(".antt")}
    for to, group in together.items():
        if len(group) > 1 and any(len(group & t) > 1 for t in tokens.values()):
            for name in group:
                if "-" in name:
                    new[name] = to + "_lem"
    for old in CALLED:
        new.setdefault(old, snake(old))
    new.update(BESIDE)
    return {old: to for old, to in new.items() if old != to}


def turned(text, new):
    return TOKEN.sub(lambda m: new.get(m[0], m[0]), text)


def turned_rust(text, new):
    """Clauses and ghost lines of a .rt file."""
    out = []
    for line in text.split("\n"):
        if re.match(r"\s*(ghost use|requires|ensures|ghost) ?", line):
            line = turned(line, new)
        out.append(line)
    return "\n".join(out)


def main():
    new = table()
    for path in files():
        with open(path, encoding="utf-8") as f:
            text = f.read()
        after = turned(text, new) if path.endswith(".antt") else turned_rust(text, new)
        if after != text:
            with open(path, "w", encoding="utf-8") as f:
                f.write(after)
    print(f"{len(new)} names")
    return new


if __name__ == "__main__":
    main()
