#!/usr/bin/env python3
"""Spells the definitions and lemmas of crates/ as today's Rattle spells its own.

usage: tools/port_names.py      at the top of the repository, once, right after the kit's port.py
       tools/port_names.py list prints the old names and the new ones, and changes nothing

Words are in snake case, types in camel case: `sizeOk` and `free-ends` become `size_ok` and
`free_ends`, and `Damage-meant` becomes `DamageMeant`. Where a lemma would then have the name of a
definition, it gets `_lem`. Names that come from Rust source, and the names of goals, stay. It goes
through the .antt files, the clauses and `ghost use` lines of the .rt files, and the edits.
"""

import collections
import os
import re
import sys

TOKEN = re.compile(r"[^\s(){}\[\],;.]+")
HEAD = re.compile(r"^(\s*)((?:(?:abbrev|unfoldable|pub|record|data|ruleset)\s+)*)([^\s(){}\[\],;.:]+)\s+(?::|=)")
CAMEL = re.compile(r"[a-z0-9][A-Z]")
# fields and cases of records, which may have a definition's name beside it
FIELDS = {"free-count": "free_count", "in_use": "in_use"}
FUNCTION = re.compile(r"/proofs/(?:[^/]+/)+[^/]+\.antt$")


def files(ending):
    for top in ("crates", "tests"):
        for folder, dirs, names in os.walk(top):
            dirs[:] = sorted(d for d in dirs if d != "out")
            for name in sorted(names):
                if name.endswith(ending):
                    yield os.path.join(folder, name)


def text_of(path):
    with open(path, encoding="utf-8") as f:
        return f.read()


def heads(text):
    """The names that a file defines, each with whether it stands at the left and with its type."""
    for line in text.split("\n"):
        m = HEAD.match(line)
        if m:
            yield m.group(3), not m.group(1), m.group(2), line[m.end():].strip()


def snake(name):
    if name[0].isupper():
        return "".join(part[0].upper() + part[1:] for part in name.split("-"))
    name = name.replace("-", "_")
    if CAMEL.search(name) and not name.isupper():
        parts = name.split("_")
        name = "_".join(re.sub(r"(?<=[a-z0-9])(?=[A-Z])", "_", p).lower() if CAMEL.search(p) else p for p in parts)
    return name


def to_turn(name):
    if name.startswith("-") or not re.match(r"^[A-Za-z][A-Za-z0-9_'-]*$", name):
        return False
    if name[0].isupper():
        return "-" in name
    return "-" in name or bool(CAMEL.search(name))


def shared_map():
    """Old name to new name, for what stands in specs/ and in the lemma files of proofs/."""
    old, words = {}, collections.defaultdict(set)
    for path in files(".antt"):
        if FUNCTION.search("/" + path):
            continue
        for name, left, marks, _ in heads(text_of(path)):
            lemma = "/proofs/" in path
            words[name].add("lemma" if lemma else "definition")
            if to_turn(name):
                old[name] = snake(name)
    by_new = collections.defaultdict(set)
    for name, new in old.items():
        by_new[new].add(name)
    together = []
    for new, names in sorted(by_new.items()):
        names = names | ({new} if new in words else set())
        if len(names) < 2:
            continue
        together.append((new, sorted(names)))
        # the definition keeps the name; a lemma of the same name gets `_lem`
        first = sorted(names, key=lambda n: ("definition" not in words[n], n != new, "-" in n, n))[0]
        for name in names - {first}:
            if name != new or words[name] == {"lemma"}:
                old[name] = new + "_lem"
    return {**old, **FIELDS}, together


def local_map(path, text, shared):
    """In the proof of a function: its own lemmas, which are not the answers of goals."""
    found = {}
    goals = set()
    for name, left, marks, kind in heads(text):
        if not left:
            continue
        if name.endswith("-spec") and "statement" in kind:
            found[name] = name.replace("-", "_")
        elif re.match(r"(tie|goal|g)\.", kind) or re.match(r"(invariant|decreases)-", name):
            goals.add(name)
        elif to_turn(name):
            found[name] = snake(name)
    return found, goals


def turned(line, names, stay, dotted):
    """The line with its names turned; a name behind a dot only where `dotted` says so."""
    comment = re.search(r"(^|\s)--\s", line)
    code, rest = (line[: comment.start()], line[comment.start():]) if comment else (line, "")

    def new(m):
        name = m.group(0)
        if name in stay or name not in names:
            return name
        # a lemma that has a function's name: not where the name is a part of a path
        if names[name] == name + "_lem" and (code[m.end():m.end() + 1] == "." or code[: m.start()].endswith(".")):
            return name
        if m.start() > 0 and code[m.start() - 1] == "." and not dotted(code, m.start(), name):
            return name
        return names[name]

    code = TOKEN.sub(new, code)
    rest = re.sub(r"`([^`\s]+)`", lambda m: "`" + names.get(m.group(1), m.group(1)) + "`", rest)
    rest = re.sub(r"\b[a-z]+[A-Z]\w*\b", lambda m: names.get(m.group(0), m.group(0)), rest)
    return code + rest


def in_lemmas(code, start, name):
    return True


def in_proof(aliases):
    """Behind a dot in the proof of a function stands a step or a field that the check made."""

    def dotted(code, start, name):
        if CAMEL.search(name) or code.lstrip().startswith("use "):
            return True
        before = re.search(r"([^\s(){}\[\],;]+)\.$", code[:start])
        return bool(before) and before.group(1).split(".")[0] in aliases

    return dotted


def antt(path, shared):
    text = text_of(path)
    if not FUNCTION.search("/" + path):
        return "\n".join(turned(l, shared, (), in_lemmas) for l in text.split("\n"))
    own, goals = local_map(path, text, shared)
    aliases = {m.group(2) for m in re.finditer(r"(?m)^use (\S+) as (\S+)$", text) if not re.search(r"\.proofs\.[a-z]", m.group(1))}
    names = {**shared, **own}
    # a goal's name that is also a lemma's: the lemma is brought in by name and is turned there
    return "\n".join(turned(l, names, goals, in_proof(aliases)) for l in text.split("\n"))


def rust(text, shared):
    """The clauses and the `ghost use` lines; code has no such names."""
    lines = []
    for line in text.split("\n"):
        if re.match(r"\s*//", line):
            line = re.sub(r"`([^`\s]+)`", lambda m: "`" + shared.get(m.group(1), m.group(1)) + "`", line)
            line = re.sub(r"\b[a-z]+[A-Z]\w*\b", lambda m: shared.get(m.group(0), m.group(0)), line)
        else:
            line = TOKEN.sub(lambda m: shared.get(m.group(0), m.group(0)) if to_turn(m.group(0)) else m.group(0), line)
        lines.append(line)
    return "\n".join(lines)


def edit(text, shared):
    lines = []
    for line in text.split("\n"):
        m = re.match(r"((?:old|new): )(.*)$", line)
        if m:
            line = m.group(1) + TOKEN.sub(lambda n: shared.get(n.group(0), n.group(0)) if to_turn(n.group(0)) else n.group(0), m.group(2))
        lines.append(line)
    return "\n".join(lines)


def main(words):
    shared, together = shared_map()
    if words == ["list"]:
        for name in sorted(shared):
            print(name, shared[name])
        print("-- names that fall together:")
        for new, names in together:
            print(new, names, [shared.get(n, n) for n in names])
        return
    for ending in (".antt", ".rt", ".edit"):
        for path in files(ending):
            text = text_of(path)
            new = antt(path, shared) if ending == ".antt" else rust(text, shared) if ending == ".rt" else edit(text, shared)
            if new != text:
                with open(path, "w", encoding="utf-8") as f:
                    f.write(new)


if __name__ == "__main__":
    main(sys.argv[1:])
