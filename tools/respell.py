#!/usr/bin/env python3
"""Brings this repository's own definitions and lemmas to today's spelling.

usage: python3 tools/respell.py     at the top, once, after the kit's port.py

What specs/ and the lemma files of proofs/ declare is named in snake case: maxSum and
max-sum are max_sum. Types and modules keep their upper camel case. A name ends in _lem,
or in _law where it was spelled with dashes, if it would be that of a thing of the code
beside a contract that says it, or another's in the same file. A word is ours in a file
that declares it or takes it from one of our crates; a word that the file takes from the
library stays. What Rattle makes from the code (the goals of a function) is left alone,
and so are strings. Pages say the new names where a page quotes one.
"""

import collections
import os
import re
import sys

WORD = r'[^\s(){}.;,@"«»:]+'
TOKEN = re.compile(r'"(?:[^"\\\n]|\\.)*"|--[^\n]*|//[^\n]*|[^\s(){}.;,@"«»]+|.', re.S)
DECLARED = re.compile(
    rf"(?m)^[ ]*(?:unfoldable )?(?:abbrev )?(?:pub )?(?:data |record |ruleset )?({WORD}(?: {WORD})*) [:=]"
)
USED = re.compile(r"(?m)^(?:pub |ghost |unfoldable |pub ghost )*use (\S+?)(?:\.\{([^}]*)\}| as (\S+))?;?$")
RESERVED = {"record", "ruleset", "data", "open", "use", "where", "let", "in", "elim", "as", "search", "assumption", "ground"}


def snake(name):
    """maxSum and max-sum are max_sum; D-rows is d_rows."""
    name = re.sub(r"(?<=[a-z0-9'])(?=[A-Z])", "_", name)
    return re.sub(r"[A-Z]", lambda m: m[0].lower(), name.replace("-", "_"))


def is_type(name):
    return name[0].isupper() and "-" not in name


def files_of(top, ends):
    for folder, folders, files in os.walk(os.path.join(top, "crates")):
        folders[:] = sorted(f for f in folders if f not in ("out", "must-fail"))
        for file in sorted(files):
            if file.endswith(ends):
                yield os.path.join(folder, file)


def read(path):
    with open(path, encoding="utf-8") as f:
        return f.read()


def is_ours(path):
    """Whether the file declares names of ours, and not answers to a function's goals."""
    return "/specs/" in path or re.search(r"/proofs/[^/]+\.antt$", path)


def uncommented(text):
    return re.sub(r"(?<!\S)--[^\n]*", "", text)


def declared_in(text):
    names = set()
    for m in DECLARED.finditer(uncommented(text)):
        names.update(m[1].split())
    return names


def used_in(text):
    """What a file takes by name: for each word the module it is of."""
    words = {}
    for m in USED.finditer(text):
        for item in (m[2] or "").split(","):
            names = item.strip().split(" as ")
            for name in names:
                words[name.strip().strip("«»")] = m[1]
    return words


def rust_names(text):
    """The words of a source's code, without its clauses."""
    bare = re.sub(r"//[^\n]*", "", text)
    bare = re.sub(r"ghost use [^;]*;", "", bare)
    bare = re.sub(r"(?s)\b(?:requires|ensures)(?: \w+)? \{.*?\}\n", "\n", bare)
    return set(re.findall(r"\b[a-z_][a-z0-9_]*\b", bare))


def said_in_contracts(rt):
    """For each word that a source takes for its contracts, the words of the code there."""
    beside = collections.defaultdict(set)
    for text in rt.values():
        words = rust_names(text)
        for name in used_in(text):
            beside[name] |= words
    return beside


def main():
    top = os.path.dirname(os.path.dirname(os.path.abspath(__file__)))
    os.chdir(top)
    crates = set(os.listdir("crates"))
    antt = {p: read(p) for p in files_of(".", ".antt")}
    rt = {p: read(p) for p in files_of(".", ".rt")}
    beside = said_in_contracts(rt)
    declared = collections.Counter()
    for path, text in antt.items():
        if is_ours(path):
            declared.update(declared_in(text))
    places = collections.defaultdict(set)
    for path, text in list(antt.items()) + list(rt.items()):
        for word in set(re.findall(WORD, text)):
            places[word].add(path)
    table, old = {}, collections.defaultdict(set)
    for name in declared:
        if snake(name) == name:
            old[name].add(name)

    def is_taken(new, name):
        return any(places[name] & places[other] for other in old[new] - {name}) or (new not in declared and places[name] & places[new])

    for name in sorted(declared, key=lambda n: ("-" in n, n)):
        new = snake(name)
        if is_type(name) or new == name:
            continue
        if new in beside[name] or is_taken(new, name) or new in RESERVED:
            new += "_law" if "-" in name else "_lem"
        if is_taken(new, name):
            sys.exit(f"respell: {name}: {new} is taken")
        old[new].add(name)
        table[name] = new
        if name[0] == name[-1] == "◌":
            table[name[1:-1]] = new[1:-1]
    print(f"respell: {len(table)} names")

    def turned(path, text):
        theirs = {w for w, m in used_in(text).items() if not (m.startswith("Rattle.") and m.split(".")[1] in crates)}
        own = set(table) - theirs
        answers = "/proofs/" in path and not is_ours(path)
        local = set()
        if answers:
            # only what the file takes from our crates: the rest is named after the code
            own &= {w for w, m in used_in(text).items()} | {w for w in own if w in COMMON}
        def one(m):
            word = m[0]
            if word[0] == '"':
                return word
            if word.startswith("--") or word.startswith("//"):
                return re.sub(r"`[^`\n]+`", lambda s: re.sub(r"[\w'₀-₉-]+", lambda w: table.get(w[0], w[0]), s[0]), word)
            return table[word] if word in own else word
        return TOKEN.sub(one, text)

    COMMON = fields_of(antt)
    for path, text in list(antt.items()) + list(rt.items()):
        new = turned(path, text)
        if new != text:
            with open(path, "w", encoding="utf-8") as f:
                f.write(new)
    names = set(table.values()) | set(declared)

    def said(word):
        # The kit's script has turned some names already.
        return table.get(word) or (snake(word) if word not in names and snake(word) in names and not is_type(word) else word)

    for page in ["README.md"] + sorted(os.path.join("docs", f) for f in os.listdir("docs") if f.endswith(".md")):
        text = read(page)
        new = re.sub(r"`[^`\n]+`", lambda s: re.sub(r"[A-Za-z][\w'₀-₉-]*", lambda w: said(w[0]), s[0]), text)
        if new != text:
            with open(page, "w", encoding="utf-8") as f:
                f.write(new)


def fields_of(antt):
    """The fields of our records, which stand behind a dot in a file that names no record."""
    names = set()
    for path, text in antt.items():
        if is_ours(path):
            for m in re.finditer(rf"(?m)^  +(?:pub )?({WORD}) :", uncommented(text)):
                names.add(m[1])
    return names


if __name__ == "__main__":
    main()
