#!/usr/bin/env python3
"""Spells the names of this repository's definitions and lemmas as today's Rattle does, in crates/ below the folder given.

usage: tools/respell.py [FOLDER]

It was run once, behind port.py (docs/PORT.md). Words are in snake case: `setOf` is `set_of`. In the name of a lemma a dash joins
two names, as in `length-append`; a plain word is added with `_`, as in `gcd_is`. Functions of src/, strings, inputs and outputs
keep their names. A name that would meet another in some file keeps its dash; the script says so.
"""
import os
import re
import sys
from collections import defaultdict

ROOT = sys.argv[1] if len(sys.argv) > 1 else "."
DECLARED = re.compile(r"^(?:(?:pub|abbrev|unfoldable|opaque)\s+)*(?:(record|data)\s+)?(?:pub\s+)?([^\s():{}.,;λ]+)\s+:(?:\s|$)")
INNER = re.compile(r"^\s+(?:pub\s+)?([^\s():{}.,;λ=]+)\s+:(?:\s|$)")
TOKEN = re.compile(r"[^\s(){}\[\].,;:λ\"`=]+")
CAMEL = re.compile(r"^[a-z][a-z0-9]*(?:[A-Z][a-z0-9]*)+$")
# Words of the library and constructors that lemmas are named after.
LIBRARY = set("""append nil cons zero suc some none pos negsuc length take drop map filter any all not and or true false range max min
sum product add sub mul div mod le lt ge gt eq eqb leb ltb set get get_or head tail reverse concat concat_map mem in
compare sign abs nat_abs xor shl shr inl inr""".split())


# Lemmas that would have their function's name.
FUNCTIONS = {
    word: word.replace("-", "_") + "_lem"
    for word in (
        "in_rows",
        "counts_of",
        "block_within",
        "bound-in",
        "average-of",
        "front-zeroed",
        "behind-zeroed",
        "plain_in",
        "sole-in",
        "is-var",
        "element-of",
    )
}
# A constructor that would have a function's name.
FUNCTIONS["by_value"] = "by_key"


def files(ends):
    for folder, dirs, names in os.walk(os.path.join(ROOT, "crates")):
        dirs[:] = sorted(d for d in dirs if d != "out")
        for name in sorted(names):
            if name.endswith(ends):
                yield os.path.join(folder, name)


def kind(path):
    part = os.path.relpath(path, os.path.join(ROOT, "crates")).split(os.sep)
    if part[1] == "specs":
        return "specs"
    return "lemma" if len(part) == 3 else "function"


def snake(word):
    """A word in snake case, part by part."""
    def one(part):
        if not CAMEL.match(part):
            return part
        return re.sub(r"(?<=[a-z0-9])(?=[A-Z])", "_", part).lower()
    return re.sub(r"[^-_]+", lambda m: one(m.group(0)), word)


def names_of(texts):
    """The declared names: each with the kinds of file that declare it, and the names of constructors and fields."""
    where, inner = defaultdict(set), set()
    for path, text in texts.items():
        for line in text.split("\n"):
            found = DECLARED.match(line)
            if found:
                where[found.group(2)].add(kind(path))
            elif kind(path) == "specs":
                found = INNER.match(line)
                if found:
                    inner.add(found.group(1))
    return where, inner


def dashed(name, known):
    """A lemma's name: a dash stays between two names, and a plain word is added with `_`."""
    parts = snake(name).split("-")
    text = parts[0]
    for before, part in zip(parts, parts[1:]):
        joins = before in known and part in known
        text += ("-" if joins else "_") + part
    return text


def table(texts):
    where, inner = names_of(texts)
    definitions = {snake(n) for n, kinds in where.items() if "specs" in kinds} | {snake(n) for n in inner}
    known = definitions | LIBRARY
    used = {t for text in texts.values() for t in TOKEN.findall(text)}
    camel, lemmas = {}, dict(FUNCTIONS)
    for word in used:
        if "-" not in word and snake(word) != word:
            camel[word] = snake(word)
    for name, kinds in where.items():
        if "-" in name and name not in FUNCTIONS and kinds == {"lemma"}:
            new = dashed(name, known)
            if new in used or list(lemmas.values()).count(new):
                print(f"kept: {name}, as {new} is there")
                new = snake(name)
            if new != name:
                lemmas[name] = new
    for word, new in sorted(camel.items()):
        if new in used and new not in FUNCTIONS:
            print(f"meets: {word} and {new}")
    return camel, lemmas


def own_modules(text):
    """The names that a file gives to modules of this repository's lemmas."""
    found = set()
    for path, name in re.findall(r"^use (Rattle\.\w+\.(?:specs|proofs)\.\w+) as (\S+)$", text, re.M):
        crate, part, module = path.split(".")[1:4]
        if os.path.exists(os.path.join(ROOT, "crates", crate, part, module + ".antt")):
            found.add(name)
    return found


def turned(text, camel, lemmas):
    """The text with its names turned."""
    modules = own_modules(text)
    out, last = [], 0
    for found in TOKEN.finditer(text):
        word = found.group(0)
        at = found.start()
        before = text[max(0, at - 1):at]
        new = word
        if word in lemmas:
            if before == ".":
                owner = re.search(r"([^\s(){}\[\].,;:λ\"`=]+)\.$", text[:at])
                if owner and (owner.group(1) in modules):
                    new = lemmas[word]
            else:
                new = lemmas[word]
        if new == word:
            new = "-".join(camel.get(part, snake(part) if part in camel else part) for part in word.split("-"))
        if new != word:
            out.append(text[last:at] + new)
            last = found.end()
    out.append(text[last:])
    return "".join(out)


def main():
    texts = {}
    for path in files(".antt"):
        with open(path, encoding="utf-8") as f:
            texts[path] = f.read()
    camel, lemmas = table(texts)
    for path in files((".antt", ".rt")):
        with open(path, encoding="utf-8") as f:
            text = f.read()
        words = {n: new for n, new in lemmas.items() if "-" in n} if path.endswith(".rt") else lemmas
        new = turned(text, camel, words)
        if new != text:
            with open(path, "w", encoding="utf-8") as f:
                f.write(new)
    print(f"{len(camel)} words in snake case, {len(lemmas)} names of lemmas")


main()
