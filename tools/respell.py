#!/usr/bin/env python3
"""Spells this repository's own definitions and lemmas as today's Rattle spells its library: in snake case, types and facts in camel case.

    python3 tools/respell.py

Run once, at the top, after port.py of the kit and before any edit by hand. It turns a name such as `childLayout` or `after-pass`, defined in
crates/*/specs or crates/*/proofs, to `child_layout` and `after_pass` wherever it stands in .rt and .antt files. A lemma whose new name a definition or
another lemma has ends in `_lem`; the table is printed. Names that Rattle makes for proofs, names of src/ and names of the library stay.
"""
import collections
import glob
import re

WORD = r"[^\s(){}.;,@\"«»\[\]\\]+"
TOKEN = re.compile(r"--[^\n]*|//[^\n]*|\"(?:[^\"\\\n]|\\.)*\"|" + WORD)
HEAD = re.compile(r"(?m)^\s*(?:\| )?(?:(?:abbrev|unfoldable|pub|data|record|mutual) )*(" + WORD + r")(?: \{[^}]*\}| \([^)]*\)| (?![:=])" + WORD + r")*\s*:\s")
# What port.py makes of names that are no longer the library's.
OLD = {"get_d_replicate": "get_or_replicate", "cpu-in": "cpu_is_in"}


def snake(word):
    word = word.replace("getD-", "get_or-")
    word = re.sub(r"(?<=[a-z0-9])([A-Z])", lambda m: "_" + m.group(1).lower(), word) if word[:1].islower() else word
    return re.sub(r"(?<=\w)-(?=[\w?])", "_", word)


def files(kind):
    return sorted(glob.glob(f"crates/*/{kind}/**/*.antt", recursive=True))


def shared(path):
    """Whether a file of proofs/ holds lemmas, and is no proof of one function."""
    return path.count("/") == 3


def heads(path):
    with open(path, encoding="utf-8") as f:
        text = re.sub(r"--[^\n]*", "", f.read())
    return {m.group(1) for m in HEAD.finditer(text)}


def tables():
    defined = set().union(*(heads(p) for p in files("specs")))
    proved = set().union(*(heads(p) for p in files("proofs") if shared(p)))
    words = set()
    for path in files("specs") + files("proofs") + sorted(glob.glob("crates/*/src/*.rt")):
        with open(path, encoding="utf-8") as f:
            words |= {w for w in TOKEN.findall(f.read()) if w[:2] not in ("--", "//") and w[:1] != '"'}
    camel = {w for w in words if re.fullmatch(r"[a-z][A-Za-z0-9_'?-]*", w) and re.search(r"[a-z0-9][A-Z]", w)}
    dashed = {w for w in defined | proved if re.fullmatch(r"[A-Za-z][\w'?]*(-[\w'?]+)+", w)}
    old = {w for w in OLD if w in proved}
    new = {}
    taken = collections.Counter()
    # definitions first: they keep the plain name
    plain = defined | proved | words
    for w in sorted(defined & (camel | dashed)) + sorted((camel | dashed | old) - defined):
        to = OLD.get(w, snake(w))
        new[w] = to
    ends = collections.defaultdict(list)
    for w, to in new.items():
        ends[to].append(w)
    for w in defined | proved:
        if w not in new and w in ends:
            ends[w].append(w)
    for to, them in sorted(ends.items()):
        if len(them) < 2:
            continue
        keeps = [w for w in them if w in defined] or [w for w in them if w == to] or them[:1]
        for w in them:
            if w not in keeps:
                new[w] = to + "_lem"
        if len(keeps) > 1:
            print("two definitions:", to, them)
    return {w: to for w, to in new.items() if w != to}, words


def turn(path, new):
    with open(path, encoding="utf-8") as f:
        text = f.read()
    folder = not (path.endswith(".rt") or "/specs/" in path or shared(path))

    def one(m):
        w = m.group(0)
        if w[:2] in ("--", "//"):
            return re.sub(r"`(" + WORD + r")`|\b([a-z]+[A-Z]\w*)", lambda n: n.group(0).replace(n.group(1) or n.group(2), new.get(n.group(1) or n.group(2), n.group(1) or n.group(2))), w)
        if w not in new:
            return w
        if folder and text[m.start() - 1 : m.start()] == "." and not re.search(r"(?<![\w.'-])[A-Z]\w*\.$", text[: m.start()]):
            return w
        return new[w]

    after = TOKEN.sub(one, text)
    if after != text:
        with open(path, "w", encoding="utf-8") as f:
            f.write(after)


def main():
    new, words = tables()
    for w, to in sorted(new.items()):
        print(f"{w}\t{to}" + ("\tis a word elsewhere too" if to in words else ""))
    for path in files("specs") + files("proofs") + sorted(glob.glob("crates/*/src/*.rt")):
        turn(path, new)


if __name__ == "__main__":
    main()
