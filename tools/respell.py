#!/usr/bin/env python3
"""Brings the repository's own names to the spelling of today's Rattle, after the toolchain's own script has run; run once, at the top.

Words of definitions, lemmas, fields and variables that were in lower camel case are in snake case (`checkOf` is `check_of`), and so are
definitions and record fields that were joined by dashes (`starts-long` is `starts_long`). In a lemma's name a dash stays where it joins two
names (`core-shell`), and is `_` before a plain word (`count_mono`). In a clause `old x` is `x.now` of a `&` and `x.old` of a `&mut`, and
`final x` is `x.new`. It goes by text, over the crates' .antt, .rt and .edit files, and over the pages; functions of src/, exported names,
strings, inputs and outputs keep their names. Where a lemma's new name is a word already it keeps its old one. `--names` prints each renaming
and changes nothing.
"""
import os
import re
import sys

# Words of the library, which keep their spelling
LIBRARY = {"getD", "leZ", "not_T", "by_Bare", "uint_Lawful", "uint_Makes", "uint_Tells", "shr_slice_Lawful", "shr_slice_Tells", "walk_Meets"}
# Words of the library that the names of lemmas join, beside the repository's own
JOINED = """length append drop take set sets get_or map sum count replicate not and or true false zero suc add sub mul le lt eq leb ltb eqb cond bit
below tabulate select all any front mag pos min max has member""".split()
# Names whose snake form is another's already
APART = {"freeOf": "guard_of_free", "reached-in": "pool_reached", "yield-in": "pool_yield"}
PART = r"[\w'\u2080-\u2089]+"
CAMEL = re.compile(r"[a-z][A-Za-z0-9]*[A-Z]")
WORD = re.compile(PART)
DASHED = re.compile(r"(?<![\w'\u2080-\u2089-])" + PART + "(?:-" + PART + r")+(?![\w'\u2080-\u2089-])")
SIGNED = re.compile(r"([ ]*)((?:(?:abbrev|unfoldable|pub|data)\s+)*)([^\s(){}:;]+)\s*(?:\([^)]*\)|\{[^}]*\})*\s*:")


def snake(word):
    return re.sub(r"(?<=[a-z0-9'])([A-Z])", lambda m: "_" + m[1].lower(), word)


def files(ends):
    for folder, dirs, names in os.walk("crates"):
        dirs[:] = sorted(d for d in dirs if d != "out")
        for name in sorted(names):
            if name.endswith(ends):
                yield os.path.join(folder, name)


def read(path):
    with open(path, encoding="utf-8") as f:
        return f.read()


def signed(text):
    """The names that a file of definitions declares: (name, whether it is a definition's or a record's field)."""
    inside = None
    for line in text.split("\n"):
        indent = len(line) - len(line.lstrip())
        if inside is not None and line.strip() and indent <= inside:
            inside = None
        if re.match(r" *(?:pub )?record ", line):
            inside = indent
            continue
        m = SIGNED.match(line)
        if m and "data" not in m[2].split():
            yield m[3], inside is not None or "abbrev" in m[2].split() or "unfoldable" in m[2].split()


def joined(name, names):
    """A lemma's name by its parts: `-` between two names, `_` before a plain word."""
    words, units, i = name.split("-"), [], 0
    while i < len(words):
        for j in range(len(words), i, -1):
            if j == i + 1 or "_".join(words[i:j]) in names:
                units.append("_".join(words[i:j]))
                i = j
                break
    out = units[0]
    for a, b in zip(units, units[1:]):
        out += ("-" if a in names and b in names else "_") + b
    return out


def mappings():
    """Words in camel case, and names with dashes, each with what it becomes."""
    words, tokens, camel, own, lemmas, names = set(), set(), {}, set(), set(), set(JOINED)
    for path in files((".antt", ".rt")):
        text = read(path)
        words |= set(WORD.findall(text))
        tokens |= set(DASHED.findall(text))
        if path.endswith(".antt") and os.path.basename(path) not in ("Proof.antt",):
            for name, plain in signed(text):
                if "-" in name:
                    (own if plain else lemmas).add(name)
                elif plain or "/specs" in path:
                    names.add(snake(name))
    for word in words:
        if CAMEL.match(word) and word not in LIBRARY:
            camel[word] = APART.get(word) or snake(word)
    dashed = {name: APART.get(name) or snake(name.replace("-", "_")) for name in own}
    for name in sorted(lemmas - own):
        if DASHED.fullmatch(name) and name[0].islower():
            new = joined("-".join(snake(p) for p in name.split("-")), names)
            if new not in words and new not in tokens and new not in dashed.values() and new not in camel.values():
                dashed[name] = new
    dashed = {a: b for a, b in dashed.items() if a != b}
    return camel, dashed


def respelled(text, camel, dashed):
    text = DASHED.sub(lambda m: dashed.get(m[0], m[0]), text)
    return WORD.sub(lambda m: camel.get(m[0], m[0]), text)


def clauses(text):
    """`old x` and `final x` of a function's clauses, by whether the parameter is a `&mut`."""
    out, last = [], 0
    for m in re.finditer(r"\bfn \w+", text):
        head = text[m.end():re.compile(r"\n *\{\n|\) (?:-> [^\n{]*)?\{\n|\bfn \w|\Z").search(text, m.end()).start()]
        params = head[:re.search(r"\n +(requires|ensures)|\Z", head).start()]
        new = head
        for p in re.finditer(r"\b(\w+): &(?:'\w+ )?(mut )?", params):
            name, mut = p[1], bool(p[2])
            new = re.sub(r"\(old " + name + r"\)|(?<!\.)\bold " + name + r"\b", name + (".old" if mut else ".now"), new)
            new = re.sub(r"\(final " + name + r"\)|(?<!\.)\bfinal " + name + r"\b", name + (".new" if mut else ".now"), new)
        out += [text[last:m.end()], new]
        last = m.end() + len(head)
    text = "".join(out) + text[last:]
    return text if re.search(r"(?<!\.)\b(old|final) \w+", re.sub(r"//.*", "", text)) else re.sub(r"ghost use Rattle\.finite\.specs\.Moments\.\{[^}]*\};\n", "", text)


def main():
    camel, dashed = mappings()
    if "--names" in sys.argv:
        for a, b in sorted({**camel, **dashed}.items()):
            print(a, b)
        return 0
    both = {**camel, **dashed}
    twice = [b for b in both.values() if list(both.values()).count(b) > 1]
    if twice:
        print("names that fall together: " + ", ".join(sorted(set(twice))), file=sys.stderr)
        return 1
    pages = ["README.md"] + [os.path.join("docs", p) for p in sorted(os.listdir("docs")) if p.endswith(".md")]
    for path in list(files((".antt", ".rt", ".edit"))) + pages:
        before = read(path)
        after = respelled(before, camel, dashed)
        if path.endswith(".rt"):
            after = clauses(after)
        if after != before:
            with open(path, "w", encoding="utf-8") as f:
                f.write(after)
    print(f"{len(camel)} words and {len(dashed)} names with dashes respelled")
    return 0


if __name__ == "__main__":
    raise SystemExit(main())
