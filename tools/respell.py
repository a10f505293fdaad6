#!/usr/bin/env python3
"""Spells the names that this repository's own definitions and lemmas have as Rattle's guides want: words in snake case, types in camel case.

usage: python3 tools/respell.py --force      at the top of the repository, after port.py
       python3 tools/respell.py --dry        the names, and with 'meets:' those that some file has already

Turned, in the .antt files, in the clauses of the .rt files and in the texts of the must-fail edits:
- a name that begins small and has capitals inside, as countOf: count_of
- a lemma with dashes, as few-objects: few_objects; behind the library's length, get_or and take, and before ++, the dash stays
- a type with dashes, as Row-kept: RowKept
The crate check, whose name a library of the kit has, becomes heap_check.
A goal's label, as returns-then-negative, is Rattle's and stays. Strings stay. OWN has the names whose new spelling is taken.
"""
import collections
import os
import re
import sys

WORD = re.compile(r'[^\s(){}.;,@"«»]+')
SIG = re.compile(r"(?m)^ *(?:(?:pub|abbrev|unfoldable|record|data) )*((?:[^\s(){}.;,@\"«»:]+ )+)(?:\{[^{}\n]*\} |\([^()\n]*\) )*:(?= |$)(.*)")
QUIET = re.compile(r'"(?:[^"\\\n]|\\.)*"')
# What a file takes from a library of the kit: not ours to rename.
TAKEN = re.compile(r"\buse (?:Rattle\.(?:std|core|io|std_alloc|std_collections|std_heap|std_io)\b|lib\b|Prim\b|native\b|mathlib\b|denote\b|borrow\b)[^\s;{]*\.\{([^}]*)\}")
GENERATED = re.compile(r"^(returns|loop|invariant|decreases|overflow|bounds|slice_bounds|nonzero|prove)(-|$)")
KEPT_HEADS = ("length-", "get_or-", "take-")
# What comments say of the text of a script.
SKIP = {"vN", "no-break"}
# Constructors and a definition whose snake case is another's name.
OWN = {
    "buffer-of": "buffer_of_named",
    "empty-map": "empty_map_form",
    "empty-set": "empty_set_form",
    "new-buffer": "buffer_form",
    "new-error": "error_group",
    "new-map": "map_group",
    "new-set": "set_group",
    "no-numeral": "empty_numeral",
    "view-on": "view_group",
}
# Lemmas and variables that have, since port.py, the spelling that a definition gets here.
GIVE_WAY = {w: w + "_lem" for w in "bytes_below index_below index_in key_in lines_at none_deep not_finite place_view same_units to_end value_in view_in whole_in".split()}
GIVE_WAY["is_view"] = "viewed"


def texts():
    for folder, dirs, files in os.walk("crates"):
        dirs[:] = sorted(d for d in dirs if d != "out")
        for f in sorted(files):
            if f.endswith((".antt", ".rt", ".edit")):
                yield os.path.join(folder, f)


def read(path):
    with open(path, encoding="utf-8") as f:
        return f.read()


def write(path, text):
    with open(path, "w", encoding="utf-8") as f:
        f.write(text)


def snake(name):
    return re.sub(r"(?<=[a-z0-9])([A-Z])(?=[a-z0-9]|$|[-'_])", lambda m: "_" + m[1].lower(), name)


def camel(name):
    return "".join(w[:1].upper() + w[1:] for w in name.split("-"))


def respelled(name, types):
    if name in OWN:
        return OWN[name]
    if name in types and "-" in name:
        return camel(name)
    new = snake(name) if name[:1].islower() else name
    if "-" in new:
        parts = new.replace("get_d", "get_or")
        head = next((h for h in KEPT_HEADS if parts.startswith(h)), "")
        rest = re.sub(r"-(?!\+|ℤ|-)", "_", parts[len(head):])
        new = head + rest
    return new


def table(files):
    declared, labels, types, words = set(), set(), set(), collections.Counter()
    library = set()
    for path in files:
        text = read(path)
        code = QUIET.sub('""', text)
        words.update(WORD.findall(code))
        for m in TAKEN.finditer(code):
            library.update(item.split(" as ")[0].strip() for item in m[1].split(","))
        if not path.endswith(".antt"):
            continue
        for m in SIG.finditer(code):
            for name in m[1].split():
                rest = m[2].strip()
                if rest.startswith(("goal.", "need.")) or GENERATED.match(name):
                    labels.add(name)
                    continue
                declared.add(name)
                if name[:1].isupper() and re.search(r"Type \d+|Type \{?ℓ", rest):
                    types.add(name)
    rows = {}
    for name in sorted(words):
        if name in labels or name in library or name in SKIP:
            continue
        is_camel = re.fullmatch(r"[a-z][A-Za-z0-9_'-]*", name) and re.search(r"[a-z0-9][A-Z]", name)
        if is_camel or (name in declared and "-" in name and name[:1].isalpha()):
            new = respelled(name, types)
            if new != name:
                rows[name] = new
    # a lemma whose new name a definition or a variable has is called after it
    taken = {new for old, new in rows.items() if "-" not in old} | {w for w in words if w not in GIVE_WAY}
    for old, new in rows.items():
        if "-" in old and new in taken:
            rows[old] = new + "_lem"
    return rows, words


def turn_words(text, rows, give_way):
    def word(m):
        # a function of src/ in a path keeps its name
        in_path = m.start() and m.string[m.start() - 1] == "." or m.string[m.end():m.end() + 1] == "."
        if m[0] in give_way and not in_path:
            return give_way[m[0]]
        return rows.get(m[0], m[0])

    out, at = [], 0
    for m in QUIET.finditer(text):
        out += [WORD.sub(word, text[at:m.start()]), m[0]]
        at = m.end()
    return "".join(out) + WORD.sub(word, text[at:])


def rename_crate():
    if not os.path.isdir("crates/check"):
        return
    os.rename("crates/check", "crates/heap_check")
    for path in texts():
        text = read(path)
        new = re.sub(r"(?<![\w.])check::(?=heap|checked)", "heap_check::", text.replace("Rattle.check.", "Rattle.heap_check."))
        if new != text:
            write(path, new)
    lines = []
    for line in read("crates.txt").splitlines(keepends=True):
        lines.append(line if line.startswith("#") else re.sub(r"\bcheck\b", "heap_check", line))
    write("crates.txt", "".join(lines))


def main(argv):
    if "--dry" not in argv:
        rename_crate()
    files = list(texts())
    rows, words = table(files)
    met = collections.defaultdict(list)
    for old, new in rows.items():
        met[new].append(old)
    bad = False
    for new, olds in sorted(met.items()):
        if len(olds) > 1 or new in words and new not in rows and new not in GIVE_WAY:
            print("meets:", *olds, "->", new, words[new])
            bad = True
    if "--dry" in argv or bad and "--force" not in argv:
        if "--dry" in argv:
            for old, new in sorted(rows.items()):
                print(old, new)
        return 1 if bad else 0
    # a second run finds no definition that still gets such a name, and turns nothing
    give_way = {w: to for w, to in GIVE_WAY.items() if any(new == w and "-" not in old for old, new in rows.items())}
    for path in files:
        text = read(path)
        new = turn_words(text, rows, give_way if path.endswith(".antt") else {})
        if new != text:
            write(path, new)
    print(len(rows), "names turned")
    return 0


if __name__ == "__main__":
    raise SystemExit(main(sys.argv[1:]))
