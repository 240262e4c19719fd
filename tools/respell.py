#!/usr/bin/env python3
"""Brings the names of definitions to the spelling of the library: words and labels in snake case, types in camel case.

usage: respell.py [FOLDER]     FOLDER has crates/; files below it are rewritten in place

What is respelled: the definitions, labels and constructors of crates/*/specs, and the labels and constructors of records
and data of crates/*/proofs. Lemmas keep the dashes between their parts, and a word within a lemma's name is spelled as the
word itself is. Code, strings and comments of .rt files are left alone; clauses, ghost members and ghost imports are not.
Two names that would fall together are reported, and nothing is written then.
"""

import os
import re
import sys

NAME = r"[A-Za-z0-9_'ℕℤ]+(?:-[A-Za-z0-9_'ℕℤ]+)*"
TOKEN = re.compile(r"(?<![A-Za-z0-9_'\-ℕℤ◌])" + NAME)
TOP = re.compile(r"^(?:pub |abbrev |unfoldable |data |record )*(" + NAME + r")\s*[:({]")
INNER = re.compile(r"^\s+(?:pub )?(" + NAME + r") :")
BLOCK = re.compile(r"^(?:pub )?(record|data|module)\b")
# A word that would get the name of a field of src/, which hides it in a clause.
OTHERWISE = {"lang-sys": "lang_sys_of"}
# Names that come to that of a function of src/, which lies in a module of its own, or of the ghost member that they restate.
APART = {
    "alternate_kept", "alternates_unread", "match_of", "names_alternate", "unread_substitution",
    "before_not_after", "before_not_same", "before_trans", "same_not_after", "same_trans",
}
ALIAS = re.compile(r"\.TheVariants as ([a-z]\w*)$", re.M)


def files(root, *endings):
    for folder, dirs, names in os.walk(os.path.join(root, "crates")):
        dirs[:] = sorted(d for d in dirs if d != "out")
        for name in sorted(names):
            if name.endswith(endings):
                yield os.path.join(folder, name)


def read(path):
    with open(path, encoding="utf-8") as f:
        return f.read()


def defined(text, everything):
    """The dashed names that a file defines: all of them, or the labels and constructors of its records and data alone."""
    found, block = set(), None
    for line in text.split("\n"):
        if line and not line[0].isspace():
            m = BLOCK.match(line)
            block = m[1] if m else None
            m = TOP.match(line)
            if m and (everything or block in ("record", "data")):
                found.add(m[1])
        else:
            m = INNER.match(line)
            if m and (everything or block in ("record", "data")):
                found.add(m[1])
    return {n for n in found if "-" in n}


def respelled(name):
    if name in OTHERWISE:
        return OTHERWISE[name]
    if name[0].isupper():
        return "".join(p[0].upper() + p[1:] for p in name.split("-"))
    return name.replace("-", "_")


def words_of(root):
    words = set()
    for path in files(root, ".antt"):
        specs = os.sep + "specs" + os.sep in path
        lemmas = os.path.dirname(path).endswith(os.sep + "proofs")
        if specs or lemmas:
            words |= defined(read(path), specs)
    return {n: respelled(n) for n in words}


def lemma_of(name, words):
    """A lemma's name with the words in it spelled as they are now, the longest first."""
    parts, out, i = name.split("-"), [], 0
    while i < len(parts):
        for k in range(len(parts), i, -1):
            word = "-".join(parts[i:k])
            if word in words:
                out.append(words[word])
                i = k
                break
        else:
            out.append(parts[i])
            i += 1
    return "-".join(out)


def lemmas_of(root, words):
    found = {}
    for path in files(root, ".antt"):
        if os.sep + "proofs" + os.sep not in path:
            continue
        for line in read(path).split("\n"):
            m = TOP.match(line) or INNER.match(line)
            if m and "-" in m[1] and m[1] not in words and not line.strip().startswith("--"):
                new = lemma_of(m[1], words)
                if new != m[1] and not re.match(r"(returns|loop|invariant|decreases|bounds|overflow|offset|slice|count)\b", m[1]):
                    found[m[1]] = new
    return found


def turned(text, names):
    def new(m):
        if m[0] in OTHERWISE and text[m.start() - 1 : m.start()] == ".":
            return m[0].replace("-", "_")
        return names.get(m[0], m[0])

    return TOKEN.sub(new, text)


def ghost_spans(text):
    """Where the ghost parts of a .rt file lie: imports, members and clauses."""
    for m in re.finditer(r"^[ \t]*(?:pub )?ghost use [^;]*;|(?:\b(?:requires|ensures|ghost)\*?[ \t]+(?:[a-z_]\w*[ \t]*[:=]?[ \t]*)?\{)", text, re.M):
        if m[0].rstrip().endswith(";"):
            yield m.start(), m.end()
            continue
        deep, i = 0, m.end() - 1
        while i < len(text):
            deep += (text[i] == "{") - (text[i] == "}")
            i += 1
            if deep == 0:
                break
        yield m.start(), i


def turned_rt(text, names):
    out, at = [], 0
    for a, b in ghost_spans(text):
        if a < at:
            continue
        out += [text[at:a], turned(text[a:b], names)]
        at = b
    return "".join(out + [text[at:]])


def main(argv):
    root = argv[0] if argv else "."
    words = words_of(root)
    names = words | lemmas_of(root, words)
    tokens = set()
    for path in files(root, ".antt"):
        tokens |= set(TOKEN.findall(read(path)))
    together = [(a, b) for a, b in names.items() if b in tokens and b not in APART]
    seen = {}
    for a, b in names.items():
        seen.setdefault(b, []).append(a)
    together += [(x, b) for b, xs in seen.items() if len(xs) > 1 for x in xs]
    for a, b in sorted(together):
        print(f"falls together: {a} and {b}")
    if together:
        return 1
    changed = 0
    for path in files(root, ".antt", ".rt"):
        old = read(path)
        new = turned_rt(old, names) if path.endswith(".rt") else turned(old, names)
        if path.endswith(".antt"):
            for alias in set(ALIAS.findall(new)):
                case = alias[0].upper() + alias[1:] + "Case"
                new = re.sub(r"\.TheVariants as " + alias + r"$", ".TheVariants as " + case, new, flags=re.M)
                new = re.sub(r"(?<![\w'.\-])" + alias + r"\.(?=[A-Z])", case + ".", new)
        if new != old:
            with open(path, "w", encoding="utf-8") as f:
                f.write(new)
            changed += 1
    print(f"{len(words)} words, {len(names) - len(words)} lemmas, {changed} files")
    return 0


if __name__ == "__main__":
    raise SystemExit(main(sys.argv[1:]))
