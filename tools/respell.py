#!/usr/bin/env python3
"""Brings the repository's own names, which port.py leaves, to the spelling of this Rattle: words in snake case, modules in camel case.

usage: python3 tools/respell.py        at the top, once, after port.py

A name's dashes become underscores; a lemma whose name joins a definition of ours and a word of the library's lists keeps the dash
between them (`length-gates_from`).
Names that come from a library, goals that Rattle names, and names of src/ stay. The folders code, twins, laws and examples of
specs/ and proofs/ get a capital. tools/respelled.tsv lists each name before port.py and after this script, for pages and edits.
"""

import os
import re
import subprocess
import sys
from collections import defaultdict

LANDED = "1c9fd951c86a95f14c2439bdf53bc2fc8913b78b"
FOLDERS = {"code": "Code", "twins": "Twins", "laws": "Laws", "examples": "Examples"}
# words of the library that a lemma's name joins with one of ours
LIBRARY = set("length append take drop set map cons zero suc and or not max min eqb cond".split())
TOKEN = re.compile(r"[^\s(){};,@\".«»]+")
DECLARES = re.compile(
    r"^( *)((?:(?:pub|abbrev|unfoldable|data|record|open) +)*)([^\s(){}:;,.\"]+)((?: +(?:\([^()]*(?:\([^()]*\)[^()]*)*\)|\{[^{}]*\}))*) *:(?!:)", re.M
)
BINDS = [re.compile(r"\blet +([^\s(){}:;,.]+) *[:=]"), re.compile(r"λ ([^.]*)\.")]
USE = re.compile(r"^(?:ghost |pub )*use +(\S+?)(?:\.\{([^}]*)\})?(?: +as +(\S+))?;?$", re.M)


def files(end):
    for root, dirs, names in os.walk("crates"):
        dirs[:] = sorted(d for d in dirs if d != "out")
        for name in sorted(names):
            if name.endswith(end):
                yield os.path.join(root, name)


def read(path):
    with open(path, encoding="utf-8") as f:
        return f.read()


def blanked(text):
    return re.sub(r"--[^\n]*", "", text)


def is_walk(path):
    """A function's own proof, whose goals Rattle names."""
    return re.search(r"/proofs/.*/(Proof|Answers|Invariants)\.antt$", path) is not None


def own(path):
    return path.startswith("Rattle.") and path.split(".")[1] in CRATES


def declared(text):
    """(mark, name) of each declaration, in their order."""
    return [(m[2], m[3]) for m in DECLARES.finditer(blanked(text))]


def foreign(text):
    """The names that a file takes from a library."""
    out = set()
    for m in USE.finditer(text):
        if not own(m[1]):
            for it in (m[2] or "").split(","):
                out.add(it.split(" as ")[0].strip())
            if m[3]:
                out.add(m[3])
    return out


def groups(name, known):
    """The dashes that stay: between words that are each a name of a definition."""
    words = name.split("-")

    def split(i):
        if i == len(words):
            return []
        for j in range(len(words), i, -1):
            part = "_".join(words[i:j])
            if part in known and (i, j) != (0, len(words)):
                rest = split(j)
                if rest is not None:
                    return [part] + rest
        return None

    return split(0)


def main():
    antt, rt = list(files(".antt")), list(files(".rt"))
    texts = {p: read(p) for p in antt + rt}
    functions = set()
    for p in rt:
        functions |= set(re.findall(r"\bfn (\w+)", texts[p]))
    kinds = defaultdict(set)  # name -> what declares it
    sentences = set()  # theorems whose names are sentences
    for p in antt:
        lines = declared(texts[p])
        if is_walk(p):
            goal = re.findall(r"^(?:pub |abbrev )*(\S+) : (?:tie\.|\{M : Type 1\})", texts[p], re.M)
            lines = [it for it in lines if it[1] not in goal]
        for mark, name in lines:
            kinds[name].add("definition" if re.search("abbrev|unfoldable|data|record", mark) or "/specs/" in p else "lemma")
            if p.startswith("crates/promises/proofs/"):
                sentences.add(name)
        for it in BINDS:
            for m in it.finditer(blanked(texts[p])):
                for name in re.findall(r"[^\s(){}:,]+", m[1]):
                    kinds[name].add("local")
    # what is bound in a pattern, or is another name of a module of ours
    outside = set().union(*(foreign(texts[p]) for p in antt + rt))
    for p in antt:
        if not is_walk(p):
            for w in TOKEN.findall(blanked(texts[p])):
                if re.fullmatch(r"[a-z][\w']*(-[a-z][\w']*)+", w) and w not in outside:
                    kinds[w].add("local")
    known = {n.replace("-", "_") for n, ks in kinds.items() if "definition" in ks} | LIBRARY
    new = {}
    for name, ks in kinds.items():
        if "-" not in name.strip("-") or not re.search(r"\w-\w", name):
            continue
        plain = re.sub(r"(?<=[\w'])-(?=\w)", "_", name)
        parts = groups(name, known) if "lemma" in ks and "definition" not in ks and name not in sentences else None
        parts = parts if parts and set(parts) & LIBRARY else None
        new[name] = ("-".join(parts) if parts else plain).replace("getD", "get_or")
    in_words = defaultdict(set)
    for p in antt:
        for line in texts[p].split("\n"):
            m = re.search(r"--(.*)", line)
            if m and "==" not in m[1]:
                for w in TOKEN.findall(re.sub(r"`[^`]*`", "", m[1])):
                    if w in new:
                        in_words[w].add(p)
    for w in sorted(in_words):
        print("in words:", w, len(in_words[w]))
    used = defaultdict(set)  # file -> its words
    for p, t in texts.items():
        used[p] = set(TOKEN.findall(blanked(t))) | set(re.findall(r"\w+", t) if p.endswith(".rt") else [])
    where = defaultdict(list)
    for p in texts:
        for w in used[p]:
            where[w].append(p)
    for name in sorted(new):
        to = new[name]
        if to == name:
            del new[name]
            continue
        meets = [p for p in where[name] if to in used[p] and name not in foreign(texts[p])]
        twin = to in kinds and to != name
        if meets or twin:
            print(f"meets: {name} -> {to}: {'declared as both; ' if twin else ''}{' '.join(meets)}")
    if "--try" in sys.argv:
        for name in sorted(new):
            print(f"{name}\t{new[name]}")
        return

    before = {}  # the names before port.py, by their place in the file
    for p in antt:
        old = subprocess.run(["git", "show", f"{LANDED}:{p}"], capture_output=True, text=True)
        if old.returncode == 0 and not is_walk(p):
            a, b = declared(old.stdout), declared(texts[p])
            if len(a) == len(b):
                for (_, x), (_, y) in zip(a, b):
                    before[x] = new.get(y, y)
            else:
                print(f"unequal: {p}: {len(a)} declarations before, {len(b)} now")
    for p, t in texts.items():
        keep = foreign(t)

        def turned(m):
            w = m[0]
            return new[w] if w in new and w not in keep else w

        if p.endswith(".rt"):
            t = respell_clauses(t, turned)
        else:
            t = TOKEN.sub(turned, t)
        for a, b in FOLDERS.items():
            t = re.sub(rf"(Rattle\.\w+\.(?:specs|proofs)\.){a}\.", rf"\g<1>{b}.", t)
            t = re.sub(rf"^((?:pub )?mod ){a}$", rf"\g<1>{b}", t, flags=re.M)
        if t != texts[p]:
            with open(p, "w", encoding="utf-8") as f:
                f.write(t)
    for root, dirs, _ in list(os.walk("crates")):
        if os.path.basename(root) in ("specs", "proofs"):
            for a, b in FOLDERS.items():
                if a in dirs and not os.path.exists(os.path.join(root, a, "Proof.antt")) and any(f.endswith(".antt") for f in os.listdir(os.path.join(root, a))):
                    subprocess.run(["git", "mv", os.path.join(root, a), os.path.join(root, b)], check=True)
                if os.path.exists(os.path.join(root, a + ".antt")):
                    subprocess.run(["git", "mv", os.path.join(root, a + ".antt"), os.path.join(root, b + ".antt")], check=True)
    with open("tools/respelled.tsv", "w", encoding="utf-8") as f:
        for a in sorted(before):
            if a != before[a]:
                f.write(f"{a}\t{before[a]}\n")


def respell_clauses(t, turned):
    """Names in a .rt file: those of antt alone have a dash that joins letters without spaces, outside strings and comments."""
    out = []
    for line in t.split("\n"):
        if line.lstrip().startswith("//"):
            out.append(line)
        else:
            out.append(TOKEN.sub(turned, line))
    return "\n".join(out)


CRATES = {line.split(":")[0].split()[0] for line in read("crates.txt").split("\n") if line.strip() and not line.startswith("#")}
main()
