#!/usr/bin/env python3
"""Counts, in the sources of a tree, the places of older forms that docs/DESIGN-PASS.md speaks of, point by point.

    python3 tools/places.py [TREE] [--list]     TREE: a checkout (here: the one that this file lies in)
"""
import glob
import os
import re
import sys

TREE = os.path.abspath(next((a for a in sys.argv[1:] if not a.startswith("-")), os.path.join(os.path.dirname(__file__), "..")))
LIST = "--list" in sys.argv


def sources():
    for path in sorted(glob.glob(TREE + "/crates/*/src/**/*.rt", recursive=True)):
        yield os.path.relpath(path, TREE + "/crates"), open(path).read().split("\n")


def heads(lines):
    """Each function: line, name, its text from `fn` to the body's `{`, and the comment above it."""
    for i, line in enumerate(lines):
        m = re.match(r"^(\s*)(pub(\(crate\))? )?(const )?(extern \"C\" )?fn (\w+)", line)
        if not m:
            continue
        j = i
        while j < len(lines) and not re.match(r"^\s*\{?$|^.*\{$|^.*\{.*\}$", lines[j]):
            j += 1
        k, above = i - 1, []
        while k >= 0 and lines[k].strip().startswith(("//", "#[")):
            above.append(lines[k].strip())
            k -= 1
        yield i + 1, m.group(6), "\n".join(lines[i:j + 1]), " ".join(reversed(above))


def params(text):
    m = re.search(r"fn \w+(?:<.*?>)?\((.*?)\)\s*(->|requires|ensures|\{|$)", text.replace("\n", " "))
    inner = m.group(1) if m else ""
    return [p.strip() for p in re.split(r",(?![^<(\[]*[>)\]])", inner) if p.strip()]


def loops(lines):
    for i, line in enumerate(lines):
        m = re.match(r"^(\s*)while (.*)\{\}?$", line)
        if not m:
            continue
        body = []
        for later in lines[i + 1:]:
            if later.startswith(m.group(1) + "}"):
                break
            body.append(later)
        yield i + 1, m.group(2).strip(), "\n".join(body)


points = {}


def add(point, place, line, what):
    points.setdefault(point, []).append("%s:%d  %s" % (place, line, what))


facts = {}
for place, lines in sources():
    text = "\n".join(lines)
    for i, line in enumerate(lines):
        if re.match(r"^(pub(\(crate\))? )?enum ", line):
            body = "\n".join(lines[i:i + 8])
            if re.search(r"Refused\(|Unknown|Nowhere|Faulty\(|NoForm,\n    OverLarge", body) and not re.search(r"enum \w+Fault", line):
                add("1a own enums of the shape of Option or Result", place, i + 1, line.strip(" {"))
        m = re.match(r"^    (pub )?(kind|typ|relation|phase|way): (u32|usize),$", line)
        struct = [x for x in lines[:i] if re.match(r"^(pub(\(crate\))? )?(struct|fn|enum|impl) |^\s*(pub )?fn ", x)]
        if m and struct and "struct" in struct[-1]:
            add("1c numbers for kinds, types, relations, ways, ends, phases", place, i + 1, line.strip())
        if line.strip() == "#[derive(Clone, Copy)]":
            add("4a types with no derive beyond Clone and Copy", place, i + 1, lines[i + 1].strip(" {"))
    for at, name, head, above in heads(lines):
        ps = params(head)
        if place.startswith("storefront_c") or name.startswith("bostuvrel"):
            pass
        elif re.search(r"-> (Step|Tried|Reading)\b", head) or re.search(r"-> (usize|u32|u64)\b", head) and re.search(
                r"(so that 0 is none|more than|if they are too many|past the end|; else 0|else 0\.|or 0\b|or 2m\b|or 64\b|0 always is|are now\. Word|none is before|where it belongs|mark on top|noted last|noted before: only)", above, re.I):
            add("1b a number or a struct that means none, too many or unsure", place, at, name)
        for p in ps:
            if re.match(r"(kind|typ|relation|phase|way|hearer|end): (u32|usize)$", p) and not (p.startswith("end:") and "notes" not in place):
                if p != "hearer: u32":
                    add("1c numbers for kinds, types, relations, ways, ends, phases", place, at, name + ": " + p)
        if re.match(r"(same|beats|wins|same_line|same_pair|wide|byte|refused|pack_pair|unpack_pair|shorter|digit|may_fall|found|counted)$", name) and "storefront" not in place:
            add("4b equality, order and conversion by hand", place, at, name)
        if len(ps) >= 5:
            add("5b functions of five parameters and more", place, at, "%s: %d" % (name, len(ps)))
        names = [p.split(":")[0] for p in ps]
        if any(re.match(r"(list|ases|seen|table|t): &", p) for p in ps) and "n: usize" in ps:
            add("6a a slice with a length beside it", place, at, name)
        for clause in re.findall(r"requires \{(.*)\}", head):
            for word in set(re.findall(r"(?<![\w.])([A-Z]\w+)", clause)):
                facts.setdefault(word, []).append("%s %s" % (place, name))
    for at, cond, body in loops(lines):
        m = re.match(r"(\w+) < (\S+)$", cond)
        counted = m and (re.search(r"\b%s \+= 1" % m.group(1), body) or re.search(r"\b%s -= 1" % re.escape(m.group(2)), body))
        add("3a loops that count an index by hand" if counted else "3b other while loops (lists walked, bytes read, numbers cut)", place, at, "while " + cond)
    for at, name, head, above in heads(lines):
        if re.search(r"halving", above):
            add("6b searches in sorted lists by hand", place, at, name)
for word, where in sorted(facts.items(), key=lambda x: -len(x[1])):
    if len(where) >= 3:
        points.setdefault("5a facts that three or more functions require", []).append("%s: %d functions" % (word, len(where)))

files = [f for f in glob.glob(TREE + "/crates/*/proofs/**/*.antt", recursive=True) if "/out/" not in f]
own = [f for f in files if os.path.dirname(os.path.relpath(f, TREE + "/crates")).count("/") >= 2]
points["8a proof files of single functions"] = own
points["8b files of laws"] = [f for f in files if f not in own and not f.endswith("Lib.antt")]
every = [f for f in glob.glob(TREE + "/crates/*/*/**/*.antt", recursive=True) + glob.glob(TREE + "/crates/*/src/**/*.rt", recursive=True) if "/out/" not in f]
text_of = {f: open(f).read() for f in every}
alltext = "\n".join(text_of.values())
count = {}
for w in re.findall(r"[\w₁₂₃'\-]+", alltext):
    count[w] = count.get(w, 0) + 1
for f in points["8b files of laws"]:
    for m in re.finditer(r"^\s*pub ([\w₁₂₃'\-]+) :", text_of[f], re.M):
        name = m.group(1)
        inside = len(re.findall(r"(?<![\w₁₂₃'\-])%s(?![\w₁₂₃'\-])" % re.escape(name), text_of[f]))
        clauses = len(re.findall(r"^\s*%s( .*)? =" % re.escape(name), text_of[f], re.M))
        if count.get(name, 0) - 1 - clauses <= 0:
            points.setdefault("8c lemmas that no file cites (theorems among them)", []).append("%s: %s" % (os.path.relpath(f, TREE + "/crates"), name))
for point in sorted(points):
    print("%4d  %s" % (len(points[point]), point))
    if LIST:
        for p in points[point]:
            print("        " + (p if isinstance(p, str) else str(p)).replace(TREE + "/crates/", ""))
