#!/usr/bin/env python3
"""Brings the repository's own definitions and lemmas to today's spelling: words in snake case, types in camel case.

usage: python3 tools/respell.py [ROOT] [--dry]      once, after port.py and before any edit by hand

It goes by whole tokens of .antt files and of the clauses of .rt files (whose code has no such token), and by names between
backticks in comments and pages. A dash stays where it joins two names, or where the name with `_` is taken.
"""

import collections
import os
import re
import sys

ARGS = [a for a in sys.argv[1:] if a != "--dry"]
DRY = "--dry" in sys.argv
ROOT = ARGS[0] if ARGS else "."

# names that would fall together with another, or that mean another thing in lower case
CHOSEN = {
    "index_on": "index_on_lem", "indexOn": "index_on", "in-row": "in_row_lem", "inMemory": "is_in_memory", "left_out": "left_out_lem",
    "leftOut": "left_out", "line_read": "line_read_lem", "place_at": "place_at_lem", "no_index": "no_index_lem", "byName": "as_named",
    "CR-INDEX": "CR_INDEX", "SR-INDEX": "SR_INDEX", "GR-INDEX": "GR_INDEX", "XR-INDEX": "XR_INDEX", "FR-INDEX": "FR_INDEX",
    "MR-INDEX": "MR_INDEX", "AR-INDEX": "AR_INDEX",
    "CR": "cr_lines", "SR": "sr_lines", "GR": "gr_lines", "XR": "xr_lines", "FR": "fr_lines", "MR": "mr_lines", "AR": "ar_lines",
}
KEPT = set()
# words of the library to which a dash may join a name
LIBRARY = set("length take drop append map get_or set slice_set slice_index put cond suc zero".split())


def files(*ends):
    for top in ("crates",):
        for folder, dirs, names in os.walk(os.path.join(ROOT, top)):
            dirs[:] = sorted(d for d in dirs if d != "out")
            for f in sorted(names):
                if f.endswith(ends):
                    yield os.path.join(folder, f)


STRING = r'"(?:[^"\\]|\\.)*"'
COMMENT = {".antt": r"(?:(?<=\s)|^)--(?=\s|$)[^\n]*", ".rt": r"//[^\n]*"}
TOKEN = re.compile(r"[^\s(){}\[\],;.:«»⟦⟧&|!*`\"]+")


def plain(text, ext):
    text = re.sub(STRING, '""', text)
    return re.sub(COMMENT[ext], " ", text, flags=re.M)


def owned():
    """Each name of the repository's own: its kinds and whether it is a type."""
    own = collections.defaultdict(lambda: {"kinds": set(), "type": False, "files": set()})
    for p in files(".antt"):
        text = open(p, encoding="utf-8").read()
        if os.path.basename(p) in ("Proof.antt", "Answers.antt", "Invariants.antt"):
            for m in re.finditer(r"^pub (\S+-spec) :", text, re.M):
                own[m[1]]["kinds"].add("spec")
            continue
        lines = plain(text, ".antt").split("\n")
        inside = None
        for i, l in enumerate(lines):
            if re.match(r"\S", l):
                inside = None
            m = re.match(r"(\s*)(abbrev |unfoldable |irreducible )?(pub )?(record |data )?([^\s:(){}]+)((?: [^:]*?)?) :( |$)(.*)", l)
            if not m:
                continue
            ind, _, pub, kind, name, more, _, sig = m.groups()
            j = i + 1
            while j < len(lines) and not kind and re.match(r"\s{%d,}\S" % (len(ind) + 2), lines[j]):
                sig += " " + lines[j].strip()
                j += 1
            what = kind.strip() if kind else "member" if inside and ind else "local" if ind and not pub else "top"
            if kind:
                inside = what
            for n in [name] + (more.split() if what == "member" and re.fullmatch(r"( [^\s(){}]+)*", more or "") else []):
                own[n]["kinds"].add(what)
                own[n]["files"].add(p)
                if kind or re.search(r"Type( \d| \{|\s*$)[^→]*$", sig) and what == "top":
                    own[n]["type"] = True
    return own


def snake(n):
    n = re.sub(r"(?<=[a-z0-9])(?=[A-Z])", "_", n)
    return n.replace("-", "_").lower()


def camel(n):
    return "".join(w[:1].upper() + w[1:] for w in n.split("-"))


def renames():
    own = owned()
    tokens = collections.defaultdict(set)
    for p in files(".antt", ".rt"):
        for t in TOKEN.findall(plain(open(p, encoding="utf-8").read(), os.path.splitext(p)[1])):
            tokens[t].add(p)
    names = {snake(n) for n, v in own.items() if "top" in v["kinds"]}
    to, said = {}, []
    pairs = {snake(n) for n in own if re.match(r"[a-z]+.*[A-Z]", n) and "-" not in n}
    for n, v in sorted(own.items()):
        if n in CHOSEN:
            to[n] = CHOSEN[n]
            continue
        if "-" not in n and not re.match(r"[a-z]+.*[A-Z]", n) or n in KEPT or "◌" in n:
            continue
        if v["type"]:
            new = camel(n)
        else:
            new = snake(n)
            if "-" in n:
                parts = n.split("-")
                for k in range(1, len(parts)):
                    a, b = snake("-".join(parts[:k])), snake("-".join(parts[k:]))
                    if (a in names or a in LIBRARY) and (b in names or b in LIBRARY) and "spec" not in v["kinds"] and not re.search("[A-Z]", n):
                        new = a + "-" + b
                if new in pairs and "spec" not in v["kinds"]:
                    new += "_lem"
        if new == n:
            continue
        taken = tokens.get(new, set()) & tokens.get(n, set()) if new not in own else tokens.get(new, set())
        if taken or new in to.values():
            said.append((n, new, sorted(v["kinds"]), [os.path.relpath(p, ROOT) for p in sorted(taken)][:4], [k for k, w in to.items() if w == new]))
            if "-" in n and not re.search("[A-Z]", n):
                continue
        to[n] = new
    return to, said


def respell(text, ext, to):
    code = TOKEN.sub(lambda m: to.get(m[0], m[0]), text) if ext is None else None
    if code is not None:
        return code
    out, at = [], 0
    stop = re.compile(STRING + "|" + COMMENT[ext], re.M)
    for m in stop.finditer(text):
        out.append(TOKEN.sub(lambda t: to.get(t[0], t[0]), text[at:m.start()]))
        part = m[0]
        if not part.startswith('"'):
            part = quoted(part, to)
        out.append(part)
        at = m.end()
    out.append(TOKEN.sub(lambda t: to.get(t[0], t[0]), text[at:]))
    return "".join(out)


def quoted(text, to):
    return re.sub(r"`[^`\n]+`", lambda m: TOKEN.sub(lambda t: to.get(t[0], t[0]), m[0]), text)


def main():
    to, said = renames()
    for n, new, kinds, where, same in said:
        print("falls together:", n, "->", new, kinds, where, same)
    print(len(to), "names")
    if DRY:
        return
    for p in files(".antt", ".rt"):
        text = open(p, encoding="utf-8").read()
        new = respell(text, os.path.splitext(p)[1], to)
        if new != text:
            open(p, "w", encoding="utf-8").write(new)
    for folder, dirs, names in os.walk(ROOT):
        dirs[:] = [d for d in dirs if d not in (".git", "out", "target")]
        for f in names:
            if f.endswith(".md"):
                p = os.path.join(folder, f)
                text = open(p, encoding="utf-8").read()
                new = quoted(text, to)
                if new != text:
                    open(p, "w", encoding="utf-8").write(new)
    with open(os.path.join(ROOT, "tools", "respelled.txt"), "w", encoding="utf-8") as f:
        for n in sorted(to):
            f.write(n + " " + to[n] + "\n")


main()
