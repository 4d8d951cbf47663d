#!/usr/bin/env python3
"""Counts, in the code of every listed crate, the places that docs/DESIGN-PASS.md speaks of.

usage: tools/design_counts.py [POINT]        (from anywhere; POINT is 1 to 7; without one, a line for each point)

With a point it lists the places, a line each: FILE:LINE and what stands there. It goes by the text: what is no place, and why, the
page says.
"""
import collections
import os
import re
import sys

ROOT = os.path.join(os.path.dirname(os.path.abspath(__file__)), "..")


def files():
    for line in open(os.path.join(ROOT, "crates.txt")):
        line = line.split("#")[0]
        if ":" not in line:
            continue
        base = os.path.join(ROOT, "crates", line.split(":")[0].split()[0], "src")
        for name in sorted(os.listdir(base)):
            if name.endswith(".rt"):
                yield os.path.relpath(os.path.join(base, name), ROOT)


def without_comments(text):
    return "\n".join(re.sub(r"//.*", "", line) for line in text.split("\n"))


def end_of(text, start):
    """The place behind the brace that closes the one at `start`."""
    depth = 0
    for place in range(start, len(text)):
        depth += {"{": 1, "}": -1}.get(text[place], 0)
        if depth == 0:
            return place + 1
    return len(text)


Function = collections.namedtuple("Function", "file line name public params result clauses body")
HEAD = re.compile(r'^([ \t]*)(pub(?:\(crate\))? )?(?:extern "C" )?fn (\w+)(?:<[^(]*>)?\(', re.M)


def functions(file, text):
    for head in HEAD.finditer(text):
        depth, place = 0, head.end() - 1
        while True:
            depth += {"(": 1, ")": -1}.get(text[place], 0)
            if depth == 0:
                break
            place += 1
        params = " ".join(text[head.end() : place].split())
        body = re.compile(r"^" + head.group(1) + r"\{$|(?<=\S) \{$", re.M).search(text, place)
        if not body:
            continue
        start = body.end() - 1
        contract = text[place + 1 : start]
        result = re.match(r"\s*(?:-> (.*))?", contract).group(1) or ""
        clauses = re.findall(r"^\s*(requires|ensures)[ \w]*\{ (.*) \}$", contract, re.M)
        line = text.count("\n", 0, head.start()) + 1
        yield Function(file, line, head.group(3), bool(head.group(2)), params, result, clauses, text[start : end_of(text, start)])


def parameters(function):
    return [re.sub(r"^mut ", "", part.strip()) for part in re.split(r",(?![^<\[]*[>\]])", function.params) if part.strip()]


def own_enums(texts, _):
    for file, text in texts.items():
        for enum in re.finditer(r"^(?:pub )?enum (\w+)(?:<[^{]*>)? \{(.*?)^\}", text, re.M | re.S):
            variants = re.findall(r"^    (\w+)(\([^)]*\)| \{)?", enum.group(2), re.M)
            data = [v for v, with_data in variants if with_data]
            if len(variants) <= 4 and 1 <= len(data) <= 3 and len(data) < len(variants) or any(v in ("Refused", "Stopped", "Bad", "NotPlayed", "Unread", "Done") for v, _ in variants):
                yield file, text.count("\n", 0, enum.start()) + 1, "enum %s { %s }" % (enum.group(1), ", ".join(v + (d.strip(" {") if d else "") for v, d in variants))


def codes(texts, fns):
    answers = "number|verdict_number|refusal_number|answer_number|line_number|of_reason|group_of|digit_value|first_of|place_of|slot_of|save|carry"
    words = "write_to|write_in|write_word|read_from|read_in|read_word|put_at|put|load|set_attribute|write_attribute|told"
    tests = "is_byte|byte_of|fits|value"
    for f in fns:
        crate = f.file.split("/")[1]
        for part in parameters(f):
            by_number = crate in ("chip_masks", "lent_chip", "lent_names", "lent_reset", "lent_run", "text_refusals")
            if re.match(r"(g|group|number|standing): (u8|usize)$|letters: u64$", part) or by_number and part == "n: u8":
                yield f.file, f.line, "fn %s(.. %s ..)" % (f.name, part)
        if re.match(r"(%s)$" % answers, f.name) and re.match(r"(u8|usize)$", f.result):
            yield f.file, f.line, "fn %s -> %s" % (f.name, f.result)
        if re.match(r"(%s)$" % words, f.name) and re.match(r"(u16|u64)$", f.result):
            yield f.file, f.line, "fn %s -> %s" % (f.name, f.result)
        if crate in ("text_tokens", "workbench_requests") and re.match(r"(%s)$" % tests, f.name):
            yield f.file, f.line, "fn %s -> %s" % (f.name, f.result)
    for file, text in texts.items():
        for field in re.finditer(r"^    (?:pub )?(number|more|group|changed|standing): (u8|bool),", text, re.M):
            yield file, text.count("\n", 0, field.start()) + 1, "field %s: %s" % field.groups()


def twins(_, fns):
    shapes = collections.defaultdict(list)
    for f in fns:
        body = re.sub(r'b?"(\\.|[^"])*"', '"', f.body)
        body = re.sub(r"\b0x[0-9A-Fa-f_]+\b|\b[0-9][0-9_]*\b", "0", body)
        body = re.sub(r"\b(?!(?:if|else|match|while|for|in|return|let|mut|as|true|false|self|Ok|Err|Some|None)\b)[A-Za-z_]\w*", "x", body)
        if len(body.split()) >= 8:
            shapes[" ".join(body.split())].append(f)
    for shape, group in shapes.items():
        if len(group) > 1:
            yield group[0].file, group[0].line, "%d alike: %s" % (len(group), ", ".join("%s::%s" % (f.file.split("/")[1], f.name) for f in group))


def loops(texts, _):
    for file, text in texts.items():
        for loop in re.finditer(r"^\s*while ([^{]*)\{", text, re.M):
            body = text[loop.end() : end_of(text, loop.end() - 1)]
            steps = re.findall(r"^\s*(\w+) \+= ([^;]*);", body, re.M)
            counted = [s for s in steps if re.search(r"\b%s\b" % s[0], loop.group(1))]
            yield file, text.count("\n", 0, loop.start()) + 2 if text[loop.start()] == "\n" else text.count("\n", 0, loop.start()) + 1, "while %s(%s)" % (loop.group(1), ", ".join("%s += %s" % s for s in counted) or "no step of its own")


def conversions(_, fns):
    for f in fns:
        arms = re.findall(r"^\s*([\w:]+(?:\([^)]*\))?) => (.*?),$", f.body, re.M)
        inner = re.sub(r"\s+", " ", f.body)
        if len(arms) >= 2 and re.match(r"\{ match \w+ \{", inner) and all(re.match(r"[\w:]+(\(\w*\))?$|\w+\.\w+\(\)$|b'.'$", a[1]) for a in arms) and "::" in arms[0][0]:
            yield f.file, f.line, "fn %s: a value for each case" % f.name
        elif re.match(r"\{ \(?(\w+)\.(\w+) == (\w+)\.\2\)?( & \(?\1\.\w+ == \3\.\w+\)?)+ \}$", inner):
            yield f.file, f.line, "fn %s: equality field by field" % f.name


def facts(_, fns):
    said, lists = collections.defaultdict(list), collections.defaultdict(list)
    for f in fns:
        for kind, text in f.clauses:
            if kind == "requires":
                for part in re.split(r" × ", text):
                    said[re.sub(r"\.(old|now)\b", "", part.strip("() "))].append(f)
        names = [p for p in parameters(f) if ":" in p]
        seen = set()
        for size in (2, 3, 4, 5, 6):
            for i in range(len(names) - size + 1):
                seen.add(tuple(re.sub(r"&'a ", "&", n) for n in names[i : i + size]))
        for group in seen:
            lists[(f.file.split("/")[1],) + group].append(f)
    for text, group in sorted(said.items(), key=lambda x: -len(x[1])):
        if len({(f.file, f.line) for f in group}) >= 3:
            yield group[0].file, group[0].line, "%d contracts: %s" % (len({(f.file, f.line) for f in group}), text)
    longest = {k: v for k, v in lists.items() if len(v) >= 3 and len(k) >= 4}
    for key, group in sorted(longest.items(), key=lambda x: (-len(x[0]), -len(x[1]))):
        if any(set(key) < set(other) and len(longest[other]) >= len(group) for other in longest if other != key):
            continue
        yield group[0].file, group[0].line, "%d functions of %s: %s" % (len(group), key[0], ", ".join(key[1:]))


def buffers(texts, fns):
    pairs = collections.Counter()
    for f in fns:
        names = parameters(f)
        for a, b in zip(names, names[1:]):
            if re.match(r"\w+: &(mut )?\[u8\]$", a) and re.match(r"(at|from|n|size|next|lent): usize$", b):
                pairs[(f.file, a + ", " + b)] += 1
    for (file, what), count in sorted(pairs.items()):
        yield file, 0, "%d functions: %s" % (count, what)
    for file, text in texts.items():
        for field in re.finditer(r"^    (?:pub )?(\w+): \[\w+; \d+\],", text, re.M):
            yield file, text.count("\n", 0, field.start()) + 1, "field %s" % field.group(0).strip()


def switches(_, fns):
    for f in fns:
        arms = re.findall(r"^\s*[^\n=]+ => (\w+)\(([^\n]*)\),$", f.body, re.M)
        names = {a[0] for a in arms} - {"Some", "Ok", "Err", "Row", "Line"}
        if len(arms) >= 4 and (len({a[1] for a in arms}) <= 2 or len(names) == 1):
            yield f.file, f.line, "fn %s: %d arms call %s" % (f.name, len(arms), ", ".join(sorted(names)[:4]))


POINTS = {
    1: [("own enums of that shape", own_enums), ("numbers and flags in place of a type", codes)],
    2: [("bodies alike but for names and numbers", twins)],
    3: [("while loops", loops)],
    4: [("hand-written equality and conversion", conversions)],
    5: [("facts in three and more contracts, parameters that travel together", facts)],
    6: [("buffers with a place or a length beside, arrays in structs", buffers)],
    7: [("matches whose arms call alike", switches)],
}


def main():
    wanted = [int(sys.argv[1])] if len(sys.argv) > 1 else sorted(POINTS)
    texts = {file: without_comments(open(os.path.join(ROOT, file)).read()) for file in files()}
    fns = [f for file, text in texts.items() for f in functions(file, text)]
    print("%d functions" % len(fns))
    for point in wanted:
        for title, count in POINTS[point]:
            found = list(count(texts, fns))
            print("point %d, %s: %d" % (point, title, len(found)))
            if len(sys.argv) > 1:
                for file, line, what in found:
                    print("  %s:%s: %s" % (file, line, what) if line else "  %s: %s" % (file, what))


main()
