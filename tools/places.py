#!/usr/bin/env python3
"""Counts the places in crates/*/src that docs/DESIGN-PASS.md speaks of, point by point.

places.py [--list] [POINT..]   points are 1 to 8, all of them if none is named; --list names each place.
A place found here is a place to look at: the page says what became of it.
"""
import collections
import glob
import re
import sys

KEEP = set("fn pub let mut if else match for while in return self Some None Ok Err Option Result true false as".split())


def sources():
    for path in sorted(glob.glob("crates/*/src/**/*.rt", recursive=True)):
        yield path, re.sub(r"//[^\n]*", "", open(path).read())


def closing(text, start):
    depth = 0
    for i in range(start, len(text)):
        depth += text[i] in "{([" and 1 or 0
        depth -= text[i] in "})]" and 1 or 0
        if depth == 0:
            return i
    return len(text)


def functions():
    """(path, name, parameters, result, clauses, body) of each function that has a body."""
    for path, text in sources():
        for m in re.finditer(r"\bfn (\w+)(<[^(]*>)?\(", text):
            end = closing(text, m.end() - 1)
            params = text[m.end():end]
            at = end + 1
            clauses = []
            while at < len(text):
                c = re.compile(r"\s*(?:->\s*([^{;]*?)(?=\s*(?:\{|;|requires|ensures|where))|where[^{]*?(?=\{|requires|ensures)|((?:requires|ensures)\*?)\s*(\w*)\s*(?=\{)|(\{)|(;))").match(text, at)
                if not c:
                    break
                if c.group(2):
                    stop = closing(text, c.end())
                    clauses.append((c.group(2), text[c.end() + 1:stop].strip()))
                    at = stop + 1
                elif c.group(4):
                    stop = closing(text, c.end() - 1)
                    yield path, m.group(1), params, clauses, text[c.end():stop]
                    break
                elif c.group(5):
                    yield path, m.group(1), params, clauses, None
                    break
                else:
                    at = c.end()


def items(kind):
    for path, text in sources():
        for m in re.finditer(r"\b%s (\w+)[^{;(]*\{" % kind, text):
            yield path, m.group(1), text[m.end():closing(text, m.end() - 1)]


def top(text, sep):
    parts, depth, last = [], 0, 0
    for i, ch in enumerate(text):
        depth += ch in "{([" and 1 or 0
        depth -= ch in "})]" and 1 or 0
        if ch == sep and depth == 0:
            parts.append(text[last:i].strip())
            last = i + 1
    return [p for p in parts + [text[last:].strip()] if p]


def short(path):
    return path.replace("crates/", "").replace("/src/", "/")


def point1():
    for path, name, body in items("enum"):
        variants = top(body, ",")
        if len(variants) == 2 and any("(" in v or "{" in v for v in variants):
            yield f"enum of two variants: {short(path)} {name}"
    for path, name, _, _, body in functions():
        b = body or ""
        if re.search(r"None => None|Err\((\w+)\) => (return )?Err\(|Ok\(\(\)\) => Ok\(\(\)\)|Ok\((\w+)\) => \3,", b) and "match" in b:
            yield f"an arm that only passes on: {short(path)} {name}"
        if len(re.findall(r"=> \d+,", b)) > 1 or len(re.findall(r"^\s*\d+ => ", b, re.M)) > 1 or len(re.findall(r"(?:kind|state|phase): [\dA-Z_]+,", b)) > 1:
            yield f"numbers for kinds: {short(path)} {name}"
    for path, name, body in items("struct"):
        if re.search(r": bool\b", body) and not re.search(r"puts: bool", body):
            yield f"a flag in a struct: {short(path)} {name}"


def point2():
    shapes = collections.defaultdict(list)
    for path, name, _, _, body in functions():
        if body is None:
            continue
        tokens = re.findall(r"\w+|[^\w\s]", body)
        if len(tokens) < 6:
            continue
        shape = " ".join("_" if (t[0].isdigit() or t[0].isupper()) and t not in KEEP else t for t in tokens)
        shapes[shape].append(f"{short(path)} {name}")
    for group in shapes.values():
        if len(group) > 1:
            for f in group:
                yield f"the same but for constants and types: {f} (one of {len(group)}: {', '.join(x.split()[-1] for x in group)})"


def point3():
    for path, name, _, _, body in functions():
        b = body or ""
        for m in re.finditer(r"\bwhile\b[^{]*|\bloop\b", b):
            yield f"while: {short(path)} {name}: {m.group(0).strip()}"
        for m in re.finditer(r"\bfor (\w+) in ([^{]*\.\.[^{]*)\{", b):
            inner = b[m.end():closing(b, m.end() - 1)]
            if m.group(1) != "_" and re.search(r"\[[^\]]*\b%s\b" % m.group(1), inner):
                yield f"an index: {short(path)} {name}: for {m.group(1)} in {m.group(2).strip()}"
            else:
                yield f"a range: {short(path)} {name}: for {m.group(1)} in {m.group(2).strip()}"


def point4():
    for path, name, params, _, body in functions():
        if body is None or name in ("fmt", "from", "try_from"):
            continue
        if re.search(r"^(number|status|blank|same|pack|unpack|has_prefix)$|_(number|fields|words|name|of|word)$|^(from|to)_", name):
            if "match" in body or "==" in body or re.search(r"^\s*[A-Z]\w+ \{", body):
                yield f"converts or compares: {short(path)} {name}"
        if len(re.findall(r"println!", body)) > 1:
            yield f"prints case by case: {short(path)} {name}"


def point5():
    facts, together = collections.defaultdict(set), collections.defaultdict(set)
    for path, name, params, clauses, _ in functions():
        crate = path.split("/")[1]
        where = f"{short(path)} {name}"
        for kind, clause in clauses:
            if kind != "requires":
                continue
            flat = re.sub(r"[()]", " ", clause) if clause.count("×") else clause
            for fact in re.split(r"×", flat):
                fact = re.sub(r"\.(old|now|new|entry)\b", "", re.sub(r"\s+", " ", fact)).strip()
                facts[crate, fact].add(where)
        names = [re.sub(r"^mut ", "", p.split(":")[0].strip()) for p in top(params, ",") if ":" in p]
        for i, a in enumerate(names):
            for b in names[i + 1:]:
                together[crate, a, b].add(where)
    for (crate, fact), at in sorted(facts.items()):
        if len(at) > 2:
            yield f"a fact in {len(at)} contracts of {crate}: {fact}"
    for (crate, a, b), at in sorted(together.items()):
        if len(at) > 2:
            yield f"parameters of {len(at)} functions of {crate}: {a}, {b}"


def point6():
    for path, name, body in items("struct"):
        if re.search(r": (&\S* ?(mut )?)?\[", body) and re.search(r": (usize|u32|u64)\b", body):
            yield f"a row and a number beside it: {short(path)} {name}"
        elif len(re.findall(r": &\S* ?(?:mut )?\[", body)) > 1:
            yield f"rows side by side: {short(path)} {name}"
    for path, text in sources():
        if re.search(r"own: &(mut )?\[u64\]", text) or re.search(r"^pub type OwnWords", text, re.M):
            yield f"parts of one row by offsets: {short(path)}"


def point7():
    for path, name, params, _, body in functions():
        m = re.search(r"\b(\w+): (Kind)\b", params) or (re.search(r"self", params) and re.search(r"match self \{[^}]*=> (is_\w+\(|\w+ (!=|==|<) )", body or ""))
        if m:
            yield f"an enum chooses a test: {short(path)} {name}"
    for path, text in sources():
        for m in re.finditer(r"\bfn\(|\bdyn \w+", text):
            yield f"{m.group(0)}: {short(path)}"


def point8():
    for crate in sorted(glob.glob("crates/*")):
        files = glob.glob(crate + "/proofs/**/Answers.antt", recursive=True)
        alone = [f for f in files if set(re.findall(r"^\w\S* \S+ = (.*)$", open(f).read(), re.M)) == {"search rules"}]
        lines = sum(len(open(f).read().splitlines()) for f in glob.glob(crate + "/proofs/**/*.antt", recursive=True))
        yield f"{crate[7:]}: {lines} lines of proofs, {len(files)} files of answers, {len(alone)} that only search"


def main():
    args = sys.argv[1:]
    for n in [a for a in args if a.isdigit()] or "12345678":
        found = list(globals()["point" + n]())
        print(f"point {n}: {len(found)}")
        kinds = collections.Counter(f.split(":")[0] for f in found if n not in "58")
        for kind, count in sorted(kinds.items()):
            print(f"    {count} {kind}")
        if "--list" in args or n == "8":
            for f in found:
                print("    - " + f)


main()
