#!/usr/bin/env python3
"""Lists the places in crates/*/src that the design pass looks at, one group for each of its points, and counts them.

    tools/places.py            the counts
    tools/places.py 3          the places of point 3, one a line

It goes by text: a place that it lists may be as it should be (docs/DESIGN-PASS.md says which are and why), and what it
cannot see is found by reading.
"""
import collections
import glob
import re
import sys


def files(kind="src"):
    return sorted(glob.glob(f"crates/*/{kind}/**/*.rt", recursive=True))


def lines():
    for path in files():
        for number, line in enumerate(open(path, encoding="utf-8"), 1):
            yield path, number, line.rstrip("\n")


def grep(pattern, but=None):
    found = []
    for path, number, line in lines():
        if line.lstrip().startswith("//"):
            continue
        if re.search(pattern, line) and not (but and re.search(but, line)):
            found.append((path, number, line.strip()))
    return found


def structs():
    """Each struct with its named fields and their types."""
    for path in files():
        text = open(path, encoding="utf-8").read()
        for m in re.finditer(r"struct (\w+)[^;{]*\{(.*?)\n\}", text, re.S):
            fields = re.findall(r"^\s+(?:pub(?:\(crate\))? )?(\w+): ([^{}\n]+),$", m.group(2), re.M)
            yield path, text[: m.start()].count("\n") + 1, m.group(1), fields


def signatures():
    """Each function with the names and types of its parameters."""
    for path in files():
        text = open(path, encoding="utf-8").read()
        for m in re.finditer(r"\bfn (\w+)(?:<[^>]*>)?\(((?:[^()]|\([^()]*\))*)\)", text):
            parts = [p.strip() for p in re.split(r",\s*(?![^<\[]*[>\]])", m.group(2)) if p.strip()]
            yield path, text[: m.start()].count("\n") + 1, m.group(1), parts


def bodies():
    """The lines of code of each function, without clauses and layout, for the search for twins."""
    for path in files():
        if "_tests/" in path or "/tests.rt" in path:
            continue
        text = open(path, encoding="utf-8").read()
        for m in re.finditer(r"^( *)(?:pub(?:\(crate\))? )?fn (\w+).*?^\1\}", text, re.S | re.M):
            brace = re.search(r"^" + m.group(1) + r"\{\n(.*)^" + m.group(1) + r"\}", m.group(0), re.S | re.M)
            inner = brace.group(1) if brace else m.group(0).split("{", 1)[-1]
            kept = [l.strip() for l in inner.split("\n") if l.strip() and not l.strip().startswith("//")]
            yield path, text[: m.start()].count("\n") + 1, m.group(2), kept


def point1():
    out = [("flag in a struct", *g) for g in flags()]
    out += [("code", *g) for g in grep(r"(state|letter): char|-> char|\b(answer|code|number): u32|-> u32\b")]
    out += [("Option of a refusal", *g) for g in grep(r"-> Option<Refusal>|-> Option<Answer>")]
    out += [("names a theorem by 0", *g) for g in grep(r"\(\) -> u8$|\(\) -> u8 \{$")]
    return out


def flags():
    for path, number, name, fields in structs():
        for field, kind in fields:
            if kind == "bool":
                yield path, number, f"struct {name}: {field}"


def point2():
    out = []
    seen = collections.defaultdict(list)
    for path, number, name, kept in bodies():
        if len(kept) < 2:
            continue
        shape = re.sub(r"\b[a-z_]\w*\b|\b\d\w*\b|\"[^\"]*\"", "x", re.sub(r"\b(if|for|in|return|match|let|mut|while|self)\b", r"\1", "\n".join(kept)))
        seen[shape].append((path, number, name))
    for shape, where in seen.items():
        if len(where) > 1:
            for path, number, name in where:
                out.append((f"shape of {len(where)}: {where[0][2]}", path, number, f"fn {name}"))
    return out


def point3():
    return [("range loop", *g) for g in grep(r"for \w+ in .*\.\.")] + [("while loop", *g) for g in grep(r"\bwhile\b")]


def point4():
    out = [("byte string compared", *g) for g in grep(r"== b\"")]
    out += [("conversion or printing by a function", *g) for g in grep(r"fn (write_(digit|number|level|next|tile|mast|record|detail|state|fields)|show_\w+|letter|reason|comeback|contents_of|verb_of|done|blocks|used|found|code|number|say)\b")]
    return out


def point5():
    out = [("a store as a machine, spelled", *g) for g in grep(r"seen \(.*meaning")]
    out += [("a premise of order", *g) for g in grep(r"InOrder \((seen|machine)")]
    out += [("a ring by three numbers", path, number, f"fn {name}") for path, number, name, parts in signatures()
            if {"head", "tail"} <= {p.split(":")[0].split()[-1] for p in parts if ":" in p}]
    out += [("six parameters or more", path, number, f"fn {name}") for path, number, name, parts in signatures() if len(parts) >= 6]
    clauses = collections.Counter(re.sub(r"\s+", " ", l) for _, _, l in lines() if re.match(r"\s+requires", l))
    out += [("a requires that stands three times", path, number, l.strip()) for path, number, l in lines()
            if clauses[re.sub(r"\s+", " ", l)] >= 3]
    return out


def point6():
    out = []
    for path, number, name, fields in structs():
        rows = [f for f, kind in fields if re.match(r"(Vec<|\[)", kind)]
        counts = [f for f, kind in fields if f in ("size", "len", "count")]
        if len(rows) >= 2 or (rows and counts):
            out.append(("rows side by side, or with a length", path, number, f"struct {name}: {', '.join(rows + counts)}"))
    out += [("rows by parameters", path, number, f"fn {name}") for path, number, name, parts in signatures()
            if {"numbers", "slots"} <= {p.split(":")[0].split()[-1] for p in parts if ":" in p}]
    return out


def point7():
    return [("a switch passed down", *g) for g in grep(r"\bchange: Change\b")] + [("half a switch", *g) for g in grep(r"_ => Ok\(\(\)\)")]


def point8():
    """Each answer that a proof file gives: the fewer, the more the check finds alone."""
    out = []
    for path in sorted(glob.glob("crates/*/proofs/**/Answers.antt", recursive=True)):
        for number, line in enumerate(open(path, encoding="utf-8"), 1):
            if re.match(r"(abbrev )?pub \S+ : goal\.", line):
                out.append(("an answer", path, number, line.strip()))
    return out


def main():
    points = [point1, point2, point3, point4, point5, point6, point7, point8]
    asked = [int(a) for a in sys.argv[1:]]
    for k, point in enumerate(points, 1):
        if asked and k not in asked:
            continue
        found = point()
        if asked:
            for kind, path, number, what in found:
                print(f"{path}:{number}: {kind}: {what}")
        else:
            kinds = collections.Counter(f[0] if not f[0].startswith("shape") else "functions of one shape" for f in found)
            print(f"point {k}: {len(found)}")
            for kind, count in kinds.most_common():
                print(f"    {count:4} {kind}")
    if not asked:
        proofs = sum(1 for p in glob.glob("crates/*/proofs/**/*.antt", recursive=True) for _ in open(p, encoding="utf-8"))
        source = sum(1 for p in files() for _ in open(p, encoding="utf-8"))
        print(f"lines in proofs/: {proofs}\nlines in src/: {source}")


main()
