#!/usr/bin/env python3
"""Lists the lines of crates/*/src that each point of docs/DESIGN-PASS.md is about: tools/places.py [POINT] [-c].

Without POINT all points; with -c only how many lines each point has. A line is a place to look at, and no verdict."""
import difflib
import glob
import re
import sys

ENUM = r"^\s*(pub(\(crate\))? )?enum "
POINTS = {
    # Enums, numbers that stand for "none", flags, and errors that are handed on by hand.
    1: [ENUM, r"\bor 0\b|, 0 where|\b0 where|256 for", r"^\s*(pub(\(crate\))? )?\w+: bool,$", r"== 256\b",
        r"Err\(\w+\) => ", r"let (Some|Ok)\(.*else \{$"],
    # Loops over numbers, and counters.
    3: [r"^\s*for \w+ in [^{]*\.\.", r"^\s*(while|loop) ?", r"\+= 1;"],
    # Printing, reading, comparing and converting.
    4: [r"impl.* fmt::Display for", r"fn (show_\w+|parse|of|to|same|reason|hex|number|\w+_of|done|entered|fitted|outcome)\b"],
    # Arrays of fixed size.
    6: [r"\[[A-Za-z_]\w*(::\w+\(\))?; \w+\]|\[\["],
    # Choices between steps.
    7: [r"match [^{]*\b(shape|kind|stage|call|request|step|command|parse)\b"],
}
CLAUSE = re.compile(r"^\s*(requires|ensures|ghost)\b")


def files():
    return sorted(glob.glob("crates/*/src/**/*.rt", recursive=True))


def lines_of(point):
    found = []
    for name in files():
        for at, line in enumerate(open(name, encoding="utf-8"), 1):
            line = line.rstrip("\n")
            if CLAUSE.match(line):
                continue
            if any(re.search(p, line) for p in POINTS[point]):
                found.append(f"{name}:{at}:{line.strip()}")
    return found


def functions():
    """Each function's file, name, number of parameters, and its text without clauses."""
    for name in files():
        text = open(name, encoding="utf-8").read().split("\n")
        for at, line in enumerate(text):
            m = re.match(r"^(\s*)(pub(\(crate\))? )?(extern \"C\" )?fn (\w+)", line)
            if not m:
                continue
            body = []
            for later in text[at:]:
                if CLAUSE.match(later) and later.endswith(";"):
                    break
                if not CLAUSE.match(later) and not later.strip().startswith("//"):
                    body.append(later)
                if later == m.group(1) + "}" or later.rstrip().endswith("{}"):
                    break
            head = re.sub(r"<[^()]*?>\(", "(", " ".join(body), count=1).split("->")[0].split("{")[0]
            yield f"{name}:{at + 1}", m.group(5), head.count(": ") + head.count("self"), "\n".join(body)


def twins():
    """Pairs of functions whose bodies are alike but for names, types and numbers."""
    shapes = []
    for place, name, _, body in functions():
        inner = body.split("{", 1)[1] if "{" in body else ""
        tokens = re.findall(r"\w+|[^\w\s]", inner)
        keep = {"if", "else", "for", "in", "while", "loop", "match", "return", "let", "mut", "fn", "Some", "None", "Ok", "Err"}
        shapes.append((place, name, [t if t in keep or not re.match(r"\w", t) else "x" for t in tokens]))
    found = []
    for i, (a, an, at) in enumerate(shapes):
        for b, bn, bt in shapes[i + 1:]:
            if min(len(at), len(bt)) >= 18 and abs(len(at) - len(bt)) <= 6:
                if difflib.SequenceMatcher(None, at, bt, autojunk=False).ratio() >= 0.9:
                    found.append(f"{a}:{an} ~ {b}:{bn}")
    return found


def together():
    """Premises that three or more contracts have, and functions of six or more parameters."""
    count = {}
    for name in files():
        for line in open(name, encoding="utf-8"):
            m = re.match(r"^\s*requires( \w+)? \{(.*)\}$", line.rstrip("\n"))
            if m:
                count[m.group(2).strip()] = count.get(m.group(2).strip(), 0) + 1
    found = [f"{n} contracts: {fact}" for fact, n in sorted(count.items(), key=lambda x: -x[1]) if n >= 3]
    found += [f"{place}:{name}: {n} parameters" for place, name, n, _ in functions() if n >= 6]
    return found


def answers():
    """Answers written out, by crate."""
    found = []
    for crate in sorted(glob.glob("crates/*/proofs")):
        n = 0
        for name in glob.glob(crate + "/**/Answers.antt", recursive=True):
            n += sum(1 for line in open(name, encoding="utf-8") if re.match(r"^(pub )?[\w-]+ : goal\.", line))
        size = sum(sum(1 for _ in open(f, encoding="utf-8")) for f in glob.glob(crate + "/**/*.antt", recursive=True))
        found.append(f"{crate}: {n} answers, {size} lines")
    return found


def main():
    words = [w for w in sys.argv[1:] if w != "-c"]
    for point in [int(w) for w in words] or range(1, 9):
        if point == 2:
            found = twins()
        elif point == 5:
            found = together()
        elif point == 8:
            found = answers()
        else:
            found = lines_of(point)
        print(f"point {point}: {len(found)}")
        if "-c" not in sys.argv:
            for line in found:
                print("  " + line)


main()
