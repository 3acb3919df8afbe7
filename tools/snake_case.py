#!/usr/bin/env python3
"""Brings the repository's own definitions and lemmas to one spelling: words in snake case, facts and types in upper camel
case. Run once, at the top, after port.py. Names of src/, of the library and those that Rattle makes keep theirs."""
import glob
import re

TOKEN = re.compile(r"[^\s(){}\[\],;.«»`\"]+")
DASHED = re.compile(r"\w-\w")
COMMENT = re.compile(r"(^|\s)--(\s|$)")
HAND = re.compile(r"/(Answers|Invariants|Proof)\.antt$")


def split_comment(line):
    m = COMMENT.search(line)
    return (line, "") if m is None else (line[: m.start()], line[m.start():])


def spelled(name):
    if name[0].isupper():
        return "".join(part[:1].upper() + part[1:] for part in name.split("-"))
    return name.replace("-", "_")


def read(path):
    with open(path, encoding="utf-8") as f:
        return f.read()


def main():
    proofs = sorted(glob.glob("crates/**/*.antt", recursive=True))
    sources = sorted(glob.glob("crates/**/*.rt", recursive=True))
    crates = {line.split(":")[0] for line in read("crates.txt").splitlines() if line[:1].isalpha()}
    library = set()
    for path in proofs + sources:
        for m in re.finditer(r"use ([\w.]+)\.\{([^}]*)\}", read(path)):
            parts = m.group(1).split(".")
            if parts[0] != "Rattle" or parts[1] not in crates:
                library |= {x.strip().split(" as ")[0] for x in m.group(2).split(",")}
    own = set()
    local = {}
    for path in proofs:
        code = "\n".join(split_comment(line)[0] for line in read(path).splitlines())
        if HAND.search(path):
            local[path] = {m.group(1) for m in re.finditer(r"^([^\s:]+) :", code, re.M) if DASHED.search(m.group(1))}
        else:
            own |= {t for t in TOKEN.findall(code) if DASHED.search(t)}
    own -= library
    rust = set()
    for path in sources:
        rust |= set(re.findall(r"\w+", read(path)))

    def new_name(token, path):
        if token in own or token in local.get(path, ()):
            return spelled(token)
        if HAND.search(path) and token not in library and DASHED.search(token) and token.replace("-", "_") in rust:
            return token.replace("-", "_")
        return token

    def respelled(text, path):
        return TOKEN.sub(lambda m: new_name(m.group(0), path), text)

    def cited(text, path):
        return re.sub(r"`[^`\s]+`", lambda m: respelled(m.group(0), path), text)

    for path in proofs:
        lines = []
        for line in read(path).split("\n"):
            code, comment = split_comment(line)
            lines.append(respelled(code, path) + cited(comment, path))
        write(path, "\n".join(lines))
    for path in sources:
        lines = []
        for line in read(path).split("\n"):
            at = line.find("//")
            code, comment = (line, "") if at < 0 else (line[:at], line[at:])
            pieces = re.split(r"(\"(?:[^\"\\]|\\.)*\"|b'[^']*')", code)
            pieces = [p if i % 2 else respelled(p, path) for i, p in enumerate(pieces)]
            lines.append("".join(pieces) + comment)
        write(path, "\n".join(lines))


def write(path, text):
    if text != read(path):
        with open(path, "w", encoding="utf-8") as f:
            f.write(text)


main()
