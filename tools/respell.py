#!/usr/bin/env python3
"""Brings the repository's own names of definitions and lemmas to snake case, and of types to camel case.

usage: python3 tools/respell.py            at the top of the repository, once, after the toolchain's port.py

It goes over specs/, proofs/ and the clauses of src/, and over names in backquotes in the pages. A name is taken if one of
our own .antt files declares it with a hyphen (or a hump) in it. Names of goals and steps, which the toolchain makes, and
names that a file imports from a library stay. Names that fall together are printed, and nothing is written then.
"""
import os
import re
import sys

WORD = r"[A-Za-z_][\w'₀-₉]*(?:-[\w'₀-₉]+)*"
TOKEN = re.compile(r"(?<![\w'-])" + WORD)
DECLARED = re.compile(r"^\s*(?:(?:abbrev|unfoldable|opaque|pub|record|data)\s+)*(" + WORD + r")(?=[\s({:])[^=]*?:\s+(\S*)")
KIND = re.compile(r"^\s*(?:(?:abbrev|unfoldable|opaque|pub)\s+)*(?:record|data)\s+(" + WORD + ")")
MODULES = re.compile(r"^(?:goal|need|given|rules)\.")
IMPORT = re.compile(r"^\s*(?:pub |ghost )*use (Rattle\.(\w+)[.\w·'-]*|[\w.·'-]+)\.\{([^}]*)\}", re.M)


def texts(suffixes):
    for top in ("crates", "docs"):
        for folder, dirs, files in os.walk(top):
            dirs[:] = sorted(d for d in dirs if d != "out")
            for f in sorted(files):
                if f.endswith(suffixes):
                    yield os.path.join(folder, f)


def read(path):
    with open(path, encoding="utf-8") as f:
        return f.read()


def respelled(name):
    if name[0].isupper():
        return "".join(w[:1].upper() + w[1:] for w in name.split("-"))
    name = name.replace("getD", "get_or").replace("-", "_")
    return re.sub(r"(?<=[a-z0-9])([A-Z])", lambda m: "_" + m.group(1).lower(), name)


def hyphened(name):
    if name[0].isupper():
        return "-" in name
    return "-" in name or re.search(r"[a-z][A-Z]", name) is not None


def own_crates():
    return set(os.listdir("crates"))


def imported(text, crates):
    """The names that a file has from a library."""
    out = set()
    for m in IMPORT.finditer(text):
        if m.group(2) in crates:
            continue
        for item in m.group(3).split(","):
            out.add(item.strip().split(" as ")[-1])
            out.add(item.strip().split(" as ")[0])
    return out


def without_comments(text, mark):
    return "\n".join(line.split(mark)[0] for line in text.split("\n"))


def declared(crates):
    names, all_names = set(), set()
    for path in texts((".antt",)):
        text = without_comments(read(path), "--")
        foreign = imported(text, crates)
        # a proof folder of a function answers goals, whose names are the toolchain's
        answers = os.path.basename(path) in ("Answers.antt", "Invariants.antt", "Proof.antt", "Choices.antt")
        for line in text.split("\n"):
            if line.strip().startswith(("use ", "pub use ", "mod ", "pub mod ", "module ", "let ")):
                continue
            m = KIND.match(line) or DECLARED.match(line)
            if not m:
                continue
            name = m.group(1)
            all_names.add(name)
            if answers and m.lastindex == 2 and MODULES.match(m.group(2)):
                continue
            if hyphened(name) and name not in foreign:
                names.add(name)
    return names, all_names


def turn_line(line, names, foreign, mark):
    code, sep, comment = line.partition(mark) if mark else ("", "", line)
    def one(m):
        w = m.group(0)
        return respelled(w) if w in names and w not in foreign else w
    code = TOKEN.sub(one, code)
    comment = re.sub(r"`[^`]*`", lambda m: TOKEN.sub(one, m.group(0)), comment)
    return code + sep + comment


def turned_rt(text, names, foreign):
    """Clauses and ghost items alone: the code of src/ has no hyphen in a name, and keeps its own."""
    out, ghost = [], 0
    for line in text.split("\n"):
        start = re.match(r"\s*(pub )?(ghost |requires|ensures)", line)
        if start or ghost > 0:
            ghost += line.count("{") - line.count("}")
            line = turn_line(line, names, foreign, "//")
        elif re.match(r"\s*//", line):
            line = turn_line(line, names, foreign, "//")
        out.append(line)
    return "\n".join(out)


def main():
    crates = own_crates()
    names, every = declared(crates)
    by = {}
    for n in names:
        by.setdefault(respelled(n), set()).add(n)
    clash = {k: v for k, v in by.items() if len(v) > 1 or k in every}
    for k, v in sorted(clash.items()):
        print(f"falls together: {', '.join(sorted(v))} -> {k}" + (" (declared already)" if k in every else ""))
    if clash and "--anyway" not in sys.argv:
        return 1
    for path in texts((".antt", ".rt", ".md")):
        text = read(path)
        foreign = imported(text, crates) if not path.endswith(".md") else set()
        if path.endswith(".antt"):
            new = "\n".join(turn_line(l, names, foreign, "--") for l in text.split("\n"))
        elif path.endswith(".rt"):
            new = turned_rt(text, names, foreign)
        else:
            new = "\n".join(turn_line(l, names, foreign, "") for l in text.split("\n"))
        if new != text:
            with open(path, "w", encoding="utf-8") as f:
                f.write(new)
    for n in sorted(names):
        print(f"{n} -> {respelled(n)}")
    return 0


if __name__ == "__main__":
    sys.exit(main())
