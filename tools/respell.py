#!/usr/bin/env python3
"""Brings this repository's own definitions and lemmas to today's spelling. Run once, at the top, after port.py.

A definition, lemma, field or constructor of specs/ and proofs/ is spelled in snake case (decodeOf is decode_of,
step-law is step_law), a type in camel case (Return-kind is ReturnKind). Names of src/, of std and of what the
toolchain makes keep their spelling; in a proof's own folder only what is cited from elsewhere is respelled, and the
proof itself, which is named after its function. Must-fail edits and the pages of docs/ follow.
"""

import glob
import re
import sys

# Two names that a definition joins keep their dash.
KEPT = {"decode-encode", "encode-decode"}
# Names that would fall together with a definition of the same file: (file, name) to a name.
APART = {
    ("crates/machine/proofs/Flowing.antt", "goes_on"): "goes_on_lem",
    ("crates/machine/proofs/Turns.antt", "goes_on"): "goes_on_lem",
    ("crates/decoder/proofs/Rows.antt", "fixed-at"): "fixed_at_lem",
}
OURS = r"Rattle\.(?:decoder|alu|machine|examples|listing|answers|manual)\.(?:specs|proofs)\."
TOKEN = re.compile(r"(?<![A-Za-z0-9_'\-◌])[A-Za-zμ+][A-Za-z0-9_'\-]*")


def snake(name):
    name = re.sub(r"([a-z0-9])([A-Z])", lambda m: m.group(1) + "_" + m.group(2).lower(), name)
    return name


def is_camel(name):
    return bool(re.match(r"[a-z][a-z0-9_']*[A-Z]", name)) and "-" not in name


def dashed(name):
    if name[0].isupper():
        return "".join(part[0].upper() + part[1:] for part in name.split("-"))
    return name.replace("-", "_")


def imports(text, ours):
    found = set()
    for module, names in re.findall(r"(?m)^(?:ghost )?use ([^\s{]+)\.\{([^}]*)\}", text):
        if bool(re.match(OURS, module + ".")) == ours:
            found |= {n.strip().split(" as ")[0] for n in names.split(",")}
    return found


def outside_comments(text, turn):
    lines = []
    for line in text.split("\n"):
        at = line.find("--")
        code, comment = (line, "") if at < 0 else (line[:at], line[at:])
        parts = re.split(r'("(?:[^"\\]|\\.)*")', code)
        code = "".join(p if p.startswith('"') else turn(p) for p in parts)
        comment = re.sub(r"`[^`]*`", lambda m: turn(m.group(0)), comment)
        lines.append(code + comment)
    return "\n".join(lines)


def antt(path, text, own):
    """own: the dashed names that the root modules of this repository declare."""
    root = path.count("/") == 3
    std = imports(text, False)
    cited = imports(text, True)

    def turned(m):
        name = m.group(0)
        if (path, name) in APART:
            return APART[path, name]
        if name in KEPT or name in std:
            return name
        if is_camel(name):
            return snake(name)
        if "-" not in name:
            return name
        if root or name in cited or name in own and re.search(OURS + r"[\w.]*$", m.string[: m.start()]):
            return dashed(name)
        if name.endswith("-spec"):
            return dashed(name)
        return name

    return outside_comments(text, lambda t: TOKEN.sub(turned, t))


def clauses(text):
    def line(l):
        if re.match(r"\s*(ghost use|requires|ensures)\b", l):
            return TOKEN.sub(lambda m: dashed(snake(m.group(0))) if is_camel(m.group(0)) or m.group(0) == "Return-kind" else m.group(0), l)
        return l

    return "\n".join(line(l) for l in text.split("\n"))


def edit(text, own):
    def word(m):
        name = m.group(0)
        if name == "getD":
            return "get_or"
        return snake(name) if is_camel(name) else dashed(name) if name in own else name

    return "\n".join(TOKEN.sub(word, l) if l.startswith(("old:", "new:")) else l for l in text.split("\n"))


def page(text, own):
    def quoted(m):
        return TOKEN.sub(lambda n: snake(n.group(0)) if is_camel(n.group(0)) else dashed(n.group(0)) if n.group(0) in own - KEPT else n.group(0), m.group(0))

    return re.sub(r"`[^`\n]*`", quoted, text)


def declared(paths):
    names = set()
    for p in paths:
        with open(p, encoding="utf-8") as f:
            for m in re.finditer(r"(?m)^ *(?:pub |abbrev |unfoldable |data |record )*([A-Za-z][\w']*[_-][\w'-]*)(?: [^:\n]*)? : ", f.read()):
                # port.py has respelled some already; a page may still have the old name.
                names |= {m.group(1), m.group(1).replace("_", "-")}
    return {n for n in names if "-" in n}


def main():
    files = sorted(p for p in glob.glob("crates/*/specs/**/*.antt", recursive=True) + glob.glob("crates/*/proofs/**/*.antt", recursive=True) if "/out/" not in p)
    own = declared([p for p in files if p.count("/") == 3])
    turns = [(p, lambda p, t: antt(p, t, own)) for p in files]
    turns += [(p, lambda p, t: clauses(t)) for p in sorted(glob.glob("crates/*/src/**/*.rt", recursive=True))]
    turns += [(p, lambda p, t: edit(t, own)) for p in sorted(glob.glob("crates/*/must-fail/*.edit"))]
    turns += [(p, lambda p, t: page(t, own)) for p in sorted(glob.glob("docs/*.md")) if p != "docs/PORT.md"]
    for path, turn in turns:
        with open(path, encoding="utf-8") as f:
            text = f.read()
        new = turn(path, text)
        together = {}
        if path.endswith(".antt"):
            for a, b in zip(TOKEN.findall(text), TOKEN.findall(new)):
                together.setdefault(b, set()).add(a)
            for b, a in together.items():
                if len(a) > 1:
                    print(f"fall together: {path}: {sorted(a)} are {b}")
        if new != text:
            with open(path, "w", encoding="utf-8") as f:
                f.write(new)
            print(f"respelled: {path}")


if __name__ == "__main__":
    sys.exit(main())
