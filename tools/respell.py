#!/usr/bin/env python3
"""Brings the names of definitions and lemmas to one spelling: words in snake case. Run once, at the top, after the kit's own script.

A name of antt that the library, the code or the checker made keeps its spelling; so do types, modules and whatever begins with a capital.
With --dry it only says where names would fall together.
"""
import collections, os, re, sys

TOKEN = re.compile(r"(?P<dot>\.?)(?P<name>[^\s(){}\[\],;.:\"`⌜⌝]+)")
DECLARED = re.compile(r"^[ \t]*(?:(?:abbrev|unfoldable|pub)\s+)*(?P<names>[^\s(){}:.\[\]]+(?:[ \t]+[^\s(){}:.\[\]]+)*)[ \t]*:(?!=)(?P<type>[^\n]*(?:\n[ \t]+→[^\n]*)*)", re.M)
USED = re.compile(r"^(?:ghost )?use (?P<path>[^\s;{]+?)(?:\.\{(?P<names>[^}]*)\})?(?: as (?P<as>\S+?))?;?$", re.M)
LIBRARY_FIELDS = {"suc-zero", "zero-suc", "suc-suc"}
LAWS_OF_THEIR_NAME = {"bit-or", "or-else", "number-in"}
taken, laws = set(), set()


def odd(name):
    """Neither snake case nor the name of a type: a capital within it, or a dash between words."""
    if name in laws:
        return True
    if not re.match(r"[a-zα-ωμ]", name):
        return name == "None-first"
    return bool(re.search(r"[a-z0-9'][A-Z]", name) or re.search(r"[\w'₀-₉]-[\w']", name))


def snake(name):
    """A law that would have the name of what it speaks of ends in _lem."""
    to = re.sub(r"(?<=[a-z0-9])([A-Z])", lambda m: "_" + m.group(1).lower(), name).replace("-", "_").replace("None", "none")
    law = "-" in name or name in laws
    return to + "_lem" if law and (to in taken or name in LAWS_OF_THEIR_NAME) else to


def ours(path, crates):
    parts = path.split(".")
    return parts[0] == "Rattle" and len(parts) > 2 and parts[1] in crates and parts[2] in ("specs", "proofs")


def uncommented(text):
    return re.sub(r"--.*", "", text)


def turned(path, text, crates, known):
    """The text with its names turned, and what they became."""
    proof = path.endswith("/Proof.antt")
    bare = uncommented(text)
    library, mine = set(), set()
    for m in USED.finditer(bare):
        names = {n.strip() for n in (m.group("names") or "").split(",")}
        if ours(m.group("path"), crates) and not re.search(r"\.(Statement|Tie|Lts|Given|Goals)$", m.group("path")):
            mine |= names
        else:
            library |= names
    if proof:
        made = set()
        for m in DECLARED.finditer(bare):
            if re.match(r"\s*tie\.", m.group("type")):
                made |= set(m.group("names").split())
            else:
                mine |= set(m.group("names").split())
        library |= made - mine
    became = {}

    def turn(m):
        name, dot = m.group("name"), m.group("dot")
        if not odd(name) or name in library or (dot and name in LIBRARY_FIELDS):
            return m.group(0)
        if dot and (proof or name not in known):
            return m.group(0)
        if proof and name not in mine:
            return m.group(0)
        became[name] = snake(name)
        return dot + became[name]

    out = []
    for line in text.split("\n"):
        code, dashes, comment = line.partition("--") if "--" in line else (line, "", "")
        comment = re.sub(r"`[^`]*`", lambda q: TOKEN.sub(lambda m: m.group("dot") + snake(m.group("name")) if m.group("name") in known and odd(m.group("name")) else m.group(0), q.group(0)), comment)
        out.append(TOKEN.sub(turn, code) + dashes + comment)
    return "\n".join(out), became


def source(text, known):
    became = {}

    def turn(m):
        if m.group("name") in known - laws and odd(m.group("name")) and "-" not in m.group("name"):
            became[m.group("name")] = snake(m.group("name"))
            return m.group("dot") + snake(m.group("name"))
        return m.group(0)

    return TOKEN.sub(turn, text), became


def main():
    dry = "--dry" in sys.argv
    crates = set(os.listdir("crates"))
    files = sorted(os.path.join(d, f) for d, _, fs in os.walk("crates") for f in fs if f.endswith((".antt", ".rt")) and "/out/" not in d)
    texts = {p: open(p, encoding="utf-8").read() for p in files}
    known = set()
    for p, t in texts.items():
        if p.endswith(".antt") and not p.endswith("/Proof.antt"):
            for m in DECLARED.finditer(uncommented(t)):
                known |= set(m.group("names").split())
    capitals = {n for n in known if re.match(r"[a-z]", n) and re.search(r"[a-z0-9'][A-Z]", n) and "-" not in n}
    defined = set()
    for p, t in texts.items():
        if p.endswith(".antt") and not p.endswith("/Proof.antt"):
            names = {n for m in DECLARED.finditer(uncommented(t)) for n in m.group("names").split()}
            if "/specs/" in p:
                defined |= {n for n in names if not odd(n)}
            else:
                laws.update(n for n in names if n in {snake(c) for c in capitals} and re.search(r"^(pub )?" + re.escape(n) + r" :", t, re.M))
    taken.update({snake(c) for c in capitals} | defined)
    print("laws that had a definition's name:", sorted(laws))
    for p, t in texts.items():
        new, became = turned(p, t, crates, known) if p.endswith(".antt") else source(t, known)
        there = {m.group("name") for m in TOKEN.finditer(uncommented(t) if p.endswith(".antt") else t)}
        for name, to in sorted(became.items()):
            if to in there:
                print(f"{p}: {name} falls together with {to}")
        seen = collections.Counter(became.values())
        for to in (n for n, k in seen.items() if k > 1):
            print(f"{p}: two names become {to}")
        if not dry and new != t:
            with open(p, "w", encoding="utf-8") as f:
                f.write(new)


if __name__ == "__main__":
    main()
