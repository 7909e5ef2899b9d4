#!/usr/bin/env python3
"""Spells the repository's own definitions as today's Rattle does. Run once, at the top, after the kit's port.py.

Definitions become words in snake case (edgesOf: edges_of), in crates/ (clauses, specs, proofs, edits). So do fields, constructors and variables
that specs/ has with a dash (row-after: row_after). Lemmas keep their dashes: a dash joins two names there. Types and modules keep their capitals, functions of
src/ their names. Where a new name would fall together with another of the same file, the other, a lemma, gets the ending _lem, as the kit's style says.
"""
import os
import re

TOKEN = re.compile(r"(?<![\w'-])[A-Za-z_][\w'₀-₉]*(?:-[\w'₀-₉]+)*")
OWN = re.compile(r"Rattle\.(?!std\b|core\b)\w+\.")
# lemmas of the same name as a definition's new one
# names with a dash that would fall together with a definition of another meaning: they keep it; getD is the library's, in edits of the older form
KEPT = {"input-free", "no-path", "not-refused", "plan-latency", "zero-cycle", "getD"}
LEMMAS = {"edge_in": "edge_in_lem", "row_made": "row_made_lem", "with_pair": "with_pair_lem"}


def snake(name):
    return re.sub(r"([a-z0-9])([A-Z])", lambda m: m[1] + "_" + m[2].lower(), name).replace("-", "_")


def code(text):
    return re.sub(r"--.*|//.*", "", text)


def main():
    files = []
    for folder, dirs, names in os.walk("crates"):
        dirs[:] = sorted(d for d in dirs if d != "out")
        files += [os.path.join(folder, f) for f in sorted(names) if f.endswith((".antt", ".rt", ".edit"))]
    texts = {p: open(p, encoding="utf-8").read() for p in files}
    tokens = {p: set(TOKEN.findall(code(t))) for p, t in texts.items()}
    foreign = set()
    for t in texts.values():
        for m in re.finditer(r"^(?:ghost )?use ([\w.+]+)\.\{([^}]*)\}", t, re.M):
            if not OWN.match(m[1] + "."):
                foreign.update(TOKEN.findall(m[2]))
    turned = {}
    for p, found in tokens.items():
        for name in found:
            camel = re.search(r"[a-z0-9][A-Z]", name) and not name[0].isupper() and "-" not in name and not re.match(r"x[0-9A-F]{2}$", name)
            dashed = "-" in name and "/specs/" in p and name not in foreign
            if (camel or dashed) and name not in KEPT:
                turned[name] = snake(name)
    bound = set(re.findall(r"(?<![\w'-])(" + "|".join(LEMMAS) + r")(?![\w'-])", " ".join(t for p, t in texts.items() if p.endswith(".antt"))))
    turned.update({k: v for k, v in LEMMAS.items() if k in bound})
    for p, t in texts.items():
        table = dict(turned)
        if p.endswith(".rt"):
            table = {k: v for k, v in table.items() if k not in LEMMAS}
        for name in sorted(tokens[p]):
            new = table.get(name)
            if new and new in tokens[p] and new not in table and p.endswith(".antt"):
                print(f"look: {p}: {name} becomes {new}, which stands there already")
        new_text = TOKEN.sub(lambda m: table.get(m[0], m[0]), t)
        if new_text != t:
            with open(p, "w", encoding="utf-8") as f:
                f.write(new_text)
    print(f"{len(turned)} names: " + " ".join(f"{k}:{v}" for k, v in sorted(turned.items())))


main()
