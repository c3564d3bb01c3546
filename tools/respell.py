#!/usr/bin/env python3
"""Gives the repository's own definitions and lemmas today's spelling, after the port.py of the kit has run: run once, at the top.

tools/names.tsv has a line for each name: the old one and the new one. Words are in snake case; a lemma that would have its function's name ends in
`_lem`. Functions of src/, exported C names, strings, inputs and outputs keep their names, and so do names of the library and those that the prover makes.
"""
import os
import re

HERE = os.path.dirname(os.path.abspath(__file__))
TOP = os.path.dirname(HERE)
TOKEN = re.compile(r"(\.?)([^\s(){}\[\].,;⌜⌝\"`]+)")
USE = re.compile(r"^\s*(?:pub\s+|ghost\s+)*use\s+(\S+?)\.\{([^}]*)\}", re.S | re.M)


def names():
    table, marked = {}, {}
    with open(os.path.join(HERE, "names.tsv"), encoding="utf-8") as rows:
        for row in rows:
            old, new = row.rstrip("\n").split("\t")
            # a name that has today's spelling already, but that a function gets now
            (marked if new == old + "_lem" else table)[old] = new
    return table, marked


def own_crates():
    with open(os.path.join(TOP, "crates.txt"), encoding="utf-8") as lines:
        return {line.split(":")[0].split()[0] for line in lines if ":" in line and not line.startswith("#")}


def imports(text, crates):
    own, kit = set(), set()
    for found in USE.finditer(text):
        parts = found.group(1).split(".")
        into = own if parts[0] == "Rattle" and len(parts) > 1 and parts[1] in crates else kit
        for name in found.group(2).split(","):
            into.add(re.split(r"\s+as\s+", name.strip())[0])
    return own, kit


def defined(text, name):
    return re.search(r"^\s*(?:(?:pub|abbrev|unfoldable)\s+)*" + re.escape(name) + r"\s*(?::|=)", text, re.M) is not None


def turned(line, table, kit, only):
    def one(found):
        dot, name = found.groups()
        if name in kit or name not in table or (only is not None and not dot and name not in only):
            return found.group(0)
        return dot + table[name]

    return TOKEN.sub(one, line)


def comment_turned(line, table):
    """In a comment the names that are marked as code, and those that no word is like."""
    line = re.sub(r"`([^`]*)`", lambda m: "`" + turned(m.group(1), table, (), None) + "`", line)
    return TOKEN.sub(lambda m: m.group(1) + (table.get(m.group(2), m.group(2)) if re.search(r"[a-z][A-Z]", m.group(2)) else m.group(2)), line)


def respell(path, table, marked, crates):
    with open(path, encoding="utf-8") as file:
        text = file.read()
    if path.endswith(".edit"):
        lines = text.split("\n")
        new = "\n".join(re.match(r"(?:old|new): ?", x).group(0) + turned(re.sub(r"^(?:old|new): ?", "", x), table, (), None)
                        if re.match(r"(?:old|new):", x) else comment_turned(x, table) for x in lines)
    else:
        own, kit = imports(text, crates)
        here = dict(table)
        for name, lemma in marked.items():
            if path.endswith(".antt") and (name in own or defined(text, name)):
                here[name] = lemma
        # a proof of one function: names that the prover makes stay
        parts = os.path.relpath(path, TOP).split(os.sep)
        only = own if path.endswith("Proof.antt") and parts[2] == "proofs" else None
        comment = "--" if path.endswith(".antt") else "//"
        new = "\n".join(comment_turned(x, table) if x.lstrip().startswith(comment) else turned(x, here, kit, only) for x in text.split("\n"))
        new = re.sub(r"(?m)^use Rattle\.std\.proofs\.Math\.Logic\.\{(.*?)(?:, )?Iff·trans\}$",
                     lambda m: ("use Rattle.std.proofs.Math.Logic.{" + m.group(1) + "}\n" if m.group(1) else "")
                     + "use Rattle.std.proofs.Math.Logic.Iff.{trans as iff_trans}", new).replace("Iff·trans", "iff_trans")
    if new != text:
        with open(path, "w", encoding="utf-8") as file:
            file.write(new)
        return True
    return False


def main():
    table, marked = names()
    crates = own_crates()
    changed = 0
    for folder, inner, files in os.walk(os.path.join(TOP, "crates")):
        inner[:] = [name for name in inner if name != "out"]
        for name in files:
            if name.endswith((".antt", ".rt", ".edit")):
                changed += respell(os.path.join(folder, name), table, marked, crates)
    print(f"respelled: {changed} files")


main()
