#!/usr/bin/env python3
"""statements.py OLD NEW: what OLD's specs/ state that NEW's specs/ and proofs/ don't state word for word.

OLD and NEW are folders with crates/, in one spelling (docs/PORT.md). Compared are the signatures of definitions, theorems, fields and constructors, each with the
parameters of the modules that it stands in, by its name over all crates, since theorems may move; whether a path says specs or proofs, and line ends, don't
count. How something is defined or proved is not compared: the kit's contracts.py does that for contracts and definitions.
"""
import collections
import pathlib
import re
import sys

MODULE = re.compile(r"(\s*)module _ (.*)$")
SIGNATURE = re.compile(r"(\s*)(?:abbrev |unfoldable )*(?:pub )?([^\s(){}.;,:=]+) :(?: (.*))?$")
GOALS = ("Answers.antt", "Invariants.antt", "Proof.antt")


def indent(line):
    return len(line) - len(line.lstrip())


def spelled(words):
    text = re.sub(r"\s+", " ", " ".join(words)).replace("( ", "(").replace(" )", ")").strip()
    return re.sub(r"Rattle\.([a-z_0-9]+)\.(specs|proofs)\.", r"Rattle.\1.", text)


def statements(text):
    """Each name of a file with its statement."""
    lines = re.sub(r"(?m)--.*$", "", text).split("\n")
    modules, at = [], 0
    while at < len(lines):
        line = lines[at]
        if line.strip():
            modules = [it for it in modules if it[0] < indent(line)]
        module, signature = MODULE.match(line), SIGNATURE.match(line)
        at += 1
        end = at
        if module:
            words = [module[2]]
            while not words[-1].endswith(" where"):
                words.append(lines[end].strip())
                end += 1
            modules.append((len(module[1]), spelled(words).removesuffix(" where")))
        elif signature:
            words = [signature[3] or ""]
            while end < len(lines) and lines[end].strip() and indent(lines[end]) > len(signature[1]):
                words.append(lines[end].strip())
                end += 1
            yield signature[2], " → ".join([said for _, said in modules] + [spelled(words)])


def stated(root, folders):
    """Over all crates, what is stated under each name."""
    found = collections.defaultdict(set)
    for folder in folders:
        for path in pathlib.Path(root).glob(f"crates/*/{folder}/**/*.antt"):
            if path.name not in GOALS:
                for name, said in statements(path.read_text(encoding="utf-8")):
                    found[name].add(said)
    return found


def main(old_root, new_root):
    old, new = stated(old_root, ["specs"]), stated(new_root, ["specs", "proofs"])
    other = [(name, said) for name, all_said in sorted(old.items()) for said in sorted(all_said) if said not in new.get(name, ())]
    for name, said in other:
        print(f"{name}\n  was: {said}\n  now: {' | '.join(sorted(new.get(name, ['-'])))}")
    print(f"{sum(map(len, old.values()))} statements, {len(other)} not there word for word")


if __name__ == "__main__":
    main(*sys.argv[1:])
