"""Holds every crate's specs/ and the theorems in its proofs/ to one shape, and names and imports to their use.

specs/X.antt has definitions alone, specs/Cases/ computed tables, specs/Theorems/ theorems, each with what only they need; theorems, and the proofs of cases, may
stand in proofs/Theorems/ and proofs/Cases/ instead. specs/Laws.antt has the statements that functions without code have as their contracts. Checked:

- no definition file has a theorem, and none cites a case or a theorem;
- a contract cites definition files alone; that of a function without parameters and code also cites statements of its own crate's cases;
- no definition file and no contract imports a proof, but for `Option` and `sets`, definitions that std has among its proofs; an impl's ghost members may, since
  they prove the laws of its trait;
- of proofs, a file of Cases or Theorems imports std's, another crate's Theorems and Cases, and in proofs/ also its own crate's; a crate's theorems stand in one folder;
- every top-level name is used somewhere or stands in docs/RULES.md or docs/PROMISES.md, and every import stands where it says and is used;
- the public calls and the laws come to a file of definitions as a whole or not at all (tools/believed.py), and every statement of Laws is a law's.

Prints what fails and ends with 1. docs/ARCHITECTURE.md has the lists that --list prints, with their lines without imports: the definition files that the public
calls and the demands come to, in reading order; the laws' statements, the definitions that these come to besides, and their tables of cases; and then the other
definition files.
"""
import re
import sys

from believed import DECLARED, IMPORT, SPECS, WORD, Text, believed, crates, is_comment, root

# at most so many lines: of the definitions that calls and demands come to, of the laws' statements, and of the definitions that only these come to
MOST_LINES = {"believed": 4800, "laws": 1250, "beyond": 1300}
# definitions of a file that calls and laws come to and that neither comes to, as file and names, each with why they stand there all the same
BESIDE = {
    # what `tagged::find::part` requires of a place: `IsPart` is of the same places
    "tagged/Parts": {"PlaceWithin"},
}
# in code a word also ends at the brackets of a type's parameters, and at what stands before a value
CODE_WORD = re.compile(r"[^\s(){}\[\],;:.&«»⌜⌝λ<>!*|?]+")
# the prover's own questions: it uses what a file of this name declares with such a type
ANSWERED = ("Answers.antt", "Invariants.antt")
GOAL = re.compile(r"\s*(?:(?:pub|abbrev) )*(\S+) : goal\.\S+$")
# traits that a .rt file brings in for their methods
TRAITS = ("std::io::Read", "std::io::Write", "std::convert::AsSlice", "numbers::big_endian::BigEndian")
# definitions that std has among its proofs
STD_DEFINITIONS = {"Rattle.std.proofs.Math.Option": {"Option", "none", "some"}, "Rattle.std.proofs.lemmas.List.Edits": {"sets"}}
PROOFS = re.compile(r"Rattle\.(\w+)\.proofs\.(\w+).*")
# a function without parameters and code, with its contract
LAW = re.compile(r"^pub fn \w+\(\)\n((?:    ensures .*\n)+)\{\}$", re.MULTILINE)
# a ghost member of an impl
MEMBER = re.compile(r"\s+ghost \w+ = \{")


def code(path):
    """The lines of a file that are neither comments nor imports, and its imports as (module, names)."""
    lines, imports = [], []
    for line in path.read_text().splitlines():
        found = None if is_comment(line) else IMPORT.fullmatch(line)
        if found:
            names = [name.split(" as ")[-1].strip() for name in found[2].split(",")] if found[2] else [found[3] or re.split(r"\.|::", found[1])[-1]]
            imports.append((found[1], names, line.lstrip().startswith("pub")))
        elif not is_comment(line):
            lines.append(line)
    return lines, imports


def declared(lines):
    """Each top-level name of an .antt file, also of its anonymous modules, and whether it is a definition."""
    modules, record = [], None
    for line in lines:
        indent = len(line) - len(line.lstrip())
        if not line.strip() or (record is not None and indent > record):
            continue
        record = None
        modules = [at for at in modules if at < indent]
        if line.lstrip().startswith("module "):
            modules.append(indent)
            continue
        found = DECLARED.match(line)
        if not found or indent != (modules[-1] + 2 if modules else 0) or not (found[3] or found[5] == " :"):
            continue
        record = indent if found[3] else None
        yield found[4], bool(found[3]) or "abbrev" in found[2] or "unfoldable" in found[2]


def stands_in(name, words, text):
    """Whether the code has the name; of an operator, whether it has each part."""
    parts = [part for part in name.split("◌") if part]
    return all(part in words or (not part[0].isalnum() and part in text) for part in parts)


def definition_files():
    for crate in crates():
        for path in sorted((root / "crates" / crate / "specs").glob("*.antt")):
            if path.stem not in ("Lib", "Cases", "Theorems"):
                yield f"{crate}/{path.stem}", path


def statements(crate, module):
    """The definitions of a file of Cases or Theorems."""
    path = (root / "crates" / crate / "specs" / module.replace(".", "/")).with_suffix(".antt")
    return {name for name, definition in declared(code(path)[0]) if definition}


def may_cite(path, module, names, definitions):
    """Whether a definition file or a contract may import these names of a module."""
    if PROOFS.match(module):
        lines = code(path)[0]
        members = "\n".join(line for line in lines if MEMBER.match(line))
        in_members = {name for name in names if path.suffix == ".rt" and WORD.findall("\n".join(lines)).count(name) == WORD.findall(members).count(name)}
        return bool(names) and set(names) <= STD_DEFINITIONS.get(module, set()) | in_members
    found = SPECS.fullmatch(module)
    if not found or not found[2].startswith(("Cases.", "Theorems.")):
        return True
    own = path.relative_to(root / "crates").parts[0] == found[1] and set(names) <= statements(found[1], found[2])
    if path in definitions.values():
        return False
    text = "\n".join(code(path)[0])
    clauses = "".join(LAW.findall(text))
    return own and found[2].startswith("Cases.") and all(WORD.findall(text).count(name) == WORD.findall(clauses).count(name) for name in names)


def check_shape(failures, definitions):
    """Definition files have definitions alone, they and the contracts cite no other, and theorems and cases rest on theorems and cases."""
    for name, path in definitions.items():
        failures += [f"{name}: {theorem} is not a definition" for theorem, definition in declared(code(path)[0]) if not definition]
    for path in [*definitions.values(), *(root / "crates").glob("*/src/*.rt")]:
        failures += [f"{path.relative_to(root)} cites {module}" for module, names, _ in code(path)[1] if not may_cite(path, module, names, definitions)]
    for crate in crates():
        folder = root / "crates" / crate
        if (folder / "specs/Theorems").is_dir() and (folder / "proofs/Theorems").is_dir():
            failures.append(f"crates/{crate} has theorems in specs/ and in proofs/")
        for path in sorted(path for part in ("specs", "proofs") for kind in ("Cases", "Theorems") for path in (folder / part / kind).rglob("*.antt")):
            for module, _, _ in code(path)[1]:
                found = PROOFS.match(module)
                in_specs = path.relative_to(folder).parts[0] == "specs"
                if found and found[1] != "std" and (found[2] not in ("Cases", "Theorems") or (in_specs and found[1] == crate)):
                    failures.append(f"{path.relative_to(root)} imports {module}")


def check_uses(failures, texts):
    """Every import of a file stands where it says and is used in it, and every top-level name of a hand-written file somewhere."""
    used, named = {}, {}
    for path in sorted((root / "crates").rglob("*")):
        if path.suffix not in (".antt", ".rt") or "out" in path.parts:
            continue
        lines, imports = code(path)
        # the lines of a `do` are joined by >>=
        text = re.sub(r"(?m) do$", " do >>=", "\n".join(lines))
        words = set((CODE_WORD if path.suffix == ".rt" else WORD).findall(text))
        failures += [f"{path.relative_to(root)}: {'/'.join(module)} has no {name}" for module, name in Text(path).imports.values()
                     if module in texts and name not in texts[module].owner]
        for module, names, passed_on in imports:
            failures += [f"{path.relative_to(root)} imports {name} and doesn't use it" for name in names
                         if not passed_on and module not in TRAITS and name != "*" and not stands_in(name, words, text)]
        indents = {found[4]: len(found[1]) for found in map(DECLARED.match, lines) if found and found[5] == " :"}
        for line in lines:
            first = re.match(r"(\s*)(?:(?:abbrev|unfoldable|pub) )*(\S*)", line)
            own = first[2] if indents.get(first[2]) == len(first[1]) and re.search(r" [:=]( |$)", line) else None
            used.update((word, True) for word in set(WORD.findall(line)) - {own})
        if path.suffix == ".antt":
            asked = {found[1] for found in map(GOAL.match, lines) if found} if path.name in ANSWERED else set()
            named.update({(path, name): name for name, _ in declared(lines) if name not in asked})
    cited = (root / "docs/RULES.md").read_text() + (root / "docs/PROMISES.md").read_text()
    for (path, _), name in named.items():
        if name not in used and not re.search(rf"(?<![\w′·-]){re.escape(name)}(?![\w′·-])", cited):
            failures.append(f"{path.relative_to(root)}: nothing cites {name}")


def check_believed(failures, found, texts):
    """Calls and laws come to a file of definitions as a whole or not at all, every law's statement is held, and no law cites what stands beside theorems."""
    for module in {module for module, _ in found}:
        others = {name for name in texts[module].blocks if (module, name) not in found}
        file = "/".join(module)
        if module[1] == "Laws":
            failures += [f"{file}: no function has {name} as its contract" for name in sorted(others)]
        elif "." not in module[1]:
            failures += [f"{file}: no call and no law comes to {name}" for name in sorted(others - BESIDE.get(file, set()))]
            failures += [f"{file}: a call or a law comes to {name}, which is no exception" for name in sorted(BESIDE.get(file, set()) - others)]
        elif module[1].startswith("Theorems."):
            failures += [f"{file}: a law cites {name}" for name in texts[module].blocks if (module, name) in found]


def in_reading_order(names, definitions):
    """Crate by crate, in a crate each file after those that it cites."""
    order = []

    def put(name):
        if name in order:
            return
        for module, _, _ in code(definitions[name])[1]:
            cited = SPECS.fullmatch(module)
            if cited and f"{cited[1]}/{cited[2]}" in names:
                put(f"{cited[1]}/{cited[2]}")
        order.append(name)

    for name in sorted(names, key=lambda name: (crates().index(name.split("/")[0]), name)):
        put(name)
    return order


def listing(definitions, found, of_laws_alone, texts):
    """The lists as lines of Markdown, a line for each crate, and how many lines each comes to; of cases those that the laws hold."""
    come_to = {"/".join(module) for module, _ in found} & set(definitions)
    laws = {name for name in definitions if name.endswith("/Laws")}
    beyond = come_to - laws - {"/".join(module) for module, _ in set(found) - of_laws_alone}
    cases = {}
    for module, name in found:
        if module[1].startswith("Cases."):
            key = "/".join(module).replace("Cases.", "")
            cases[key] = cases.get(key, 0) + len(texts[module].blocks[name])
    lines, total = [], {}
    for title, names in (("believed", come_to - laws - beyond), ("laws", laws), ("beyond", beyond), ("cases", cases), ("inner", set(definitions) - come_to - laws)):
        length = {name: sum(not IMPORT.fullmatch(line) or is_comment(line) for line in definitions[name].read_text().splitlines()) for name in names if title != "cases"} or cases
        total[title] = sum(length.values())
        by_crate = {}
        for name in in_reading_order(names, definitions) if title != "cases" else cases:
            by_crate.setdefault(name.split("/")[0], []).append(f"{name.split('/')[1]} {length[name]}")
        lines.append((title, [f"| `{crate}` | {', '.join(files)} |" for crate, files in sorted(by_crate.items(), key=lambda row: crates().index(row[0]))]))
    return lines, total


def main():
    definitions = dict(definition_files())
    found, of_laws_alone, texts, failures = believed()
    lists, total = listing(definitions, found, of_laws_alone, texts)
    if "--list" in sys.argv:
        for title, rows in lists:
            print(f"{title}: {total[title]} lines", *rows, sep="\n")
        return
    check_shape(failures, definitions)
    check_uses(failures, texts)
    check_believed(failures, found, texts)
    page = (root / "docs/ARCHITECTURE.md").read_text()
    for title, rows in lists:
        failures += [f"docs/ARCHITECTURE.md has no line {row}" for row in rows if row not in page]
    for title, most in MOST_LINES.items():
        if f"{total[title]:,} lines" not in page or total[title] > most:
            failures.append(f"docs/ARCHITECTURE.md: {title} has {total[title]:,} lines, at most {most:,} are meant")
    print(*failures, sep="\n")
    print(f"definitions: {len(definitions)} files, {total['believed']} lines to believe, {total['laws']} of laws and {total['beyond']} beyond, {len(failures)} failures")
    sys.exit(1 if failures else 0)


main()
