"""Finds what a reviewer must believe: the definitions that the contracts of the public calls and of the laws come to, name by name.

The public calls are the functions that docs/PROMISES.md names under 'Every call and its definition'; a public function whose contract it names elsewhere, and that is no law and
has no `requires`, is missing there. A law is a function without parameters and code, which is there for its
contract alone; its statement stands in its crate's specs/Laws.antt, but for a demand's, which stands among the definitions, and for a table of cases. From what the clauses
cite, and from the ghost fields of the types that they name, every definition's own text is followed through the imports of its file.

With names it prints how each is come to, a line for each step up to the function; without, the names by file, and which public calls have no contract, which ends with 1.
tools/definitions.py holds docs/ARCHITECTURE.md's lists to this, and each file of definitions: it is come to as a whole or not at all.
"""
import pathlib
import re
import sys

root = pathlib.Path(__file__).resolve().parent.parent
WORD = re.compile(r"[^\s(){}\[\],;:.&«»⌜⌝λ]+")
DECLARED = re.compile(r"(\s*)((?:(?:abbrev|unfoldable|pub) )*)(record |data )?«?([^\s«»]+)»?( :| where| \(| \{|$)")
IMPORT = re.compile(r"\s*(?:ghost |pub )*use ([^{;]+?)(?:(?:\.|::)\{(.*)\})?(?: as (\S+?))?;?$")
SPECS = re.compile(r"Rattle\.(\w+)\.specs\.((?:Cases\.|Theorems\.)?\w+)")
# what a record's field is called says nothing of a definition of that name: where it is read, set and declared
FIELD = re.compile(r"(?<=[\w')\]])\.[\w']+|(?<=[{;])\s*[\w']+ = |^\s+pub [\w']+ :", re.MULTILINE)
# a function with clauses, its body's brace on a line of its own
FUNCTION = re.compile(r"^( *)(?:pub )?(?:extern \"C\" )?fn (\w+)((?:(?!\bfn ).)*?)^\1\{(\}?)$", re.MULTILINE | re.DOTALL)
CLAUSES = re.compile(r"\n\s+(?:requires|ensures)\b.*", re.DOTALL)
# a type, or what is implemented for one, with its lines
TYPE = re.compile(r"^(?:pub )?(?:struct|enum|impl\b[^{\n]*? for) (\w+)[^{;\n]*\{\n(.*?)^\}", re.MULTILINE | re.DOTALL)
CONTRACTS = re.compile(r"contracts? of ((?:`\w+`(?:, and |, | and )?)+) in `(crates/[^`]+\.rt)`")
GHOST = re.compile(r"^ +ghost .*$", re.MULTILINE)


def crates():
    return [line.split(":")[0].split()[0] for line in (root / "crates.txt").read_text().splitlines() if line and not line.startswith("#")]


def is_comment(line):
    return line.lstrip().startswith(("--", "//"))


def module_of(path):
    """A file of specs/ as crate and module."""
    crate, _, *parts = path.relative_to(root / "crates").with_suffix("").parts
    return crate, ".".join(parts)


class Text:
    """A file's definitions, each with its lines, and what its imports call the definitions of other files."""

    def __init__(self, path):
        self.blocks, self.heads, self.owner, self.imports, self.renamed = {}, {}, {}, {}, {}
        # the anonymous modules that a line is in, each with its indentation and parameters
        self.around, block, above = [], None, []
        for line in path.read_text().splitlines():
            found = None if is_comment(line) else IMPORT.fullmatch(line)
            if found:
                self.bring_in(*found.groups())
            elif path.suffix == ".antt" and line.strip():
                above.append(line)
                if not is_comment(line):
                    block = self.begin(line, block)
                    self.blocks.get(block, []).extend(above)
                    above = []

    def bring_in(self, module, names, other):
        specs = SPECS.fullmatch(module)
        if specs and names:
            pairs = [(name.split(" as ")[0].strip(), name.split(" as ")[-1].strip()) for name in names.split(",")]
            self.imports.update({here: ((specs[1], specs[2]), there) for there, here in pairs})
        elif specs:
            self.renamed[other or specs[2].split(".")[-1]] = (specs[1], specs[2])

    def begin(self, line, block):
        """The block that a line is of; a constructor belongs to its type's."""
        indent = len(line) - len(line.lstrip())
        self.around = [(at, head) for at, head in self.around if at < indent]
        if line.lstrip().startswith("module "):
            self.around.append((indent, line))
            return None
        found = DECLARED.match(line)
        named = found and (found[3] or found[5] == " :")
        if named and indent == (self.around[-1][0] + 2 if self.around else 0):
            # a module's parameters are those of what stands in it
            self.heads[found[4]] = [head for _, head in self.around]
            self.blocks[found[4]] = []
            self.owner[found[4]] = found[4]
            return found[4]
        if named and block and any(re.match(r" *(?:abbrev |pub )*data ", other) for other in self.blocks[block]):
            self.owner.setdefault(found[4], block)
        return block

    def cites(self, text, here=None):
        """The definitions that a text of this file cites, as pairs of file and name."""
        # the lines of a `do` are joined by >>=
        text = re.sub(r"(?m) do$", " do >>=", "\n".join(line for line in text.splitlines() if not is_comment(line)))
        for name, module in self.renamed.items():
            yield from ((module, cited) for cited in re.findall(rf"(?<![\w'.]){name}\.([\w']+)", text))
        words = dict.fromkeys(WORD.findall(FIELD.sub(" ", text)))
        operators = [name for name in [*self.owner, *self.imports] if "◌" in name and all(part in words for part in name.split("◌") if part)]
        for word in [*words, *operators]:
            if here and word in self.owner:
                yield here, self.owner[word]
            elif word in self.imports:
                yield self.imports[word]


def functions(path):
    """Each function with clauses: its parameters and results, its clauses, and whether it is a law."""
    text = re.sub(r"(?m)^\s*//.*\n", "", path.read_text())
    for _, name, head, empty in FUNCTION.findall(text):
        clauses = CLAUSES.search(head)
        if clauses:
            yield name, head[:clauses.start()], clauses[0], bool(empty) and head[:clauses.start()] == "()"


def public_calls():
    """The functions that PROMISES names as the calls, as pairs of path and name."""
    section = (root / "docs/PROMISES.md").read_text().split("### Every call and its definition\n")[1].split("\n### ")[0]
    yield from contracts_named(section)
    for paths in re.findall(r"contracts of the functions of ((?:`crates/[^`]+`(?:, )?)+)", section):
        for path in re.findall(r"`(crates/[^`]+)`", paths):
            yield from ((root / path, name) for name, *_ in functions(root / path))


def contracts_named(text):
    """The functions whose contracts a text names, as pairs of path and name."""
    for names, path in CONTRACTS.findall(re.sub(r"\s+", " ", text)):
        yield from ((root / path, name) for name in re.findall(r"`(\w+)`", names))


def calls_left_out():
    """The public functions whose contracts PROMISES names, and not among the calls; a law is none, and one with a `requires` is what a call rests on."""
    for path, name in sorted(set(contracts_named((root / "docs/PROMISES.md").read_text())) - set(public_calls())):
        public = re.search(rf"(?m)^ *pub (?:const )?(?:extern \"C\" )?fn {name}\b", path.read_text())
        clauses = next(((clauses, law) for other, _, clauses, law in functions(path) if other == name), None) if public else None
        if clauses and not clauses[1] and "requires" not in clauses[0]:
            yield f"docs/PROMISES.md names the contract of {name} in {path.relative_to(root)}, and not among the calls"


def sources():
    return [path for crate in crates() for path in sorted((root / "crates" / crate / "src").rglob("*.rt"))]


def ghost_fields():
    """By the name of a type, what its ghost fields and those of its traits cite."""
    cited = {}
    for path in sources():
        for name, lines in TYPE.findall(path.read_text()):
            cited.setdefault(name, []).extend(Text(path).cites("\n".join(GHOST.findall(lines))))
    return {name: pairs for name, pairs in cited.items() if pairs}


def roots(of_types):
    """What the clauses of calls and laws cite, as pairs of a definition and the function that cites it; and the calls that have no clauses."""
    wanted, of_calls, of_laws = set(public_calls()), [], []
    for path in sources():
        for name, signature, clauses, law in functions(path):
            if law or (path, name) in wanted:
                wanted.discard((path, name))
                pairs = [*Text(path).cites(clauses), *(pair for word in WORD.findall(signature) for pair in of_types.get(word, []))]
                (of_laws if law else of_calls).extend((pair, f"{name} in {path.relative_to(root)}") for pair in pairs)
    return of_calls + of_laws, [f"{path.relative_to(root)} has no contract of {name}" for path, name in sorted(wanted)]


def believed():
    """The definitions that calls and laws come to, as pairs of module and name, each with what cites it; which of them only the laws' own statements come to; every
    module's text; and what is missing."""
    texts = {module_of(path): Text(path) for crate in crates() for path in sorted((root / "crates" / crate / "specs").rglob("*.antt"))}
    of_types = ghost_fields()
    cited, missing = roots(of_types)
    missing += calls_left_out()
    found, of_laws_alone = {}, set()
    statements = [pair for pair in cited if pair[0][0][1] == "Laws" or "." in pair[0][0][1]]
    for laws, waiting in ((False, [pair for pair in cited if pair not in statements]), (True, statements)):
        while waiting:
            (module, name), by = waiting.pop(0)
            if module not in texts:
                # the kit's
                continue
            if name not in texts[module].owner:
                missing.append(f"{'/'.join(module)} has no {name}")
                continue
            name = texts[module].owner[name]
            if (module, name) not in found:
                found[module, name] = by
                if laws:
                    of_laws_alone.add((module, name))
                text = "\n".join(texts[module].heads[name] + texts[module].blocks[name])
                pairs = [*texts[module].cites(text, module), *(pair for word in WORD.findall(text) for pair in of_types.get(word, []))]
                waiting += [(pair, (module, name)) for pair in pairs]
    return found, of_laws_alone, texts, missing


def way(found, module, name):
    """The steps by which a definition is come to."""
    yield f"{module[0]}/{module[1]} {name}"
    while isinstance(found[module, name], tuple):
        module, name = found[module, name]
        yield f"  by {module[0]}/{module[1]} {name}"
    yield f"  by the contract of {found[module, name]}"


def main():
    found, _, texts, missing = believed()
    for module, name in found:
        if name in sys.argv[1:]:
            print(*way(found, module, name), sep="\n")
    if sys.argv[1:]:
        return
    for module, text in texts.items():
        names = [name for name in text.blocks if (module, name) in found]
        if names:
            print(f"{module[0]}/{module[1]}: {', '.join(names)}")
    print(*missing, sep="\n")
    sys.exit(1 if missing else 0)


if __name__ == "__main__":
    main()
