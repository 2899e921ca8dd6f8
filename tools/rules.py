"""Checks that each name in docs/RULES.md and docs/PROMISES.md stands in the file that it is said to be in, and that none is missing.

A reference of RULES is `path: name, name`, where a path starts in crates/ or is rust/..; a cell is a dash or references with commas between them, and the
edits have a column of their own. Of PROMISES are checked: `name` in `path`, with names before it; paths that start with crates/; `crate::module::function`;
and any other name with a dash or an underscore: a theorem's, a function's, a crate's or an edit's, in any file. Every must-fail edit stands in one of the two pages
with its crate. A theorem that PROMISES names with its file is held by a contract: it is one of those that the proof of a function without code is to use, by `using(..)` or its Answers,
and an `ensures` of that function states it, by its type's name or word for word up to spaces and the variables' names; of a function's theorems that are stated in other words there are
no more than its other clauses. PROMISES lists every public function with a `requires`, and no other. A heading that a comment or a page cites as document 01's (`Document 01, 'Accept'`, document 01's
'The slip') is one of RULES, and words that are quoted from document 01 come with theirs. Prints what is missing and ends with 1.

With --gaps it prints the rules that have no theorem or row, and those that have no edit.
"""
import functools
import pathlib
import re
import sys

from believed import Text, WORD as WORD_OF_ANTT, is_comment

root = pathlib.Path(__file__).resolve().parent.parent
COLUMNS = ["Rule", "Definition", "Contract", "Theorem or row", "Edit", "Test"]
WORD = r"[\w′·-]+"
REFERENCE = rf"`([\w./-]+): ({WORD}(?:, {WORD})*)`"
CELL = re.compile(rf"{REFERENCE}(?:, {REFERENCE})*")
NAMED_IN = re.compile(r"((?:`[^`]+`(?: \([^()]*\))?(?:, and |, | and )?)+) in `(crates/[^`]+)`")
MODIFIERS = ("abbrev", "unfoldable", "pub")
CITED = re.compile(r"[Dd]ocument 01(?:,|'s(?: \w+)?) ('[^']+'(?:(?:,| and) '[^']+')*)")
QUOTED = re.compile(r'[Dd]ocument 01: "')
SECTION = "## Functions with a `requires`"
# a function without parameters and code, with what its proof is to use
LAW = re.compile(r"^(?:#\[tactic\(auto, using\(([^()]*)\)\)\]\n)?pub fn (\w+)\(\)\n((?:    ensures .*\n)+)\{\}$", re.MULTILINE)
ENSURES = re.compile(r"ensures (?:\w+ )?\{ (.*) \}")
ATOM = r"(?:\([^()]*\)|[^\s()]+)"
# a law whose clauses are of two theorems each
OF_TWO = ("moves_end",)
THEOREMS = re.compile(r"use Rattle\.(\w+)\.((?:specs|proofs)\.Theorems\.\w+)\.\{(.*)\}")
CITING = (".antt", ".rt", ".edit", ".rs", ".h", ".md")


def definitions(text):
    """Each top-level or public name of an .antt file, fields and constructors too, and whether it is a public theorem or function."""
    block = None
    for line in text.splitlines():
        words, indent = line.split(), len(line) - len(line.lstrip())
        if not words or words[0].startswith("--"):
            continue
        if block is not None and indent <= block:
            block = None
        marks = []
        while words and words[0] in MODIFIERS:
            marks.append(words.pop(0))
        kind = words.pop(0) if words and words[0] in ("record", "data") else None
        if not words or (block is None and indent and "pub" not in marks):
            continue
        name = words[0].strip("«»")
        if kind is None and words[1:2] == [":"]:
            yield name, block is None and marks == ["pub"]
        elif kind:
            yield name, False
            block = indent if line.rstrip().endswith("where") else block


def defines(path, name):
    """Whether the file, or a file of the folder, defines the name."""
    if path.name == "must-fail":
        return (path / f"{name}.edit").is_file()
    if path.is_dir():
        return any(defines(file, name) for file in path.iterdir() if file.is_file())
    if path.suffix == ".antt":
        return any(name == defined for defined, _ in definitions(path.read_text()))
    if path.suffix in (".rt", ".rs"):
        return re.search(rf"\b(?:fn|const|struct|enum) {name}\b", path.read_text()) is not None
    return False


def located(path):
    return root / path if path.startswith("rust/") else root / "crates" / path


def rules(failures):
    """Each rule with its cells, and each cell's references as a list of path and name."""
    for at, line in enumerate((root / "docs/RULES.md").read_text().splitlines(), 1):
        if not line.startswith("|"):
            continue
        cells = [cell.strip() for cell in line.strip("|").split(" | ")]
        if cells == COLUMNS or set(line) <= set("|-"):
            continue
        bad = [cell for cell in cells[1:] if cell != "-" and not CELL.fullmatch(cell)]
        if len(cells) != len(COLUMNS) or bad:
            failures.append(f"docs/RULES.md:{at}: not {len(COLUMNS)} cells of references: {bad or len(cells)}")
            continue
        yield at, cells[0], [[(path, name) for path, names in re.findall(REFERENCE, cell) for name in names.split(", ")] for cell in cells[1:]]


def check_rules(failures, cited):
    """Holds each reference of RULES against its file; the rules, for their gaps."""
    found = list(rules(failures))
    for at, _, cells in found:
        for column, references in zip(COLUMNS[1:], cells):
            for path, name in references:
                cited.add((path.split("/")[0], name) if path.endswith("/must-fail") else name)
                if path.endswith("/must-fail") != (column == "Edit"):
                    failures.append(f"docs/RULES.md:{at}: {path} is not for the column {column}")
                elif not located(path).exists():
                    failures.append(f"docs/RULES.md:{at}: there is no {path}")
                elif not defines(located(path), name):
                    failures.append(f"docs/RULES.md:{at}: {path} has no {name}")
    return found


def function_stands(name):
    """Whether crate::function, crate::module or crate::module::function stands."""
    crate, first, *rest = name.split("::")
    source = root / "crates" / crate / "src"
    module = source / f"{first}.rt"
    if module.is_file():
        return not rest or defines(module, rest[0])
    return not rest and any(defines(file, first) for file in (source / "lib.rt", source / "main.rt") if file.is_file())


def check_promises(failures, cited, everywhere):
    """Holds what is regular in PROMISES against the files."""
    text = re.sub(r"\s+", " ", (root / "docs/PROMISES.md").read_text())
    checked = 0
    for names, path in NAMED_IN.findall(text):
        for name in re.findall(rf"`({WORD})`", names):
            checked += 1
            if path.endswith("/must-fail"):
                cited.add((path.split("/")[1], name))
            if (root / path).exists() and not defines(root / path, name):
                failures.append(f"docs/PROMISES.md: {path} has no {name}")
    for span in re.findall(r"`([^`]+)`", text):
        cited.add(span)
        if span.startswith("crates/") and not (root / span).exists():
            failures.append(f"docs/PROMISES.md: there is no {span}")
        elif re.fullmatch(r"\w+(?:::\w+)+", span) and not function_stands(span):
            failures.append(f"docs/PROMISES.md: there is no {span}")
        elif re.fullmatch(r"[A-Za-z][a-z0-9]*(?:[-_][\w\']+)+", span) and span not in everywhere:
            failures.append(f"docs/PROMISES.md: no file has {span}")
    return checked


def premises(words):
    """What a statement takes, each with its name or "", and at last what it says."""
    while True:
        words = re.sub(r"^[\s→]+", "", words)
        depth, ends = 0, []
        for at, letter in enumerate(words):
            depth += {"(": 1, "{": 1, ")": -1, "}": -1}.get(letter, 0)
            ends += [at] if not depth and letter in ")}→" else []
        named = re.fullmatch(r"((?:[^\s(){}:]+ )+): (.*)", words[1 : ends[0]], re.DOTALL) if ends and words[0] in "({" else None
        arrow = next((at for at in ends if words[at] == "→"), None)
        if named:
            yield from ((name, named[2]) for name in named[1].split())
            words = words[ends[0] + 1 :]
        elif arrow is not None:
            yield "", words[:arrow]
            words = words[arrow:]
        else:
            yield "", words
            return


def form_of(words):
    """A statement without what it may say in other words: its spaces, its variables' names, names that it doesn't use, and how a list's element is called."""
    words = re.sub(r"\bget_or(?= )", "slice_index_or", re.sub(rf"\bget_or ({ATOM}) ({ATOM}) 0\b", r"slice_index \1 \2", words))
    parts, said, names = list(premises(words)), [], {}
    for at, (name, part) in enumerate(parts):
        told = re.sub(WORD_OF_ANTT, lambda word: names.get(word[0], word[0]), part)
        said.append(re.sub(r"\s+", "", told))
        if any(name in re.findall(WORD_OF_ANTT, later) for _, later in parts[at + 1 :]):
            names[name] = f"x{at}"
            said[-1] = f"x{at}:{said[-1]}"
        else:
            names.pop(name, None)
    return "→".join(part[1:-1] if re.fullmatch(r"\([^()]*\)", part) else part for part in said)


def signature(text, name):
    """The type of a name of an .antt file, with what the modules around it take."""
    first, *rest = [line for line in text.blocks[name] if not is_comment(line)]
    indent = re.match(" *", first)[0]
    later = [line for line in rest if not line.startswith(indent + " ")][:1]
    own = "\n".join([re.split(r" :(?: |$)", first, maxsplit=1)[1], *(rest[: rest.index(later[0])] if later else rest)])
    taken = [re.sub(r"^ *module \S+|where$", "", head).strip() for head in text.heads[name]]
    return " → ".join([*(words for words in taken if words), own])


def value(text, name):
    """What a name without arguments of an .antt file is."""
    found = re.search(rf"(?m)^{name} =((?:.*\n(?= ))*.*)", "\n".join(line for line in text.blocks[name] if not is_comment(line)))
    return found[1] if found else ""


def forms(words, texts):
    """A statement's form, and where it is a name that of its value in each file that has it."""
    words = words.strip()
    values = [value(text, words) for text in texts if words in text.blocks]
    return {form_of(one) for one in [words, *values] if one}


def theorems_of(source, function, using):
    """The theorems that a law's proof is to use, as their files and names."""
    crate = source.parts[-3]
    for *path, name in (lemma.strip().split("::") for lemma in using.split(",") if lemma.strip()):
        yield f"crates/{'/'.join([crate if path[0] == 'crate' else path[0], *path[1:]])}.antt", name
    answers = source.parent.parent / "proofs" / function / "Answers.antt"
    for owner, module, names in THEOREMS.findall(answers.read_text()) if answers.is_file() else []:
        yield from ((f"crates/{owner}/{module.replace('.', '/')}.antt", name) for name in names.split(", "))


def held_theorems():
    """Each theorem that a function without code states, as its file and name, and how many of them word for word. Of those that its clauses say in other words
    there may be no more than clauses that are none of the others'."""
    held, in_words = set(), 0
    read = functools.cache(Text)
    laws = [read(path) for path in sorted((root / "crates").glob("*/specs/**/*.antt"))]
    for source in sorted((root / "crates").glob("*/src/*.rt")):
        for using, function, clauses in LAW.findall(source.read_text()):
            theorems = dict.fromkeys(theorems_of(source, function, using))
            clauses = [forms(clause, laws) for clause in ENSURES.findall(clauses)]
            stated = {}
            for file, name in theorems:
                said = forms(signature(read(root / file), name), laws)
                stated.update({(file, name): at for at, clause in enumerate(clauses) if said & clause and at not in stated.values()})
            others = [theorem for theorem in theorems if theorem not in stated]
            left = (len(clauses) - len(stated)) * (2 if function in OF_TWO else 1)
            held |= set(stated) | (set(others) if len(others) <= left else set())
            in_words += len(stated)
    return held, in_words


def check_held(failures):
    """Holds each theorem that PROMISES names with its file against the contracts of functions without code; how many it names."""
    text = re.sub(r"\s+", " ", (root / "docs/PROMISES.md").read_text())
    (held, in_words), named = held_theorems(), set()
    for names, path in NAMED_IN.findall(text):
        if "/Theorems/" in path and (root / path).is_file():
            theorems = {name for name, theorem in definitions((root / path).read_text()) if theorem}
            named |= {(path, name) for name in re.findall(rf"`({WORD})`", names) if name in theorems}
    failures += [f"docs/PROMISES.md: no contract holds {name} of {path}" for path, name in sorted(named - held)]
    return len(named), in_words


def requiring(source):
    """The public functions of an .rt file that have a `requires`, those of a public trait among them."""
    lines, trait = source.read_text().splitlines(), False
    for at, line in enumerate(lines):
        trait = line.startswith("pub trait ") or (trait and not line.startswith("}"))
        found = re.match(r"( *)(pub )?(?:const )?fn (\w+)", line)
        if found and (found[2] or trait):
            end = next(to for to in range(at, len(lines)) if lines[to] in (found[1] + "{", found[1] + "{}") or lines[to].endswith((" {", " {}", ";")))
            if any(clause.lstrip().startswith("requires ") for clause in lines[at:end]):
                yield found[3]


def check_requires(failures):
    """Holds PROMISES' list of functions with a `requires` to the code."""
    section = (root / "docs/PROMISES.md").read_text().split(SECTION)[1]
    listed = set()
    for cell in re.findall(r"(?m)^\| (`.*?) \| ", section):
        placed = re.match(r"(.*) in `(crates/\S+)`", cell)
        crate = None
        for span in re.findall(r"`([^`]+)`", placed[1] if placed else cell):
            parts = span.split("::")
            crate = placed[2].split("/")[1] if placed else parts[0] if parts[1:] else crate
            listed.add((crate, parts[-1]))
    there = {(source.parts[-3], name) for source in (root / "crates").glob("*/src/*.rt") for name in requiring(source)}
    failures += [f"docs/PROMISES.md doesn't list {name} of {crate}, which has a `requires`" for crate, name in sorted(there - listed)]
    failures += [f"docs/PROMISES.md lists {name} of {crate}, which has no `requires`" for crate, name in sorted(listed - there)]


def sources():
    """Every .antt and .rt file of the crates, without its comments."""
    files = [file for file in (root / "crates").rglob("*") if file.suffix in (".antt", ".rt") and "out" not in file.parts]
    return {file: re.sub(r"(?m)^\s*(?:--|//).*$", "", file.read_text()) for file in files}


def check_headings(failures):
    """Holds each heading that is cited as document 01's against those of RULES; how many are cited."""
    headings = set(re.findall(r"(?m)^#+ (.+)$", (root / "docs/RULES.md").read_text()))
    cited = 0
    for file in sorted(file for folder in ("crates", "include", "rust", "docs") for file in (root / folder).rglob("*") if file.suffix in CITING):
        text = re.sub(r"\s*\n\s*(?:--|//[/!]?|\*)?\s*", " ", file.read_text())
        names = [name for span in CITED.findall(text) for name in re.findall(r"'([^']+)'", span)]
        cited += len(names)
        failures += [f"{file.relative_to(root)}: document 01's '{name}' is no heading of docs/RULES.md" for name in names if name not in headings]
        failures += [f"{file.relative_to(root)}: a quotation of document 01 without its heading"] * len(QUOTED.findall(text))
    return cited


def print_gaps(found):
    for column in ("Theorem or row", "Edit"):
        print(f"No {column.lower()}:")
        for at, rule, cells in found:
            if not cells[COLUMNS.index(column) - 1]:
                print(f"  {at}: {rule}")


def main():
    failures, cited = [], set()
    texts = sources()
    everywhere = {name for file, text in texts.items() if file.suffix == ".antt" for name, _ in definitions(text)}
    everywhere |= {name for file, text in texts.items() if file.suffix == ".rt" for name in re.findall(r"\bfn (\w+)", text)}
    everywhere |= {path.name for path in (root / "crates").iterdir()} | {edit.stem for edit in (root / "crates").glob("*/must-fail/*.edit")}
    found = check_rules(failures, cited)
    promised = check_promises(failures, cited, everywhere)
    theorems, in_words = check_held(failures)
    check_requires(failures)
    headings = check_headings(failures)
    edits = sorted((root / "crates").glob("*/must-fail/*.edit"))
    failures += [f"{edit.relative_to(root)}: on neither page" for edit in edits if (edit.parts[-3], edit.stem) not in cited]
    if "--gaps" in sys.argv[1:]:
        print_gaps(found)
    for failure in failures:
        print(failure)
    if failures or not found:
        sys.exit(1)
    print(f"docs/RULES.md: {len(found)} rules; docs/PROMISES.md: {promised} names with their files, {theorems} theorems of them; laws state {in_words} theorems word for word; {len(edits)} edits; {headings} headings of document 01 cited")


main()
