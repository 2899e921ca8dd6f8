#!/usr/bin/env python3
"""mutants.py [CRATE ..] [--jobs N] [--resume] [--list] [--table]: alters the definitions one place at a time, and says which alterations no literal case refuses.

A rule that is wrong in code and definition alike passes every proof; only a literal case or a theorem stands against it. So this takes the functions, the proofs
and the edits away: on a copy in a temporary folder it makes one crate of the types, the definitions and the literal cases of all crates, and alters one
definition at a time there. An alteration (a mutant) is one of: a comparison's direction or strictness, a number one more or less, a letter, a name, a field, a
constant or a constructor taken for its neighbour of the same type, arguments or branches exchanged, an element, a summand, a conjunct, a branch or a line of a `do` left out, a list without its
first or its last element or with its first alone, a sum capped at 16 or 32 bits, a recursion that ends after the first element, a test or a limit
that counts for one class alone.

Of each mutant the copies of what rests on the altered file stand in a folder of their own, so that one `rt check` judges many. Where a case of its own crate
holds no more, the mutant is refused; where the prover can't read it (a type or a name is wrong), it is unreadable; where the check comes to a limit of the prover, it is
told so. What survives its own crate's cases goes to those of every crate above. What survives those too is explained (a line of tools/mutants_explained.txt says why it
says the same), or is of a file that only proofs use (the last table of docs/ARCHITECTURE.md, 'The other definition files'), or is a survivor: it wants a case.
Not altered are propositions: records, data and definitions of a type, which no case computes.

Results stand in target/mutants/CRATE.json. With --resume a mutant is tried again only where what was read of it has changed: its definitions, for one that was
refused the lines of the file of the case that refused it (more lines don't count), for one that survived any case. --list prints the crates with their mutants by kind, and what of them isn't read and so not altered, and tries none, --table the results so far as rows of docs/MUTANTS.md.
With no name it takes every crate, in the order of crates.txt. Ends with 1 where a mutant survives, and where a line of tools/mutants_explained.txt is of no mutant.
"""
import argparse
import collections
import concurrent.futures
import datetime
import hashlib
import json
import os
import pathlib
import re
import shutil
import signal
import subprocess
import sys
import tempfile
import threading

root = pathlib.Path(__file__).resolve().parent.parent
EXPLAINED = root / "tools/mutants_explained.txt"
RESULTS = root / "target/mutants"
# the crate of the copy; the folder of the changed copies of mutant n in it is m{n}
TRIAL = "trial"
# how many modules one check holds at most beside those that no mutant changes, and how long it may take of a processor, and in all where others have that
MOST_MODULES = 400
SECONDS = 420
SECONDS_IN_ALL = 3600
# cases that take seconds each: they are tried where the lighter ones of the crate hold
HEAVY = (("ledger", "Cases.Sound", "full_cases_hold"), ("event_file", "Cases.EventFile", "longest_event_walks"))
NOT_DEFINITIONS = ("Lib", "Laws", "Cases", "Theorems")
# refused and unreadable by the cases of its own crate or of one above; the others have passed them all
REFUSED, ABOVE, UNREADABLE, LIMIT, EXPLAINED_AS, PROOFS_ALONE, SURVIVES = "refused", "refused above", "unreadable", "at a limit", "explained", "proofs alone", "survives"

# ---- the words of a definition

TOKEN = re.compile(r"""(?P<space>\s+|(?<![^\s(){}.;,"])--[^\n]*)|(?P<string>"(?:[^"\\]|\\.)*")|(?P<word>\[\]|&&|[^\s(){}\[\],;:.&«»⌜⌝λ"]+)|(?P<mark>.)""", re.S)
# how tightly an infix binds; the ones to the right of which the same may stand
BINDS = {"→": 0, "×": 1, "≡": 2, "≤": 2, "<": 2, "||": 3, "&&": 4, "==": 5, "∷": 6, "++": 6, "+": 7, "-": 7, "+ℤ": 7, "-ℤ": 7, "*": 8, "/": 8, "%": 8, "*ℤ": 8, "^": 9}
TO_THE_RIGHT = ("→", "×", "||", "&&", "∷", "++", "^")
# what an argument can't be, and what begins an expression that is the last argument
ENDS = (")", ",", ";", "}", "in", "=", "then", "else", "where", "")
BEGINS = ("λ", "let", "if", "do")
MODIFIERS = r"(?:(?:abbrev|unfoldable|pub) )*"
# how tightly an operator binds, in the line before its own
BINDING = r"infix[lr]? \d+ (\S+)$"
SIGNATURE = re.compile(rf"^{MODIFIERS}([^\s(){{}}.;,:=]+) : ", re.M)
MODULE = re.compile(r"\bRattle\.(\w+)\.specs\.(declared\.)?((?:Cases\.|ProvedCases\.)?\w+)")
IMPORT = re.compile(r"^(?:pub )?use ([\w.]+?)(?:\.\{([^}]*)\})?(?: as (\w+))?$", re.M)

# a token; its column where it is the first of a line, else None
Token = collections.namedtuple("Token", "kind text start end after_space column")
# an expression: its kind, where it stands in the file, and what it is made of
Node = collections.namedtuple("Node", "kind start end parts")


def tokens_of(text, start, end):
    found, after_space = [], False
    for token in TOKEN.finditer(text, start, end):
        if token.lastgroup == "space":
            after_space = True
            continue
        before = text[text.rfind("\n", 0, token.start()) + 1 : token.start()]
        found.append(Token(token.lastgroup, token[0], token.start(), token.end(), after_space, None if before.strip() else len(before)))
        after_space = False
    return found


class Unread(Exception):
    """What this reader of expressions doesn't know."""


class Reader:
    """Reads an expression of antt's into nodes: only what the definitions use of it."""

    def __init__(self, tokens):
        self.tokens, self.at = tokens, 0

    def peek(self):
        return self.tokens[self.at] if self.at < len(self.tokens) else Token("end", "", 0, 0, True, None)

    def take(self, text=None):
        token = self.peek()
        if token.kind == "end" or (text and token.text != text):
            raise Unread(f"{text} for {token.text}")
        self.at += 1
        return token

    def whole(self):
        node = self.expression()
        if self.peek().kind != "end":
            raise Unread(self.peek().text)
        return node

    def expression(self, binds=0):
        first = self.peek()
        if first.text == "λ":
            self.take()
            names = []
            while self.peek().text != ".":
                names.append(self.take().text)
            self.take(".")
            body = self.expression()
            return Node("lambda", first.start, body.end, (tuple(names), body))
        if first.text == "let":
            self.take()
            name = self.take().text
            self.take("=")
            value = self.expression()
            self.take("in")
            body = self.expression()
            return Node("let", first.start, body.end, (name, value, body))
        if first.text == "if":
            parts = []
            for word in ("if", "then", "else"):
                self.take(word)
                parts.append(self.expression())
            return Node("if", first.start, parts[-1].end, tuple(parts))
        if first.text == "do":
            return self.lines(self.take().start)
        left = self.application()
        while self.peek().text in BINDS and BINDS[self.peek().text] >= binds:
            infix = self.take()
            right = self.expression(BINDS[infix.text] + (infix.text not in TO_THE_RIGHT))
            left = Node("infix", left.start, right.end, (infix, left, right))
        return left

    def application(self):
        head, arguments = self.atom(), []
        while self.peek().text not in BINDS and self.peek().text not in ENDS and self.peek().kind != "end":
            if self.peek().text == "{":
                self.skip_braces()
            elif self.peek().text in BEGINS:
                arguments.append(self.expression())
            else:
                arguments.append(self.atom())
        return Node("call", head.start, arguments[-1].end, (head, tuple(arguments))) if arguments else head

    def lines(self, start):
        """The lines of a `do`, each with the name that it binds, if any; a line that stands further in goes on with the one above."""
        column, lines = self.peek().column, []
        while column is not None and self.peek().column == column:
            first = self.peek()
            at = next((at for at in range(self.at + 1, len(self.tokens)) if self.tokens[at].column is not None and self.tokens[at].column <= column), len(self.tokens))
            inner = Reader(self.tokens[self.at : at])
            name = inner.take().text if inner.tokens[1:2] and inner.tokens[1].text == "←" else ""
            if name:
                inner.take("←")
            value = inner.expression()
            self.at += inner.at
            lines.append(Node("line", first.start, value.end, (name, value)))
        if not lines:
            raise Unread("do")
        return Node("do", start, lines[-1].end, tuple(lines))

    def skip_braces(self):
        depth = 0
        while True:
            depth += {"{": 1, "}": -1}.get(self.take().text, 0)
            if not depth:
                return

    def atom(self):
        token = self.take()
        if token.text == "(":
            items = [self.expression()]
            while self.peek().text == ",":
                self.take()
                if self.peek().text != ")":
                    items.append(self.expression())
            end = self.take(")").end
            node = Node("brackets", token.start, end, (items[0],)) if len(items) == 1 else Node("tuple", token.start, end, tuple(items))
        elif token.text == "record":
            # a record as it was, but for these fields
            fields = [] if self.peek().text == "{" else [("", self.atom())]
            self.take("{")
            while self.peek().text != "}":
                name = self.take().text
                self.take("=")
                fields.append((name, self.expression()))
                if self.peek().text == ";":
                    self.take()
            node = Node("record", token.start, self.take("}").end, tuple(fields))
        elif token.kind == "string":
            node = Node("string", token.start, token.end, (token.text,))
        elif token.kind == "word":
            node = Node("number" if token.text.isdigit() else "name", token.start, token.end, (token.text,))
        else:
            raise Unread(token.text)
        while self.peek().text == "." and not self.peek().after_space:
            self.take()
            field = self.take()
            node = Node("field", node.start, field.end, (node, field.text))
        return node


def top_arrows(words):
    """The parts of a type between its outermost arrows, without those in braces."""
    parts, depth, last = [], 0, 0
    for at, letter in enumerate(words):
        depth += {"(": 1, "{": 1, ")": -1, "}": -1}.get(letter, 0)
        if letter == "→" and not depth:
            parts.append(words[last:at])
            last = at + 1
    parts = [re.sub(r"\s+", " ", part).strip() for part in [*parts, words[last:]]]
    return [part for part in parts if not part.startswith("{")]


def bare(kind):
    """A type without brackets around it, and without a name before it."""
    kind = re.sub(r"\s+", " ", kind or "").strip()
    while kind.startswith("(") and kind.endswith(")") and all(kind[: at + 1].count("(") > kind[: at + 1].count(")") for at in range(len(kind) - 1)):
        kind = re.sub(r"^[^\s:]+ : ", "", kind[1:-1].strip())
    return kind


# a declaration of a file: the names that it declares, and where its text starts
Block = collections.namedtuple("Block", "names start text")
WORD = re.compile(r"[^\s(){}\[\],;:.&«»⌜⌝λ\"]+")
COMMENT = re.compile(r"(?m)(?<![^\s(){}.;,])--.*$")


def blocks_of(text):
    """The declarations of a file in order, each with its clauses; a module is one declaration."""
    starts, name, binding = [], None, False
    for line in re.finditer(r"(?m)^(?!use |pub use |--|unfolding )(\S.*)$", text):
        found = re.match(rf"{BINDING}|{MODIFIERS}(?:record |data )?([^\s(){{}}.;,:]+)", line[1])
        signs = re.match(rf"{MODIFIERS}\S+ : ", line[1])
        # a clause of an operator has its sign between the arguments
        of_operator = name and "◌" in name and not signs and all(part in WORD.findall(line[1]) for part in name.split("◌") if part)
        if found and not of_operator and (found[1] or found[2] != name or (signs and not binding)):
            name = found[1] or found[2]
            starts.append((line.start(), name))
        binding = bool(found and found[1])
    for (start, name), (end, _) in zip(starts, [*starts[1:], (len(text), "")]):
        block = text[start:end]
        inside = re.findall(r"(?m)^  ([^\s(){}.;,:=]+) : ", block) if re.match(r"(?:pub )?data ", block) else []
        yield Block((name, *inside), start, block)


def words_of(text):
    """The words of a text, an operator also by its full name; the lines of a `do` are joined by one."""
    words = set(WORD.findall(COMMENT.sub("", text))) | {mark for mark in ("[]", "&&") if mark in text}
    words |= {">>="} if "do" in words else set()
    return words | {f"◌{word}◌" for word in words if not word[0].isalnum()}


# a clause: its patterns, where its value stands, and the definitions of its `where`
Clause = collections.namedtuple("Clause", "patterns start end inner")
Definition = collections.namedtuple("Definition", "name types clauses")


def definitions_of(text):
    """Each definition of a file that is no proposition: its name, the types of its arguments and of its value, and its clauses."""
    starts = [found for found in SIGNATURE.finditer(text)]
    ends = [found.start() for found in re.finditer(r"^\S", text, re.M)] + [len(text)]
    for found in starts:
        name, lines = found[1], [end for end in ends if end > found.start()]
        types = top_arrows(re.sub(r"(?m)--.*$", "", text[found.end() : lines[0]]))
        if not re.match(rf"^{MODIFIERS}", found[0])[0].strip() or bare(types[-1]).startswith("Type"):
            continue
        clauses = list(clauses_of(text, name, lines))
        if clauses:
            yield Definition(name, types, clauses)


def clauses_of(text, name, lines):
    """The clauses of a definition, which these places begin one after the other, up to the first that is none of its."""
    for start, end in zip(lines, lines[1:]):
        line = text[start:end]
        if re.match(r"\s*(?:unfolding|--)", line):
            continue
        if not line.lstrip().startswith(name + " "):
            break
        where = re.search(r"^ *where\n", line, re.M)
        tokens = tokens_of(text, start, start + where.start() if where else end)
        equals = next((at for at, token in enumerate(tokens) if token.text == "="), None)
        if equals is None:
            break
        inner = tuple(inner_definitions(text, start + where.end(), end)) if where else ()
        yield Clause(tuple(tokens[1:equals]), tokens[equals].end, tokens[-1].end, inner)


def inner_definitions(text, start, end):
    """The definitions of a `where`."""
    indent = re.match(r" *", text[start:end])[0]
    lines = [start + found.start() for found in re.finditer(rf"^{indent}(?=\S)", text[start:end], re.M)] + [end]
    for at, place in enumerate(lines):
        found = re.match(r" *(\S+) : (.*)\n", text[place:end])
        if found:
            yield Definition(found[1], top_arrows(found[2]), list(clauses_of(text, found[1], lines[at + 1 :])))


# a comparison of two numbers, and the same of the other strictness
COMPARISONS = {"leb": "ltb", "ltb": "leb", "nat_le": "nat_lt", "nat_lt": "nat_le", "eqb": None}


# ---- the crates

class Sources:
    """The definitions and the literal cases of every crate, by crate and module, and the Rust types that they cite."""

    def __init__(self):
        listed = [line for line in (root / "crates.txt").read_text().splitlines() if line and not line.startswith("#")]
        self.crates = [line.split(":")[0].split()[0] for line in listed]
        self.texts, self.left_out = {}, []
        for crate in self.crates:
            folder = root / "crates" / crate
            for path in sorted((folder / "specs").glob("*.antt")):
                if path.stem not in NOT_DEFINITIONS:
                    self.texts[crate, path.stem] = path.read_text()
            for part, kind in (("specs", "Cases"), ("proofs", "ProvedCases")):
                for path in sorted((folder / part / "Cases").rglob("*.antt")):
                    self.texts[crate, f"{kind}.{path.stem}"] = path.read_text().replace(".proofs.Cases.", ".specs.ProvedCases.")
        # cases that rest on theorems are no part of the copy, nor is what rests on those
        while True:
            without = [key for key, text in self.texts.items() if not self.stands_alone(text)]
            if not without:
                break
            for key in without:
                self.left_out.append(key)
                del self.texts[key]
        self.link()
        self.rust()
        self.kinds()

    def link(self):
        """Which declarations use which: a declaration is a file and a place in the list of the file's declarations."""
        self.blocks = {key: list(blocks_of(text)) for key, text in self.texts.items()}
        self.own = {key: {name: at for at, block in enumerate(blocks) for name in block.names} for key, blocks in self.blocks.items()}
        self.imports = {key: list(imports_of(text)) for key, text in self.texts.items()}
        self.words = {(key, at): words_of(block.text) for key, blocks in self.blocks.items() for at, block in enumerate(blocks)}
        self.uses, self.users = collections.defaultdict(set), collections.defaultdict(set)
        for key, blocks in self.blocks.items():
            brought = {}
            for module, names in self.imports[key]:
                other = self.file_of(module)
                for name, alias in names if other else ():
                    brought[alias] = {(other, self.own[other][name])} if name in self.own[other] else {(other, at) for at in range(len(self.blocks[other]))}
            for at in range(len(blocks)):
                for word in self.words[key, at]:
                    self.uses[key, at] |= brought.get(word, set()) | ({(key, self.own[key][word])} if word in self.own[key] else set())
                self.uses[key, at].discard((key, at))
                for used in self.uses[key, at]:
                    self.users[used].add((key, at))

    def brought(self, key):
        """What a file imports of definitions and cases: the file, the name, and what it is called here."""
        for module, names in self.imports[key]:
            other = self.file_of(module)
            if other:
                yield from ((other, name, alias) for name, alias in names)

    def file_of(self, module):
        """The file of definitions or cases that a module's name is of, if it is one."""
        found = MODULE.fullmatch(module)
        key = (found[1], found[3]) if found and not found[2] else None
        return key if key in self.texts else None

    def stands_alone(self, text):
        for crate, part, module in re.findall(r"\bRattle\.(\w+)\.(specs|proofs)\.((?:Cases\.|ProvedCases\.|Theorems\.)?\w+)", text):
            if crate in self.crates and module != "declared" and (part == "proofs" or (crate, module) not in self.texts):
                return False
        return True

    def rust(self):
        """The structs and enums that definitions cite, with the types and constants that these are made of, by their paths."""
        items, brought = {}, {}
        for crate in self.crates:
            source = root / "crates" / crate / "src"
            for path in sorted(source.rglob("*.rt")):
                module = (crate,) if path.stem in ("lib", "main") else (crate, *path.relative_to(source).with_suffix("").parts)
                text = path.read_text()
                brought[module] = {}
                for found in re.finditer(r"^(?:pub )?use ([\w:]+?)(?:::\{([^}]*)\})?;", text, re.M):
                    steps = [crate if step == "crate" else step for step in found[1].split("::")]
                    names = [name.strip() for name in found[2].split(",") if name.strip()] if found[2] else [steps.pop()]
                    brought[module].update({name: tuple(steps) for name in names})
                for found in re.finditer(r"^(?:pub )?(?:(?:struct|enum) (\w+)[^\n]*?(?:;$|\{$.*?^\})|(?:const|type) (\w+).*?;$)", text, re.M | re.S):
                    items[(*module, found[1] or found[2])] = found[0]
        wanted = [(crate, *path.split(".")) for text in self.texts.values()
                  for crate, path in re.findall(r"\bRattle\.(\w+)\.specs\.declared\.([\w.]+?)(?:\.TheVariants)?\.\{", text)]
        self.items, self.needs = {}, collections.defaultdict(set)
        while wanted:
            path = wanted.pop()
            if path in self.items:
                continue
            self.items[path] = items[path]
            for word in set(re.findall(r"\w+", re.sub(r"//.*", "", items[path]))) - {path[-1]}:
                for other in ((*path[:-1], word), (*brought[path[:-1]].get(word, ()), word)):
                    if other in items:
                        wanted.append(other)
                        if other[:-1] != path[:-1]:
                            self.needs[path[:-1]].add(other)

    def kinds(self):
        """The fields of records and structs with their types, the types of definitions and constructors, and types that are another name for one."""
        self.fields, self.types, self.same, self.values = {}, {}, {}, collections.defaultdict(list)
        self.places = {}
        for (crate, module), text in self.texts.items():
            for found in re.finditer(r"^(?:pub )?record (\w+).*?where\n((?:  .*\n|\n)*)", text, re.M):
                self.fields[found[1]] = dict(re.findall(r"^  (?:pub )?(\w+) : (.*)$", found[2], re.M))
            for found in re.finditer(r"^(?:pub )?data (\w+).*?where\n((?:  .*\n|\n)*)", text, re.M):
                for name, kind in re.findall(r"^  (\w+) : (.*)$", found[2], re.M):
                    self.types[name] = top_arrows(kind)
                    if len(self.types[name]) == 1:
                        self.values[found[1]].append(name)
            for found in re.finditer(rf"^{MODIFIERS}(\w+) : Type 0\n\1 = (.*)$", text, re.M):
                self.same[found[1]] = found[2]
            for definition in definitions_of(text):
                self.types[crate, module, definition.name] = definition.types
                self.places[crate, module, definition.name] = definition
        for path, text in self.items.items():
            self.rust_kinds(path[-1], re.sub(r"//.*", "", text))
        self.types.update({"true": ["Bool"], "false": ["Bool"], "length": ["List A", "ℕ"], "pos": ["ℕ", "ℤ"], "suc": ["ℕ", "ℕ"], "min": ["ℕ", "ℕ", "ℕ"],
                           "not": ["Bool", "Bool"], "slice_index": ["List ℕ", "ℕ", "ℕ"], **{name: ["ℕ", "ℕ", "Bool"] for name in COMPARISONS}})
        self.values["Bool"] = ["true", "false"]

    def rust_kinds(self, name, text):
        if " struct " in f" {text}":
            self.fields[name] = {field: self.of_rust(kind) for field, kind in re.findall(r"^    (?:pub )?(\w+): (.*),$", text, re.M)}
        elif " enum " in f" {text}":
            for variant, holds in re.findall(r"^    (\w+)(?:\((\w+)\))?,$", text, re.M):
                self.types[variant] = [self.of_rust(holds), name] if holds else [name]
                if not holds:
                    self.values[name].append(variant)
        elif " type " in f" {text}":
            self.same[name] = self.of_rust(text.split("=")[1].strip(" ;\n"))

    def of_rust(self, kind):
        if kind in ("u8", "u16", "u32", "u64", "usize"):
            return "ℕ"
        if kind in ("i64", "bool"):
            return {"i64": "ℤ", "bool": "Bool"}[kind]
        found = re.fullmatch(r"\[(.*); \w+\]", kind)
        if found:
            return f"List ({self.of_rust(found[1])})"
        found = re.fullmatch(r"(\w+)<(.*)>", kind)
        return f"{found[1]} ({self.of_rust(found[2])})" if found and "," not in found[2] else kind

    def above(self, block, crate=None):
        """The declarations that rest on this one, it among them, of one crate alone where it is named; those alone that a case comes to."""
        changed, cases = reached({block}, lambda it: {user for user in self.users[it] if crate in (None, user[0][0])}), set()
        for key, at in changed:
            heavy = crate and (*key, self.blocks[key][at].names[0]) in HEAVY
            if is_case(key[1]) and is_theorem(self.blocks[key][at].text) and not heavy:
                cases.add((key, at))
        return (reached(cases, self.uses.__getitem__) & changed) | {block}

    def block_at(self, mutant):
        key = (mutant.crate, mutant.module)
        return key, max(at for at, block in enumerate(self.blocks[key]) if block.start <= mutant.start)


def reached(first, following):
    found, open_ones = set(), list(first)
    while open_ones:
        one = open_ones.pop()
        if one not in found:
            found.add(one)
            open_ones += following(one)
    return found


def imports_of(text):
    """The imports of a file: a module's name, and each name that it brings with what it is called here."""
    for found in IMPORT.finditer(text):
        names = [name.strip().split(" as ") for name in (found[2] or "").split(",")] if found[2] else [[found[1].split(".")[-1], found[3] or found[1].split(".")[-1]]]
        yield found[1], [(name[0].strip(), name[-1].strip()) for name in names]


def is_theorem(text):
    return not re.match(r"(?:infix.*\n)?(?:pub )?(?:abbrev|unfoldable|record|data|module) ", text)


def is_case(module):
    return "Cases." in module


# ---- the mutants

Mutant = collections.namedtuple("Mutant", "name crate module kind start end text")
# a list's element at a place
AT_A_PLACE = ("get_or", "slice_index", "slice_index_or")
# helps that a changed text may name
HELPS = """use Rattle.std.specs.Prelude.{ℕ, ◌-◌, List, length, take, drop, cond, leb}

abbrev pub without_first : {A : Type 0} → List A → List A
without_first elements = drop 1 elements

abbrev pub without_last : {A : Type 0} → List A → List A
without_last elements = take (length elements - 1) elements

abbrev pub first_alone : {A : Type 0} → List A → List A
first_alone elements = take 1 elements

abbrev pub at_most : ℕ → ℕ → ℕ
at_most highest n = cond (leb n highest) n highest
"""
HELP_NAMES = ("without_first", "without_last", "first_alone", "at_most")
PRELUDE_NAMES = ("leb", "ltb", "eqb", "nat_le", "nat_lt", "cond", "true", "false")


class Maker:
    """Makes the mutants of one definition."""

    def __init__(self, sources, key, definition):
        self.sources, self.key, self.text, self.definition = sources, key, sources.texts[key], definition
        self.found, self.seen, self.one_place = [], collections.Counter(), False
        # what the rest of an empty list is, and the clauses that the reader doesn't know
        self.base, self.unread = None, []
        # the types of the names that the file has, of its own, of its imports and of constructors
        self.types = {name: types for name, types in sources.types.items() if isinstance(name, str)}
        self.constructors = set(self.types)
        for other, name, alias in [*((key, name, name) for name in sources.own[key]), *sources.brought(key)]:
            if (*other, name) in sources.types:
                self.types[alias] = sources.types[(*other, name)]
        self.constants = self.constants_in_scope()

    def constants_in_scope(self):
        """The names without arguments of the file, and those that one `use` line brings in, in order."""
        groups = [[definition.name for definition in definitions_of(self.text)]]
        for found in IMPORT.finditer(self.text):
            groups.append([name.split(" as ")[0].strip() for name in (found[2] or "").split(",")])
        return [[name for name in group if len(self.types.get(name, ())) == 1] for group in groups]

    def said(self, node):
        return self.text[node.start : node.end]

    def add(self, kind, node, text, brackets=True):
        if text == self.said(node):
            return
        short = lambda words: re.sub(r"\s+", " ", words)
        name = f"{self.key[0]}/{self.key[1]} {self.definition.name}: {kind}: {short(self.said(node))} => {short(text)}"
        self.seen[name] += 1
        if self.seen[name] > 1:
            name += f" ({self.seen[name]})"
        self.found.append(Mutant(name, *self.key, kind, node.start, node.end, f"({text})" if brackets else text))

    # types

    def resolved(self, kind):
        kind = bare(kind)
        while kind in self.sources.same:
            kind = bare(self.sources.same[kind])
        return kind

    def type_of(self, node, scope):
        """The type of an expression where it can be told, else ''."""
        kind, parts = node.kind, node.parts
        if kind == "number":
            return "ℕ"
        if kind == "brackets":
            return self.type_of(parts[0], scope)
        if kind == "name":
            if parts[0] in scope:
                return self.resolved(scope[parts[0]])
            types = self.types.get(parts[0], ())
            return self.resolved(types[0]) if len(types) == 1 else ""
        if kind == "field":
            fields = self.fields_of(parts[0], scope)
            return self.resolved(fields.get(parts[1], ""))
        if kind == "call" and parts[0].kind == "name":
            head = parts[0].parts[0]
            if head == "cond" and len(parts[1]) == 3:
                return self.type_of(parts[1][1], scope) or self.type_of(parts[1][2], scope)
            if head in ("is_some", "is_ok"):
                return "Bool"
            if head in ("take", "drop", "map", "replicate"):
                return self.type_of(parts[1][1], scope) if head in ("take", "drop") else "List A"
            types = self.types.get(head, ())
            return self.resolved(types[-1]) if len(types) == len(parts[1]) + 1 else ""
        if kind == "infix":
            if parts[0].text in ("+", "-", "*", "/", "%", "^"):
                return "ℕ"
            if parts[0].text in ("∷", "++"):
                return self.type_of(parts[2], scope) or "List A"
            return {"&&": "Bool", "||": "Bool", "==": "Bool", "+ℤ": "ℤ", "-ℤ": "ℤ", "*ℤ": "ℤ"}.get(parts[0].text, "")
        if kind == "if":
            return self.type_of(parts[1], scope) or self.type_of(parts[2], scope)
        if kind == "let":
            return self.type_of(parts[2], {**scope, parts[0]: self.type_of(parts[1], scope)})
        return ""

    def fields_of(self, node, scope):
        return self.sources.fields.get(self.type_of(node, scope), {})

    def bound(self, patterns, types):
        """The variables of a clause's patterns with their types."""
        scope, reader = {}, Reader(list(patterns))
        for kind in types[:-1]:
            try:
                if reader.peek().kind != "end":
                    self.bind(reader.atom(), kind, scope)
            except Unread:
                break
        return scope

    def bind(self, pattern, kind, scope):
        kind = self.resolved(kind)
        if pattern.kind == "brackets":
            self.bind(pattern.parts[0], kind, scope)
        elif pattern.kind == "tuple":
            for part, each in zip(pattern.parts, re.split(r" × ", kind)):
                self.bind(part, each, scope)
        elif pattern.kind == "infix" and pattern.parts[0].text == "∷":
            self.bind(pattern.parts[1], kind.removeprefix("List "), scope)
            self.bind(pattern.parts[2], kind, scope)
        elif pattern.kind == "call":
            head = pattern.parts[0].parts[0]
            types = {"suc": ["ℕ"], "pos": ["ℕ"], "negsuc": ["ℕ"], "Some": [kind.removeprefix("Option ")]}.get(head) or self.types.get(head, [""])[:-1]
            for part, each in zip(pattern.parts[1], types or [""]):
                self.bind(part, each, scope)
        elif pattern.kind == "name" and pattern.parts[0] not in self.constructors and pattern.parts[0] not in ("[]", "_", "zero", "None", "none"):
            scope[pattern.parts[0]] = kind

    # what is altered

    def mutants(self):
        self.clauses(self.definition, {})
        return self.found

    def clauses(self, definition, scope):
        for clause in definition.clauses:
            inside = {**scope, **self.bound(clause.patterns, definition.types)}
            try:
                node = Reader(tokens_of(self.text, clause.start, clause.end)).whole()
                if any(token.text in ("[]", "zero") for token in clause.patterns):
                    self.base = self.base or self.said(node)
                self.walk(node, inside)
            except Unread as unread:
                self.unread.append(f"{'/'.join(self.key)} {definition.name}: {unread}")
            for inner in clause.inner:
                self.clauses(inner, inside)

    def walk(self, node, scope):
        kind, parts = node.kind, node.parts
        if kind == "number":
            number = int(parts[0])
            self.add("number", node, str(number + 1))
            if number:
                self.add("number", node, str(number - 1))
            if "class" in scope and number > 9:
                self.one_class(node, parts[0], str(number // 10))
        elif kind == "string":
            letters = parts[0]
            if len(letters) > 2:
                self.add("letter", node, letters[:-2] + chr(ord(letters[-2]) ^ 1) + '"')
        elif kind == "name":
            self.name(node, scope)
        elif kind == "field":
            self.neighbours("field", node, [name for name, other in self.fields_of(parts[0], scope).items()
                                            if self.resolved(other) == self.type_of(node, scope)], parts[1], f"{self.said(parts[0])}.")
            self.lists(node, scope)
            if parts[0].kind != "name":
                self.walk(parts[0], scope)
        elif kind == "brackets":
            self.walk(parts[0], scope)
        elif kind == "tuple":
            for part in parts:
                self.walk(part, scope)
        elif kind == "record":
            for _, part in parts:
                self.walk(part, scope)
        elif kind == "lambda":
            self.walk(parts[1], {**{name: scope_type for name, scope_type in scope.items()}, **{name: self.guess(name) for name in parts[0]}})
        elif kind == "let":
            self.walk(parts[1], scope)
            self.walk(parts[2], {**scope, parts[0]: self.type_of(parts[1], scope)})
        elif kind == "if":
            test, one, other = map(self.said, parts)
            self.branches(node, f"if {test} then {other} else {one}", one, other)
            for part in parts:
                self.walk(part, scope)
        elif kind == "do":
            self.lines(node, scope)
        elif kind == "call":
            self.call(node, scope)
        elif kind == "infix":
            self.infix(node, scope)

    def branches(self, node, exchanged, one, other):
        self.add("exchange", node, exchanged)
        self.add("left out", node, one)
        self.add("left out", node, other)

    def lines(self, node, scope):
        """The lines of a `do`: one that binds no name that is used is left out; two of which the second doesn't use the first's are exchanged."""
        lines = node.parts
        for at, line in enumerate(lines[:-1]):
            name, after = line.parts[0], lines[at + 1]
            if not any(name in words_of(self.said(later)) for later in lines[at + 1 :]):
                self.add("left out", Node("line", line.start, after.start, ()), "", False)
            if after is not lines[-1] and name not in words_of(self.said(after)):
                between = self.text[line.end : after.start]
                self.add("exchange", Node("line", line.start, after.end, ()), f"{self.said(after)}{between}{self.said(line)}", False)
        scope = dict(scope)
        for line in lines:
            name, value = line.parts
            self.walk(value, scope)
            found = re.fullmatch(r"Result (\w+|\(.*\)) \S+", self.type_of(value, scope))
            scope.update({name: self.resolved(found[1]) if found else ""} if name else {})

    def guess(self, name):
        """The type of a lambda's variable, by the names that definitions give such values."""
        return {"row": "SchemeParticulars", "e": "Entering", "p": "Payment", "bill": "Bill", "party": "Party", "credit": "Credit", "f": "FieldAt", "scheme": "Scheme",
                "request": "Request", "book": "Book", "zone": "ℕ", "len": "ℕ", "n": "ℕ", "byte": "ℕ"}.get(name, "")

    def neighbours(self, kind, node, names, name, before=""):
        if name in names:
            at = names.index(name)
            for other in (names[at - 1] if at else None, names[at + 1] if at + 1 < len(names) else None):
                if other:
                    self.add(kind, node, before + other)

    def name(self, node, scope):
        name = node.parts[0]
        if name in scope:
            if scope[name]:
                self.neighbours("name", node, [other for other in scope if self.resolved(scope[other]) == self.resolved(scope[name])], name)
            self.lists(node, scope)
        elif name == "[]":
            return
        else:
            own = self.type_of(node, scope)
            if own in self.sources.values:
                self.neighbours("constructor", node, self.sources.values[own], name)
            elif own:
                for group in self.constants:
                    self.neighbours("constant", node, [other for other in group if self.resolved(self.types[other][0]) == own], name)
                if own == "ℕ" and "class" in scope:
                    self.one_class(node, name, "1")
                self.lists(node, scope)

    def one_class(self, node, limit, other):
        for one in "012":
            self.add("one class", node, f"cond (eqb class {one}) {limit} {other}")

    def lists(self, node, scope):
        if self.type_of(node, scope).startswith("List") and not self.one_place:
            for help_name in HELP_NAMES[:3]:
                self.add("list", node, f"{help_name} {self.said(node)}")

    def call(self, node, scope):
        head, arguments = node.parts
        name = head.parts[0] if head.kind == "name" else ""
        said = [self.said(argument) for argument in arguments]
        if COMPARISONS.get(name) and len(arguments) == 2:
            self.add("strictness", node, f"{COMPARISONS[name]} {said[0]} {said[1]}")
            self.add("direction", node, f"{name} {said[1]} {said[0]}")
        elif name == "eqb" and len(arguments) == 2:
            self.equality(node, "leb", said)
        elif name == "cond" and len(arguments) == 3:
            self.branches(node, f"cond {said[0]} {said[2]} {said[1]}", said[1], said[2])
        elif name == "min" and len(arguments) == 2:
            self.add("left out", node, said[0])
            self.add("left out", node, said[1])
        elif name == "not" and len(arguments) == 1:
            self.add("left out", node, said[0])
        elif name == self.definition.name and self.base:
            self.add("recursion", node, self.base)
        elif name:
            types = self.types.get(name, ())
            for at in range(len(arguments) - 1):
                if len(types) > at + 1 and self.resolved(types[at]) == self.resolved(types[at + 1]) and said[at] != said[at + 1]:
                    self.add("exchange", node, " ".join([name, *said[:at], said[at + 1], said[at], *said[at + 2 :]]))
        self.test_of_one_class(node, scope)
        for at, argument in enumerate(arguments):
            # of such a list one place counts, which is altered as a number, and what it gives past the end is no rule's
            if name in AT_A_PLACE and at == 2:
                break
            self.one_place = name in AT_A_PLACE and at == 0
            if argument.kind == "brackets" and argument.parts[0].kind == "call":
                self.lists(argument, scope)
            self.walk(argument, scope)
            self.one_place = False

    def equality(self, node, at_most, sides):
        """An equality as an order; with 0 on the greater side both say the same."""
        for one, other in (sides, sides[::-1]):
            if other != "0":
                self.add("strictness", node, f"{at_most} {one} {other}")

    def test_of_one_class(self, node, scope):
        if self.type_of(node, scope) == "Bool" and "class" in scope:
            for one in "012":
                self.add("one class", node, f"cond (eqb class {one}) ({self.said(node)}) true")

    def infix(self, node, scope):
        infix, left, right = node.parts
        said, other = self.said(left), self.said(right)
        if infix.text == "==":
            self.equality(node, "nat_le", [self.bracketed(left), self.bracketed(right)])
        self.test_of_one_class(node, scope)
        if infix.text in ("+", "++", "&&", "||", "-", "+ℤ", "-ℤ"):
            self.add("left out", node, said)
            if infix.text not in ("-", "-ℤ"):
                self.add("left out", node, other)
        if infix.text in ("*", "/", "%", "*ℤ"):
            self.add("left out", node, said)
        if infix.text in ("+", "*") and "number" not in (left.kind, right.kind):
            for bits in (16, 32):
                self.add("width", node, f"at_most {2 ** bits - 1} ({self.said(node)})")
        if infix.text in ("-", "-ℤ", "++", "/", "%"):
            self.add("exchange", node, f"{self.bracketed(right)} {infix.text} {self.bracketed(left)}")
        if infix.text == "∷":
            self.add("left out", node, other)
            if right.kind == "infix" and right.parts[0].text == "∷" and said != self.said(right.parts[1]) and self.type_of(left, scope) != "Bool":
                self.add("exchange", node, f"{self.said(right.parts[1])} ∷ {said} ∷ {self.said(right.parts[2])}")
            if self.recurs(right):
                self.add("recursion", right, "[]")
        self.walk(left, scope)
        self.walk(right, scope)

    def recurs(self, node):
        return node.kind == "call" and node.parts[0].kind == "name" and node.parts[0].parts[0] == self.definition.name

    def bracketed(self, node):
        return f"({self.said(node)})" if node.kind in ("infix", "call", "lambda", "let", "if", "do") else self.said(node)


def made(sources, crate):
    """The mutants of a crate, and what the reader doesn't know: clauses, and definitions of which it finds none."""
    found, unread = [], []
    for (of, module), text in sources.texts.items():
        if of == crate and not is_case(module):
            definitions = list(definitions_of(text))
            for definition in definitions:
                maker = Maker(sources, (of, module), definition)
                found += maker.mutants()
                unread += maker.unread
            known = {definition.name for definition in definitions}
            unread += [f"{of}/{module} {block.names[0]}" for block in sources.blocks[of, module] if defines(block.text) and block.names[0] not in known]
    return found, unread


def defines(block):
    """Whether a declaration is a definition that is no proposition."""
    found = re.search(rf"^{MODIFIERS}\S+ : ((?:.*\n(?=\s))*.*)", block, re.M)
    return bool(found) and not is_theorem(block) and not bare(top_arrows(re.sub(r"--.*", "", found[1]))[-1]).startswith("Type")


def altered(block, mutant):
    """A declaration's text with the mutant in it."""
    return block.text[: mutant.start - block.start] + mutant.text + block.text[mutant.end - block.start :]


# ---- the copy

def place_of(key, folder=""):
    """The name of a file's module in the copy."""
    return f"Rattle.{TRIAL}.specs.{folder}{key[0]}.{key[1]}"


def renamed(text, crates):
    """A text in the copy: its modules are those of the one crate."""
    return MODULE.sub(lambda found: f"Rattle.{TRIAL}.specs.{found[2] or ''}{found[1]}.{found[3]}" if found[1] in crates else found[0], text)


def public(block):
    """A declaration made public, since copies of a part of a file name the rest of it."""
    found = re.match(r"(infix.*\n)?(abbrev |unfoldable )?(pub |module )?", block)
    return block if found[3] else f"{found[1] or ''}{found[2] or ''}pub {block[found.end():]}"


def write_modules(folder, texts):
    """Writes antt files by their paths of module names, with the files that declare them."""
    names = collections.defaultdict(set)
    for path, text in texts.items():
        for at in range(len(path)):
            names[path[:at]].add(path[at])
        place = folder.joinpath(*path).with_suffix(".antt")
        place.parent.mkdir(parents=True, exist_ok=True)
        place.write_text(text)
    for path, inside in names.items():
        place = folder.joinpath(*path).with_suffix(".antt") if path else folder / "Lib.antt"
        place.write_text("".join(f"pub mod {name}\n" for name in sorted(inside)))


class Copy:
    """A folder with the one crate, for the checks of one job, one after the other."""

    def __init__(self, sources, folder):
        self.sources, self.folder = sources, folder / "crates" / TRIAL
        self.write_types()
        (folder / "crates.txt").write_text(f"{TRIAL}:\n")

    def write_types(self):
        modules, inside = collections.defaultdict(list), collections.defaultdict(set)
        for path, text in self.sources.items.items():
            modules[path[:-1]].append(text if text.startswith("pub") else f"pub {text}")
        for path in modules:
            for at in range(len(path)):
                inside[path[:at]].add(path[at])
        for path in set(modules) | set(inside):
            lines = [f"pub mod {name};" for name in sorted(inside[path])]
            lines += [f"use crate::{'::'.join(other)};" for other in sorted(self.sources.needs[path])]
            place = self.folder / "src" / ("lib.rt" if not path else "/".join(path) + ".rt")
            place.parent.mkdir(parents=True, exist_ok=True)
            place.write_text("\n".join([*([] if path else ["#![tactic(auto)]"]), *lines, *modules[path]]) + "\n")

    def prime(self):
        """Checks the copy as it stands, without which no judgement would say anything; what is kept of it serves the later checks."""
        shutil.rmtree(self.folder / "specs", ignore_errors=True)
        write_modules(self.folder / "specs", {("Helps",): HELPS, **{(key[0], *key[1].split(".")): self.file(key) for key in self.sources.texts}})
        self.judged([])
        if "\nlogic=proved" not in self.said:
            sys.exit(f"the copy isn't proved as it stands:\n{self.said}")

    def file(self, key):
        text, blocks = self.sources.texts[key], self.sources.blocks[key]
        return renamed(text[: blocks[0].start] + "".join(public(block.text) for block in blocks), self.sources.crates)

    def check(self, batch, own):
        """What becomes of each mutant of a batch, by the cases of its own crate or of all; None where the check ends without saying so."""
        texts, needed = {("Helps",): HELPS}, set()
        for at, mutant in enumerate(batch):
            block = self.sources.block_at(mutant)
            changed = self.sources.above(block, mutant.crate if own else None)
            for key in {key for key, _ in changed}:
                texts[(f"m{at}", key[0], *key[1].split("."))], others = self.part(key, changed, f"m{at}.", {block: mutant})
                needed |= others
        files = reached(needed, lambda key: {used for at in range(len(self.sources.blocks[key])) for used, _ in self.sources.uses[key, at]})
        texts.update({(key[0], *key[1].split(".")): self.file(key) for key in files})
        shutil.rmtree(self.folder / "specs", ignore_errors=True)
        write_modules(self.folder / "specs", texts)
        return self.judged(batch)

    def part(self, key, changed, folder, mutants):
        """The text of a file's changed declarations, with what they import from other such and from files as they stand; and those files."""
        sources = self.sources
        here = [at for of, at in sorted(changed) if of == key]
        texts = [altered(sources.blocks[key][at], mutants[key, at]) if (key, at) in mutants else sources.blocks[key][at].text for at in here]
        words = set().union(*(words_of(text) for text in texts))
        lines, others, brought = [], set(), set()
        for module, names in sources.imports[key]:
            other = sources.file_of(module)
            for name, alias in names:
                if alias not in words and not any(part in words for part in alias.split("◌") if part):
                    continue
                brought.add(alias)
                said = name if name == alias else f"{name} as {alias}"
                if other is None:
                    lines.append(f"use {renamed(module, sources.crates)}.{{{said}}}")
                elif (other, sources.own[other][name]) in changed:
                    lines.append(f"use {place_of(other, folder)}.{{{said}}}")
                else:
                    others.add(other)
                    lines.append(f"use {place_of(other)}.{{{said}}}")
        rest = sorted(name for name, at in sources.own[key].items() if name in words - brought and at not in here)
        if rest:
            others.add(key)
            lines.append(f"use {place_of(key)}.{{{', '.join(rest)}}}")
        names = brought | set(sources.own[key])
        lacking = [name for name in PRELUDE_NAMES if name in words and name not in names]
        lines += [f"use Rattle.std.specs.Prelude.{{{', '.join(lacking)}}}"] if lacking else []
        helps = [name for name in HELP_NAMES if name in words]
        lines += [f"use Rattle.{TRIAL}.specs.Helps.{{{', '.join(helps)}}}"] if helps else []
        return "\n".join([*lines, "", *map(public, texts)]), others

    def judged(self, batch):
        words = ["bash", "-c", f"ulimit -t {SECONDS}; exec rt check --jobs 1"]
        ran = subprocess.Popen(words, cwd=self.folder, stdin=subprocess.DEVNULL, stdout=subprocess.PIPE, stderr=subprocess.STDOUT, errors="replace", start_new_session=True)
        try:
            said = ran.communicate(timeout=SECONDS_IN_ALL)[0]
        except subprocess.TimeoutExpired:
            os.killpg(ran.pid, signal.SIGKILL)
            ran.wait()
            return None
        self.said = said
        if not re.search(r"^(logic=|rattle: no verdict)", said, re.M) or ran.returncode not in (0, 1, 3):
            return None
        elsewhere = re.search(r"^(?!\./specs/m\d+/).*\berror(?:\[.*\])?: .*", said, re.M)
        if elsewhere and batch:
            raise Unread(f"an error that is no mutant's: {elsewhere[0]}")
        return [judgement(self.errors(said, f"m{at}")) for at in range(len(batch))]

    def errors(self, said, folder):
        """The places and words of the errors in this folder, without those that only follow from others."""
        found = re.findall(rf"^(?:note: )?\./specs/{folder}/(\w+)/([\w/]+)\.antt:\d+:\d+: error: ((?:.*\n)(?:  .*\n)*)", said, re.M)
        return [(crate, module, words) for crate, module, words in found if not re.match(r"\d+ declarations? that depends? on", words)]


def judgement(errors):
    """What the errors of one mutant come to, and where: a case that doesn't hold is one whose two sides differ."""
    unread = [error for error in errors if "Cases/" not in error[1]]
    if unread:
        limit = "ran out of" in unread[0][2]
        return (LIMIT if limit else UNREADABLE), unread[0][2].split("\n")[0][:160]
    false = [error for error in errors if re.match(r"`[^`]*`: ", error[2]) and re.search(r"differ|expected type", error[2])]
    if false:
        return REFUSED, f"{false[0][0]}/{false[0][1].split('/')[-1]} {re.match(r'`([^`]*)`', false[0][2])[1]}"
    if errors:
        return (LIMIT if "ran out of" in errors[0][2] else UNREADABLE), errors[0][2].split("\n")[0][:160]
    return SURVIVES, ""


# ---- trying them

def explanations():
    """The lines of tools/mutants_explained.txt: a mutant's name, or its beginning and *, and why it says the same."""
    found = []
    if EXPLAINED.is_file():
        for line in EXPLAINED.read_text().splitlines():
            if line.strip() and not line.startswith("#"):
                name, _, why = line.partition(" -- ")
                found.append((name.strip(), why.strip()))
    return found


def is_of(line, name):
    """Whether a line of the explanations is of this mutant."""
    return name == line or (line.endswith("*") and name.startswith(line[:-1]))


def explained(name, found):
    """Why a mutant that no case refuses is none to be refused, or None."""
    return next((why for line, why in found if is_of(line, name)), None)


def lacking_mutants(crates, names):
    """Prints the explanations of these crates, or of crates that there are none of, that are of no mutant; how many."""
    lines = [line for line, _ in explanations() if line.split("/")[0] in crates and not any(is_of(line, name) for name in names)]
    print(*(f"explains no mutant: {line}" for line in lines), sep="\n", end="\n" if lines else "")
    return len(lines)


def files_of_proofs():
    """The files of the last table of docs/ARCHITECTURE.md."""
    table = (root / "docs/ARCHITECTURE.md").read_text().split("The other definition files")[1].split("## ")[0]
    return {(crate, name) for crate, row in re.findall(r"^\| `(\w+)` \| (.*) \|$", table, re.M) for name in re.findall(r"(\w+) \d+", row)}


def sum_of(*read):
    return hashlib.sha256(repr(read).encode()).hexdigest()[:16]


class Tries:
    """Tries the mutants of a crate, and keeps what becomes of each."""

    def __init__(self, sources, crate, copies, resume):
        self.sources, self.crate, self.copies = sources, crate, copies
        (self.mutants, self.unread), self.lock = made(sources, crate), threading.Lock()
        self.path = RESULTS / f"{crate}.json"
        kept = json.loads(self.path.read_text()) if resume and self.path.is_file() else {"mutants": {}, "texts": {}}
        # the texts of the case files that refused a mutant, by their sums
        self.texts = kept["texts"]
        self.results = {mutant.name: kept["mutants"][mutant.name] for mutant in self.mutants
                        if mutant.name in kept["mutants"] and self.still_holds(mutant, kept["mutants"][mutant.name])}

    def read_of(self, mutant, own):
        """What a judgement reads: the declarations that rest on the mutant's, of definitions and of cases, in its own crate or in all."""
        changed = sorted(self.sources.above(self.sources.block_at(mutant), mutant.crate if own else None))
        return [[(key, self.sources.blocks[key][at].text) for key, at in changed if is_case(key[1]) == cases] for cases in (False, True)]

    def case_file(self, where):
        """The text of the file of a case that refused a mutant."""
        crate, case = where.split(" ")[0].split("/")
        return next((text for (of, module), text in self.sources.texts.items() if of == crate and is_case(module) and module.split(".")[1] == case), "")

    def still_holds(self, mutant, kept):
        """Whether a result that was kept is also that of a try today."""
        definitions, cases = self.read_of(mutant, kept["own"])
        if kept["definitions"] != self.definitions_sum(mutant, definitions):
            return False
        if kept["result"] in (REFUSED, ABOVE):
            return collections.Counter(self.texts[kept["cases"]].splitlines()) <= collections.Counter(self.case_file(kept["where"]).splitlines())
        return kept["cases"] == sum_of(cases)

    def keep(self, mutant, own, what, where):
        definitions, cases = self.read_of(mutant, own)
        read = sum_of(cases)
        if what in (REFUSED, ABOVE):
            text = self.case_file(where)
            read = sum_of(text)
            self.texts[read] = text
        with self.lock:
            self.results[mutant.name] = {"result": what, "where": where, "own": own, "definitions": self.definitions_sum(mutant, definitions), "cases": read}

    def definitions_sum(self, mutant, definitions):
        key, at = self.sources.block_at(mutant)
        return sum_of(mutant.text, mutant.start - self.sources.blocks[key][at].start, definitions)

    def save(self):
        with self.lock:
            RESULTS.mkdir(parents=True, exist_ok=True)
            used = {result["cases"] for result in self.results.values()}
            done = {"crate": self.crate, "on": str(datetime.date.today()), "texts": {read: text for read, text in self.texts.items() if read in used},
                    "mutants": self.results}
            room = self.path.with_suffix(f".{os.getpid()}.tmp")
            room.write_text(json.dumps(done, ensure_ascii=False, indent=1))
            room.replace(self.path)

    def run(self, pool):
        proofs = files_of_proofs()
        first = [mutant for mutant in self.mutants if mutant.name not in self.results]
        for mutant in first:
            if (mutant.crate, mutant.module) in proofs:
                self.keep(mutant, True, PROOFS_ALONE, "")
        self.stage(pool, [mutant for mutant in first if mutant.name not in self.results], True)
        later = [mutant for mutant in self.mutants if self.results[mutant.name]["result"] == SURVIVES and self.results[mutant.name]["own"]]
        self.stage(pool, later, False)
        self.save()

    def unaltered(self, mutants):
        """For each declaration of these mutants one that changes nothing: every case must hold of it."""
        blocks = {self.sources.block_at(mutant) for mutant in mutants}
        for key, at in sorted(blocks):
            block = self.sources.blocks[key][at]
            yield Mutant(f"{key[0]}/{key[1]} {block.names[0]}", *key, "unaltered", block.start, block.start, "")

    def stage(self, pool, mutants, own):
        mutants = [*self.unaltered(mutants), *mutants]
        batches, batch, modules = [], [], 0
        for mutant in mutants:
            size = len({key for key, _ in self.sources.above(self.sources.block_at(mutant), mutant.crate if own else None)})
            if batch and modules + size > MOST_MODULES:
                batches.append(batch)
                batch, modules = [], 0
            batch.append(mutant)
            modules += size
        done = 0
        for ended in concurrent.futures.as_completed([pool.submit(self.one_batch, it, own) for it in [*batches, batch] if it]):
            done += ended.result()
            self.save()
            print(f"{self.crate}: {done} of {len(mutants)} by {'its own cases' if own else 'the cases above'}", file=sys.stderr, flush=True)

    def one_batch(self, batch, own):
        copy = self.copies.get()
        try:
            self.judge(copy, batch, own)
        finally:
            self.copies.put(copy)
        return len(batch)

    def judge(self, copy, batch, own):
        """Where a check of many ends without a word, each half is tried."""
        judged = copy.check(batch, own)
        if judged is None and len(batch) > 1:
            self.judge(copy, batch[: len(batch) // 2], own)
            self.judge(copy, batch[len(batch) // 2 :], own)
            return
        for mutant, (what, where) in zip(batch, judged or [(LIMIT, "the check took too long")]):
            if mutant.kind == "unaltered":
                if what != SURVIVES:
                    raise Unread(f"{mutant.name} unaltered is {what}: {where}")
                continue
            self.keep(mutant, own, ABOVE if what == REFUSED and not where.startswith(f"{mutant.crate}/") else what, where)


def outcome(name, result, reasons):
    return EXPLAINED_AS if result["result"] == SURVIVES and explained(name, reasons) is not None else result["result"]


def counts(results):
    reasons = explanations()
    return collections.Counter(outcome(name, result, reasons) for name, result in results.items())


def row(crate, done):
    count = counts(done["mutants"])
    cells = [len(done["mutants"]), count[REFUSED], count[ABOVE], count[UNREADABLE], count[LIMIT], count[PROOFS_ALONE], count[EXPLAINED_AS], count[SURVIVES]]
    return f"| `{crate}` | {' | '.join(f'{cell:,}' for cell in cells)} | {done['on']} |"


def main():
    words = argparse.ArgumentParser()
    words.add_argument("crates", nargs="*")
    words.add_argument("--jobs", type=int, default=2)
    words.add_argument("--resume", action="store_true")
    words.add_argument("--list", action="store_true")
    words.add_argument("--table", action="store_true")
    asked = words.parse_args()
    sources = Sources()
    crates = asked.crates or [crate for crate in sources.crates if any(of == crate for of, _ in sources.texts)]
    if asked.table:
        for crate in crates:
            if (RESULTS / f"{crate}.json").is_file():
                print(row(crate, json.loads((RESULTS / f"{crate}.json").read_text())))
        return
    if asked.list:
        names, unread = [], []
        for crate in crates:
            mutants, unknown = made(sources, crate)
            kinds = collections.Counter(mutant.kind for mutant in mutants)
            print(f"{crate}: {sum(kinds.values())}: {', '.join(f'{kind} {number}' for kind, number in sorted(kinds.items()))}")
            names += [mutant.name for mutant in mutants]
            unread += unknown
        print("no part of the copy, since they rest on theorems:", ", ".join("/".join(key) for key in sources.left_out))
        print(f"not read, and so not altered: {len(unread)}:", ", ".join(unread))
        sys.exit(1 if lacking_mutants(crates if asked.crates else {line.split("/")[0] for line, _ in explanations()}, names) else 0)
    survivors = 0
    with tempfile.TemporaryDirectory(prefix="fikrem-mutants-") as room, concurrent.futures.ThreadPoolExecutor(asked.jobs) as pool:
        import queue

        copies = queue.Queue()
        for job in range(asked.jobs):
            copies.put(Copy(sources, pathlib.Path(room) / f"job{job}"))
        list(pool.map(Copy.prime, list(copies.queue)))
        for crate in crates:
            tries = Tries(sources, crate, copies, asked.resume)
            tries.run(pool)
            survivors += lacking_mutants([crate], tries.results)
            reasons = explanations()
            for name, result in tries.results.items():
                if outcome(name, result, reasons) in (SURVIVES, LIMIT):
                    print(f"{result['result']}: {name}")
            survivors += counts(tries.results)[SURVIVES]
            print(*(f"not read, and so not altered: {what}" for what in tries.unread), sep="\n", end="\n" if tries.unread else "")
            print(row(crate, json.loads(tries.path.read_text())), flush=True)
    sys.exit(1 if survivors else 0)


if __name__ == "__main__":
    main()
