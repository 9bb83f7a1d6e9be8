"""Reads the functions of a Rattle crate from the compiler's own tokens, and takes bodies and proofs away.

A function is named as a check prints it: by its module, for a method by the file of its type, for a method of a trait
by the type and the trait in one word (`impl From<Cause> for RoundFault` is RoundFaultFromCause), and in an `impl` for
one argument of its type by the file of the `impl` and both (`impl Queue<MemStore>` is Queue+MemStore).
"""
import json
import re
import shutil
import subprocess
from dataclasses import dataclass
from pathlib import Path

PAIRS = {"(": ")", "[": "]", "{": "}"}
TYPES = ("struct", "enum", "trait")
BEFORE = ("const", "unsafe", "final", "extern")
# What stays as it is: what the compiler calls, and what is computed in types.
KEPT = ("drop",)


@dataclass
class Token:
    start: int
    end: int
    kind: str
    text: str


@dataclass
class Function:
    name: str           # as a check prints it, without the crate's name
    file: str           # from the crate's folder
    start: int          # octets of the file: the word fn,
    body: int           # the brace that opens the body,
    end: int            # and behind the one that closes it
    is_kept: bool       # its body has to stay


def tokens_of(paths):
    """The tokens of each file but those of antt: the text of contracts and of ghost items has brackets of its own."""
    rattle = Path(shutil.which("rt")).resolve().parent / "rattle"
    said = subprocess.run([rattle, "fmt", "--tokens", *paths], stdout=subprocess.PIPE, encoding="utf-8", check=True).stdout
    found = []
    for part in re.split(r"(?m)^file \d+\n", said)[1:]:
        rows = (line.split(" ", 4) for line in part.split("\n") if line)
        found.append([Token(int(a), int(b), kind, json.loads(text)) for _, a, b, kind, text in rows if kind in ("Code", "Head")])
    return found


def behind(tokens, at):
    """The place behind the bracket that closes the one at this place; for another token the next place."""
    depth = 0
    for place in range(at, len(tokens)):
        # the braces of a clause are no code
        if tokens[place].kind == "Code":
            depth += (tokens[place].text in PAIRS) - (tokens[place].text in PAIRS.values())
        if depth == 0:
            return place + 1
    raise ValueError("a bracket is not closed")


def behind_generics(tokens, at):
    """The place behind `<..>`, if one begins here: an arrow's `>` closes nothing."""
    if tokens[at].text != "<":
        return at
    depth = 0
    while True:
        text = tokens[at].text
        depth += (text == "<") - (text == ">" and tokens[at - 1].text not in ("-", "="))
        at += 1
        if depth == 0:
            return at


def last_name(tokens):
    """The last name of a path, without its arguments, and the names in the arguments."""
    depth, name, inside = 0, "", []
    for token in tokens:
        if token.text == "<":
            depth += 1
        elif token.text == ">":
            depth -= 1
        elif token.text == "where" and depth == 0:
            break
        elif re.fullmatch(r"[A-Za-z_]\w*", token.text) and token.text not in ("dyn", "mut", "as"):
            if depth == 0:
                name = token.text
            else:
                inside.append(token.text)
    return name, inside


class Crate:
    """The functions of a crate, in the order of its files; with the homes of types where some of its files alone are there."""

    def __init__(self, folder, homes=None):
        self.folder = Path(folder)
        self.name = self.folder.name
        self.files = sorted(self.folder.glob("src/**/*.rt"))
        self.tokens = dict(zip(self.files, tokens_of(self.files)))
        self.homes = self.types() if homes is None else homes
        self.functions = [it for path in self.files for it in self.in_file(path)]

    def texts(self, files=None):
        """Each function's name and its text, and each file's text without its functions; of these files where some are named."""
        functions, others = {}, {}
        for path in (it for it in self.files if files is None or str(it.relative_to(self.folder)) in files):
            text, at, other = path.read_bytes(), 0, b""
            for it in (it for it in self.functions if self.folder / it.file == path):
                functions[it.name] = text[it.start:it.end]
                other, at = other + text[at:it.start], it.end
            others[path.relative_to(self.folder)] = other + text[at:]
        return functions, others

    def module(self, path):
        parts = path.relative_to(self.folder / "src").with_suffix("").parts
        return [part for part in parts if part not in ("lib", "main", "mod")]

    def types(self):
        """The module in which each type and trait of the crate is declared."""
        found = {}
        for path, tokens in self.tokens.items():
            for word, name in zip(tokens, tokens[1:]):
                if word.kind == "Code" and word.text in TYPES:
                    found.setdefault(name.text, []).append(self.module(path))
        return found

    def home(self, type_name, here):
        homes = self.homes.get(type_name, [here])
        return here if here in homes else homes[0]

    def in_file(self, path):
        tokens, here = self.tokens[path], self.module(path)
        file = str(path.relative_to(self.folder))
        yield from self.in_items(tokens, 0, len(tokens), file, here, lambda name: here + [name])

    def in_items(self, tokens, at, end, file, here, named):
        while at < end:
            token = tokens[at]
            if token.kind != "Code":
                at += 1
            elif token.text == "#":
                at = behind(tokens, at + (2 if tokens[at + 1].text == "!" else 1))
            elif token.text in ("impl", "trait"):
                opens = self.opening(tokens, at)
                close = behind(tokens, opens)
                inside = self.block_names(tokens, at, opens, here)
                if inside:
                    yield from self.in_items(tokens, opens + 1, close - 1, file, here, inside)
                at = close
            elif token.text == "fn" and tokens[at + 1].kind == "Code" and re.fullmatch(r"\w+", tokens[at + 1].text):
                opens = self.opening(tokens, at)
                close = behind(tokens, opens)
                if tokens[opens].text == "{":
                    name = tokens[at + 1].text
                    is_kept = name in KEPT or any(it.text in BEFORE[:1] for it in tokens[max(0, at - 2):at])
                    yield Function("::".join(named(name)), file, token.start, tokens[opens].start, tokens[close - 1].end, is_kept)
                at = close
            else:
                at = behind(tokens, at)

    @staticmethod
    def opening(tokens, at):
        """The brace or the semicolon that ends the head of an item."""
        while tokens[at].kind != "Code" or tokens[at].text not in ("{", ";"):
            at = behind(tokens, at) if tokens[at].kind == "Code" and tokens[at].text in "([" else at + 1
        return at

    def block_names(self, tokens, at, opens, here):
        """How the functions of an impl or a trait are named; none of a model's."""
        if tokens[at].text == "trait":
            trait = tokens[at + 1].text
            return lambda name: self.home(trait, here) + [trait, name]
        behind_them = behind_generics(tokens, at + 1)
        # (the names of its parameters are no part of a name)
        parameters = {it.text for it in tokens[at + 1:behind_them]}
        head = [it for it in tokens[behind_them:opens] if it.kind == "Code"]
        cut = next((place for place, it in enumerate(head) if it.text == "for"), None)
        if cut is None:
            own, arguments = last_name(head)
            # (they are where another argument stands beside them)
            if all(it in parameters for it in arguments):
                arguments = []
            home = here if arguments else self.home(own, here)
            return lambda name: home + ["+".join([own, *arguments]), name]
        trait, arguments = last_name(head[:cut])
        own, _ = last_name(head[cut + 1:])
        if trait == "Model":
            return None
        if trait == "Drop":
            return lambda name: self.home(own, here) + [own, name]
        lent = "".join({"&": "Ref", "mut": "Mut"}.get(it.text, "") for it in head[cut + 1:cut + 3])
        words = [lent, "" if own in parameters else own, trait, *(it[:1].upper() + it[1:] for it in arguments if it not in parameters)]
        return lambda name: here + ["".join(words), name]


# What calls a function of this name without naming it.
IMPLIED = {
    "from": r"\?|\binto\b", "from_residual": r"\?", "fmt": r"\b(?:e?println|e?print|format|write|writeln)!|\bto_string\b", "next": r"\bfor\b",
    "into_iter": r"\bfor\b", "eq": r"[=!]=|\bmatches!", "ne": r"[=!]=", "partial_cmp": r"[<>]", "cmp": r"[<>]", "deref": r"[&*.]", "deref_mut": r"[&*.]",
    "index": r"\[", "index_mut": r"\[",
}


def may_call(text, names):
    """Whether a function with this text may call one of these, by their last names: one that it names, or that a sign of the
    language stands for."""
    words = text.decode("utf-8")
    for last in {name.split("::")[-1] for name in names}:
        if re.search(rf"\b{last}\b", words) or last in IMPLIED and re.search(IMPLIED[last], words):
            return True
    return False


def replace(crate, texts):
    """Writes these texts of functions, by their names, over those of a copy of the crate on the disk."""
    for function in reversed(crate.functions):
        if function.name in texts:
            path = crate.folder / function.file
            text = path.read_bytes()
            path.write_bytes(text[:function.start] + texts[function.name] + text[function.end:])


def empty(crate, kept):
    """Takes the body and the proof of each function but the kept ones from a copy of the crate on the disk: the body
    becomes `unreachable!()`, and the proof a hole."""
    texts = {}
    for function in reversed(crate.functions):
        if function.is_kept or function.name in kept:
            continue
        path = crate.folder / function.file
        text = texts.get(path) or path.read_bytes()
        texts[path] = text[:function.body] + b"{ unreachable!() }" + text[function.end:]
        parts = function.name.split("::")
        folder = crate.folder.joinpath("proofs", *parts)
        # (emptied, it calls itself no more)
        shutil.rmtree(folder.with_name(f"+{parts[-1]}"), ignore_errors=True)
        folder.mkdir(parents=True, exist_ok=True)
        for name in ("Invariants.antt", "Answers.antt"):
            (folder / name).unlink(missing_ok=True)
        (folder / "Proof.antt").write_text(
            f"use Rattle.{crate.name}.proofs.{'.'.join(parts)}.Statement.{{statement}}\n\n"
            f"pub {parts[-1]}_spec : {{M : Type 1}} → statement M\n{parts[-1]}_spec = ?\n",
            encoding="utf-8",
        )
    for path, text in texts.items():
        path.write_bytes(text)
