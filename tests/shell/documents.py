#!/usr/bin/env python3
"""Holds the documents against the repository: 'ok NAME' or 'FAILED NAME', and the places.

Each link leads to a file, and to a heading where it names one; each document is reached from README.md by links; each type of
docs/glossary.md is a public name of its crate; each block that shows a command is one that tests/shell/readme.sh types, since it
begins with one.
"""
import re
import sys
from pathlib import Path

TOP = Path(__file__).resolve().parents[2]
SKIPPED = {"out", ".git", "target"}
# The documents whose commands tests/shell/readme.sh types, as it names them
TYPED = {"README.md", "examples/README.md", "docs/tutorial.md", "docs/poll.md", "docs/scripts.md", "docs/decode.md", "docs/trace.md"}
# Those with commands that another file types, and which
OTHERS = {"CONTRIBUTING.md": "contributing.sh runs them, in a copy with its worked change", "docs/network.md": "check.sh types them, next to a journal",
          "docs/operating.md": "operating.sh types them, with stand-ins for brokers and for the system's folders"}


def documents():
    return [path for path in sorted(TOP.glob("**/*.md")) if not SKIPPED & set(path.relative_to(TOP).parts)]


def prose(path):
    """The text without its blocks of code, which are blank lines in it."""
    text = path.read_text(encoding="utf-8")
    return re.sub(r"(?ms)^```.*?^```", lambda it: "\n" * it.group().count("\n"), text)


def anchors(path):
    """The names of the headings, as a reader's browser makes them."""
    found, seen = set(), {}
    for heading in re.findall(r"(?m)^#+ +(.*)$", prose(path)):
        heading = re.sub(r"\[([^\]]*)\]\([^)]*\)", r"\1", heading)
        name = re.sub(r"[^\w\- ]", "", heading.lower()).replace(" ", "-")
        count = seen[name] = seen.get(name, -1) + 1
        found.add(f"{name}-{count}" if count else name)
    return found


def links(path):
    for number, line in enumerate(prose(path).split("\n"), 1):
        for target in re.findall(r"\]\(([^)\s]+)\)", re.sub(r"`[^`]*`", "", line)):
            if not re.match(r"[a-z]+:", target):
                yield number, target


def dead_links():
    for path in documents():
        for number, target in links(path):
            name, _, anchor = target.partition("#")
            file = (path.parent / name).resolve() if name else path
            if not file.exists():
                yield f"{path.relative_to(TOP)}:{number}: {target}: there is no such file"
            elif anchor and anchor not in anchors(file):
                yield f"{path.relative_to(TOP)}:{number}: {target}: there is no such heading"


def unreached():
    waiting, seen = [TOP / "README.md"], set()
    while waiting:
        path = waiting.pop()
        if path not in seen:
            seen.add(path)
            files = [(path.parent / target.partition("#")[0]).resolve() for _, target in links(path)]
            waiting += [it for it in files if it.suffix == ".md" and it.exists()]
    for path in documents():
        # (a fixed set of documents; logs of measurements are listed by their folder)
        if path.resolve() not in seen and path.parent.name != "log":
            yield f"{path.relative_to(TOP)}: no link leads to it from README.md"


def missing_types():
    for crate, name in re.findall(r"`([a-z]+)::(\w+)`", (TOP / "docs/glossary.md").read_text(encoding="utf-8")):
        public = re.compile(rf"\bpub (?:struct|enum|trait|fn|type|const) {name}\b")
        if not any(public.search(file.read_text(encoding="utf-8")) for file in (TOP / f"crates/dnp_{crate}/src").glob("**/*.rt")):
            yield f"docs/glossary.md: {crate}::{name}: no public name of that crate"


def untyped():
    for path in documents():
        name = str(path.relative_to(TOP))
        if name not in TYPED and name not in OTHERS and re.search(r"(?ms)^```\w*\n\$ ", path.read_text(encoding="utf-8")):
            yield f"{name}: it shows commands that tests/shell/readme.sh doesn't type"


def hidden():
    for path in documents():
        for block in re.finditer(r"(?ms)^```\w*\n(.*?)^```", path.read_text(encoding="utf-8")):
            if re.search(r"(?m)^\$ ", block[1]) and not block[1].startswith("$ "):
                yield f"{path.relative_to(TOP)}: {block[1].strip()[:60]!r}: a block of commands begins with another line"


def main():
    for name, check in (("links-lead-somewhere", dead_links), ("documents-are-reached", unreached),
                        ("glossary-names-types", missing_types), ("commands-are-typed", untyped), ("commands-begin-their-blocks", hidden)):
        found = list(check())
        print(f"{'FAILED' if found else 'ok'} {name}", *found[:40], sep="\n    ")


if __name__ == "__main__":
    sys.exit(main())
