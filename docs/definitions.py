#!/usr/bin/env python3
"""Prints what a clause stands on: the definitions that a reader meets who follows its words down.

usage: docs/definitions.py [-l] [CRATE FUNCTION CLAUSE]

Without words that is the clause `done` of `run_words` in `vm_top`. From the words of the clause it follows the
`use` lines of the sources and of `specs/` to definitions, and from their words on, and counts them, the files that
they stand in, and their lines without comments. Words of std are believed and not followed. A type of the code
(`specs.declared`) counts as one definition of no lines. `-l` lists all, with how many steps from the clause each is;
without it the longest chain is printed.
"""
import re
import sys
from functools import cache
from pathlib import Path

ROOT = Path(__file__).resolve().parent.parent / "crates"
USE = re.compile(r"^ *(?:ghost )?(?:pub )?use Rattle\.([\w.+]+?)(?:\.\{(.*?)\}| as (\w+));?$", re.M)
HEAD = re.compile(r"^ *(?:abbrev |unfoldable )*(?:pub )*(?:mutual |record |data |unfoldable )*([^\s:(]+)(?: \(|  *:|\s)")
WORD = re.compile(r"[^\s(){}\[\],;.]+(?:\.[^\s(){}\[\],;.]+)*")


def imports(text):
    """Returns, by the name that a file uses, the module and the name there; an empty name is the module itself."""
    found = {}
    for module, names, alias in USE.findall(text):
        if alias:
            found[alias] = module, ""
        for name in filter(None, (it.strip() for it in names.split(","))):
            own, _, other = name.partition(" as ")
            found[other or own] = module, own
    return found


def blocks(text):
    """Returns, by name, the definitions of a file. A case of a type is its type; one within `mutual` has the text of all."""
    found = {}
    lines = [it.split(" -- ")[0] for it in text.split("\n") if not it.lstrip().startswith("--")]
    for block in re.split(r"\n(?=(?:abbrev|pub|unfoldable|record|data|mutual)\b)", "\n".join(lines)):
        if re.match(r"(abbrev |pub |unfoldable )*mutual$", block.strip().split("\n")[0]):
            names = re.findall(r"^  (?:pub |unfoldable |record |data )*(\S+) :", block, re.M)
        else:
            names = [it.group(1) for it in [HEAD.match(block)] if it]
        found |= {name: (name, block.strip()) for name in names}
        if re.match(r"(pub )?data ", block):
            found |= {case: (names[0], block.strip()) for case in re.findall(r"^  (\S+) :", block, re.M)}
    return found


@cache
def file_of(module):
    """Returns what a module of `specs` uses and what it defines."""
    crate, *parts = module.split(".")
    path = ROOT / crate / ("/".join(parts) + ".antt")
    text = path.read_text() if path.exists() else ""
    return imports(text), blocks(text)


def named(text, uses, local, module):
    """Gives the definitions that the words of a text name."""
    for word in sorted(set(WORD.findall(text))):
        first, *rest = word.split(".")
        if first in local:
            yield module, first
        elif first in uses:
            of, name = uses[first]
            yield of, name or ".".join(rest[:1])


def main(words):
    asked = [it for it in words if it != "-l"] or ["vm_top", "run_words", "done"]
    crate, function, clause = asked if len(asked) == 3 else sys.exit(__doc__)
    met, todo = {}, []
    for path in sorted((ROOT / crate / "src").glob("**/*.rt")):
        there = re.search(rf"fn {function}\b.*?\n *\{{\n", path.read_text(), re.S)
        stated = there and re.search(rf"ensures {clause} \{{(.*?)\}}\n", there.group(0), re.S)
        if stated:
            todo = [(it, [clause]) for it in named(stated.group(1), imports(path.read_text()), {}, "")]
    while todo:
        (module, name), chain = todo.pop(0)
        if ".specs.declared." in module:
            module, name = module.removesuffix(".TheVariants"), module.removesuffix(".TheVariants").split(".")[-1]
        uses, own = file_of(module)
        name, text = own.get(name, (name, ""))
        if module.startswith("std") or (module, name) in met or not (text or "declared" in module):
            continue
        met[module, name] = [*chain, name], text
        todo += [(it, [*chain, name]) for it in named(text, uses, own, module)]
    texts = {(module, text) for (module, _), (_, text) in met.items()}
    lines = sum(len([it for it in text.split("\n") if it.strip()]) for _, text in texts)
    files = {module for module, _ in met if "declared" not in module}
    longest = max((chain for chain, _ in met.values()), key=len)
    if "-l" in words:
        for (module, name), (chain, _) in sorted(met.items()):
            print(f"{len(chain) - 1:3} {module}.{name}")
    print(f"{len(met)} definitions in {len(files)} files, {lines} lines, at most {len(longest) - 1} steps down:")
    print(" > ".join(longest))


main(sys.argv[1:])
