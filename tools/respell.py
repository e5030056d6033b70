#!/usr/bin/env python3
"""Brings what the kit's port.py leaves to today's spelling: run once, at the top of the repository, right after port.py.

- a definition, lemma, field, constructor or variable in camel case is written in snake case (Types and Modules stay as they are)
- the module specs/contracts, whose name today's Rattle takes, becomes specs/vocabulary
- #[derive(Drop)] becomes #[derive(Clone, Copy)] (every type of this repository is plain), and each root file gets #![tactic(auto)]

It prints every two names that fall together, and stops before it writes anything where they do in one module.
"""
import collections
import os
import re
import sys

KIT = "/opt/rattle"
WORD = re.compile(r"[A-Za-zα-ωΑ-Ωμ_][A-Za-zα-ωΑ-Ω0-9_'₀-₉]*")
CAMEL = re.compile(r"^[a-z][a-z0-9_]*[A-Z]")


def snake(word):
    out = re.sub(r"([a-z0-9])([A-Z])", r"\1_\2", word)
    out = re.sub(r"([A-Z])([A-Z][a-z])", r"\1_\2", out)
    return out.lower() if CAMEL.match(word) else word


def files(ending):
    for folder, dirs, names in os.walk("crates"):
        dirs[:] = sorted(d for d in dirs if d not in ("out", "must-fail"))
        for name in sorted(names):
            if name.endswith(ending):
                yield os.path.join(folder, name)


def kit_words():
    """Camel-case words that the kit itself uses in names: those are not ours to respell."""
    words = set()
    for top in ("std", "core", "logic", "std_alloc", "std_collections", "io", "libc"):
        for folder, dirs, names in os.walk(os.path.join(KIT, "rattle", top)):
            for name in names:
                if name.endswith(".antt"):
                    with open(os.path.join(folder, name), encoding="utf-8") as f:
                        words.update(w for w in WORD.findall(f.read()) if CAMEL.match(w))
    return words


def strip_strings(text):
    return re.sub(r'"(?:\\.|[^"\\])*"', lambda m: " " * len(m.group(0)), text)


def turn(text, names, tight=None):
    """Every word outside strings that is in names; with tight, a set of functions, none beside a dash, in a path, or of a call's facts."""
    bare, out, at = strip_strings(text), [], 0
    for m in WORD.finditer(bare):
        if tight:
            before, after = bare[: m.start()], bare[m.end() :]
            path = re.search(r"Rattle[\w.'-]*\.$", before)
            called = m.group(0) in tight and before.endswith(".") and after.startswith(".")
            if before.endswith("-") or after.startswith("-") or path or called:
                continue
        if m.group(0) in names:
            out.append(text[at : m.start()] + names[m.group(0)])
            at = m.end()
    return "".join(out) + text[at:]


def main():
    kit = kit_words()
    count = collections.Counter()
    declared = collections.defaultdict(set)
    for path in files(".antt"):
        with open(path, encoding="utf-8") as f:
            text = strip_strings(f.read())
        for w in WORD.findall(text):
            if CAMEL.match(w):
                count[w] += 1
        for m in re.finditer(r"^\s*(?:(?:unfoldable|abbrev|pub|mutual|opaque|data|record)\s+)*([^\s:(){}]+) :", text, re.M):
            declared[path].add(m.group(1))
    names = {w: snake(w) for w in count if w not in kit}
    # a lemma's name that port.py wrote with underscores, and that a turned word would fall together with, gets its dashes back
    all_declared = set().union(*declared.values())
    back = {to: to.replace("_", "-") for w, to in names.items() if to in all_declared}
    print("dashes again: " + " ".join(sorted(back.values())))
    functions = {"fn"}
    for path in files(".rt"):
        with open(path, encoding="utf-8") as f:
            functions.update(re.findall(r"\bfn (\w+)", f.read()))
    for path in files(".antt"):
        with open(path, encoding="utf-8") as f:
            old = f.read()
        new = turn(old, back, functions)
        if new != old:
            with open(path, "w", encoding="utf-8") as f:
                f.write(new)
            declared[path] = {turn(n, back, functions) for n in declared[path]}
    for to in back:
        count.pop(to, None)
    left = sorted(w for w in count if w in kit)
    print(f"{len(names)} camel-case words turned; left, since the kit has them: {' '.join(left)}")

    # names that fall together
    whole = set().union(*declared.values()) if declared else set()
    bad = 0
    for path, there in declared.items():
        turned = collections.defaultdict(list)
        for n in there:
            turned[turn(n, names)].append(n)
        for n, olds in turned.items():
            if len(olds) > 1:
                print(f"fall together in {path}: {' '.join(olds)} -> {n}")
                bad += 1
    for w, to in sorted(names.items()):
        if to in whole or to in {n for n in count}:
            print(f"look: {w} -> {to}, a name that stands elsewhere already")
    if bad:
        sys.exit(1)

    folders = {(p.split(os.sep)[1], os.path.splitext(os.path.basename(p))[0]) for p in files(".antt") if "/specs/contracts/" in p}
    for path in list(files(".antt")) + list(files(".rt")):
        with open(path, encoding="utf-8") as f:
            old = f.read()
        new = turn(old, names)
        # only the modules of the folder: the contracts of functions and types, which Rattle makes, are specs.contracts today
        new = re.sub(r"(Rattle\.(\w+)\.specs)\.contracts\.(\w+)", lambda m: f"{m.group(1)}.{'vocabulary' if (m.group(2), m.group(3)) in folders else 'contracts'}.{m.group(3)}", new)
        if path.endswith("specs/Lib.antt"):
            new = re.sub(r"^(pub mod|mod) contracts$", r"\1 vocabulary", new, flags=re.M)
        if path.endswith(".rt"):
            new = new.replace("#[derive(Drop)]", "#[derive(Clone, Copy)]")
            if path.endswith(("src/lib.rt", "src/main.rt")) and "#![tactic(auto)]" not in new:
                head = re.match(r"(?://[^\n]*\n)*", new).group(0)
                new = head + "\n#![tactic(auto)]\n" + ("" if new[len(head) :].startswith("\n") else "\n") + new[len(head) :]
        if new != old:
            with open(path, "w", encoding="utf-8") as f:
                f.write(new)
    for crate in sorted(os.listdir("crates")):
        specs = os.path.join("crates", crate, "specs")
        for old, new in (("contracts.antt", "vocabulary.antt"), ("contracts", "vocabulary")):
            if os.path.exists(os.path.join(specs, old)):
                os.rename(os.path.join(specs, old), os.path.join(specs, new))


main()
