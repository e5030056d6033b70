#!/usr/bin/env python3
"""Brings the must-fail edits and the mutants of definitions to today's spelling, each with the same wrong meaning.

usage: python3 tools/respell_edits.py OLD_COMMIT [--keep FOLDER]
       python3 tools/respell_edits.py --check

Run it at the top of the ported checkout, after port.py, respell.py and rt fmt. OLD_COMMIT is the last commit in the old
spelling. An edit is lines 'file: PATH', 'old: TEXT', 'new: TEXT' (tools/apply-edit says how they are applied); those turned are
  crates/CRATE/must-fail/*.edit, must-fail/code/CRATE/*.edit        PATH from the crate's folder on
  must-fail/cases, must-fail/theorems, tools/compare-edits: *.edit  PATH from the top on
  mutants/*.txt                                                     several in a file, each from 'mutant:' to a blank line
How: the tree of OLD_COMMIT is put into a temporary folder. Each edit is applied there to a copy of the file that it changes;
the copy stands beside that file under another name (Tables.antt, TablesVariant03.antt), and one copy takes several edits if
they change different blocks (runs of lines without a blank line). Then port.py, respell.py and rt fmt turn that tree, copies
and all, and each copy is set beside the file that it is of: what differs is the edit in today's spelling. A copy that differs
in other blocks than those that were edited is reported, and nothing is written for its edits. Written is: the edit as it was,
if that makes the same words of the turned file; else its words turned one by one (guess), if they do; else what differs, line by
line, in the smallest group in brackets that stands once, or the whole line.
An edit whose text in the checkout is not that of OLD_COMMIT was turned by hand, and is left alone.
The turned tree takes ten minutes and a few hundred MB. With --keep it is left in FOLDER, and taken from there if FOLDER has it:
remove FOLDER after a change of respell.py.
--check applies each edit to the checkout, reports each whose old text does not stand exactly once, and each line 'old:' or
'new:' that looks like the old spelling.
"""

import collections
import difflib
import glob
import importlib.util
import os
import re
import shutil
import subprocess
import sys
import tempfile

KIT = "/opt/rattle"
HERE = os.path.dirname(os.path.realpath(__file__))

# ---- edits


class Edit:
    """One edit. pairs: (file from the top on, old, new); lines: its own lines in the file where it stands."""

    def __init__(self, where, at, lines, prefix):
        self.where, self.at, self.lines, self.prefix = where, at, lines, prefix
        self.pairs, file, old = [], None, None
        for line in lines:
            if line.startswith("file: "):
                file = prefix + line[6:]
            elif line.startswith("old: "):
                old = line[5:]
            elif line.startswith("new: "):
                self.pairs.append((file, old, line[5:]))
        self.name = where + (f" #{at + 1} {lines[0]}" if where.startswith("mutants/") else "")


def read(path):
    with open(path, encoding="utf-8") as f:
        return f.read()


def write(path, text):
    with open(path, "w", encoding="utf-8") as f:
        f.write(text)


def parts_of(where, text):
    """The parts of a file of edits: a mutants file is blocks between blank lines, any other file is one part."""
    return text.rstrip("\n").split("\n\n") if where.startswith("mutants/") else [text.rstrip("\n")]


def edits_below(top):
    out = []
    for pattern in ("crates/*/must-fail/*.edit", "must-fail/cases/*.edit", "must-fail/theorems/*.edit", "must-fail/code/*/*.edit", "tools/compare-edits/*.edit", "mutants/*.txt"):
        for path in sorted(glob.glob(os.path.join(top, pattern))):
            where = os.path.relpath(path, top)
            steps = where.split("/")
            prefix = f"crates/{steps[1]}/" if steps[0] == "crates" else f"crates/{steps[2]}/" if where.startswith("must-fail/code/") else ""
            for at, part in enumerate(parts_of(where, read(path))):
                edit = Edit(where, at, part.split("\n"), prefix)
                if edit.pairs:
                    out.append(edit)
    return out


def applied(text, old, new):
    """The text with the one place of old replaced by new; None if old does not stand just once (as in tools/apply-edit)."""
    at = text.find(old)
    if not old or at < 0 or text.find(old, at + len(old)) >= 0:
        return None
    return text[:at] + new + text[at + len(old) :]


# ---- copies with the edits in them


def blocks(text):
    return text.split("\n\n")


def variant_path(path, layer):
    stem, ending = os.path.splitext(path)
    return f"{stem}Variant{layer:02}{ending}" if ending == ".antt" else f"{stem}_variant{layer:02}{ending}"


def is_head(block):
    """Whether a block of a file has imports."""
    return re.search(r"^(?:ghost )?use ", block, re.M) is not None


WHOLE = -1


def plan(top, edits, complain):
    """Which edit goes into which copy: {file: [{number of a block: (edit, text of the block)}, ..]}, one dictionary for each copy.

    An edit of the imports, or of where blocks begin and end, has a copy for itself: {WHOLE: (edit, text of the file)}.
    """
    layers = collections.defaultdict(list)
    for edit in edits:
        texts, fine = {}, True
        for file, old, new in edit.pairs:
            path = os.path.join(top, file)
            if file not in texts:
                texts[file] = read(path) if os.path.isfile(path) else ""
            text = applied(texts[file], old, new)
            if text is None:
                complain(edit, f"its old text does not stand just once in {file} of the old tree: {old}")
                fine = False
                break
            texts[file] = text
        if not fine:
            continue
        for file, text in texts.items():
            before, after = blocks(read(os.path.join(top, file))), blocks(text)
            changed = {i: (edit, b) for i, (a, b) in enumerate(zip(before, after)) if a != b}
            if len(before) != len(after) or any(is_head(before[i]) for i in changed):
                layers[file].append({WHOLE: (edit, text)})
                continue
            for layer in layers[file]:
                if WHOLE not in layer and not changed.keys() & layer.keys():
                    layer.update(changed)
                    break
            else:
                layers[file].append(changed)
    return layers


def write_variants(top, layers):
    for file, those in layers.items():
        before = blocks(read(os.path.join(top, file)))
        for n, layer in enumerate(those, 1):
            path = os.path.join(top, variant_path(file, n))
            if os.path.exists(path):
                sys.exit(f"{path} stands already")
            write(path, layer[WHOLE][1] if WHOLE in layer else "\n\n".join(layer[i][1] if i in layer else b for i, b in enumerate(before)))


def run(words, where):
    r = subprocess.run(words, cwd=where, stdout=subprocess.PIPE, stderr=subprocess.STDOUT, text=True, errors="replace")
    if r.returncode:
        sys.exit(f"{' '.join(words)}: {r.stdout[-800:]}")
    return r.stdout


def old_tree(commit, to):
    os.makedirs(to)
    archive = subprocess.Popen(["git", "archive", commit], stdout=subprocess.PIPE)
    if subprocess.run(["tar", "-x", "-C", to], stdin=archive.stdout).returncode or archive.wait():
        sys.exit(f"no commit {commit}")


def turn_tree(top):
    """As the repository was turned: port.py, respell.py, rt fmt in each crate. port.py asks for a repository with all committed."""
    git = ["git", "-c", "user.name=none", "-c", "user.email=none", "-c", "commit.gpgsign=false"]
    for words in (["init", "-q"], ["add", "-A", "-f"], ["commit", "-q", "-m", "old"]):
        run(git + words, top)
    spec = importlib.util.spec_from_file_location("port", os.path.join(KIT, "port", "port.py"))
    port = importlib.util.module_from_spec(spec)
    sys.dont_write_bytecode = True
    spec.loader.exec_module(port)
    port.SAID = os.path.join(os.path.dirname(top), "port-said")  # not the folder that the repository's own run left
    if port.turn(top):
        sys.exit("port.py failed")
    run([sys.executable, os.path.join(HERE, "respell.py")], top)
    for crate in port.crates(top):
        run([os.path.join(KIT, "bin", "rt"), "fmt"], os.path.join(top, "crates", crate))


def today(file, top):
    """Where a file of the old tree stands now."""
    for path in (file, re.sub(r"/specs/contracts(?=[./])", "/specs/vocabulary", file)):
        if os.path.isfile(os.path.join(top, path)):
            return path
    return None


# ---- from a turned copy to pairs of lines

TOKEN = re.compile(r'"(?:\\.|[^"\\])*"|[\w\'₀-₉]+(?:[-.][\w\'₀-₉]+)*|[^\w\s]')
OPEN, CLOSE = "([{", ")]}"
# the words of the scripts for a comparison, where they leave the older one since they do not see the type
TWINS = {"leb": "nat_le", "ltb": "nat_lt", "eqb": "nat_eq"}


def plain(text):
    """Without the lines that the scripts write by a file's proofs, which a copy does not have."""
    return re.sub(r"^#\[cycle\(\w+\)\]\n", "", text, flags=re.M)


def tokens(line):
    return [(m.start(), m.end()) for m in TOKEN.finditer(line)]


def words(text):
    return [m.group(0) for m in TOKEN.finditer(text)]


def partners(items):
    """{place of a bracket that opens: place of that which closes it}."""
    out, deep = {}, []
    for i, w in enumerate(items):
        if w in OPEN:
            deep.append(i)
        elif w in CLOSE and deep:
            out[deep.pop()] = i
    return out


def meaning(text):
    """The words of a text, but for what is layout alone: commas before a closing bracket, brackets within brackets."""
    items = words(plain(text))
    items = [w for i, w in enumerate(items) if not (w == "," and i + 1 < len(items) and items[i + 1] in CLOSE)]
    closes = partners(items)
    away = {j for i in closes if items[i] == "(" and closes.get(i + 1) == closes[i] - 1 and items[i + 1] == "(" for j in (i, closes[i])}
    return [w for i, w in enumerate(items) if i not in away]


def common(a, b):
    """How many items two lists have in common at the front, and then at the end."""
    n = min(len(a), len(b))
    front = next((i for i in range(n) if a[i] != b[i]), n)
    end = next((i for i in range(n - front) if a[-1 - i] != b[-1 - i]), n - front)
    return front, end


def changed_lines(before, after):
    """Pairs (line of the text before, what it becomes) of two texts; where the lines of the second fall otherwise, its words are put on lines as they fall in the first."""
    a, b = before.split("\n"), after.split("\n")
    if len(a) == len(b):
        return [(x, y) for x, y in zip(a, b) if x != y]
    flat_a = [(i, line[s:e]) for i, line in enumerate(a) for s, e in tokens(line)]
    flat_b = [(i, s, e) for i, line in enumerate(b) for s, e in tokens(line)]
    text_b = [b[i][s:e] for i, s, e in flat_b]
    owner = [0] * len(flat_b)
    for kind, i1, i2, j1, j2 in difflib.SequenceMatcher(None, [w for _, w in flat_a], text_b, autojunk=False).get_opcodes():
        for j in range(j1, j2):
            # what is new goes to the line of what it replaces, or of what stands before it
            owner[j] = flat_a[i1 + j - j1 if kind == "equal" else i1 if i1 < i2 else max(0, i1 - 1)][0]
    out = []
    for n, line in enumerate(a):
        mine = [j for j in range(len(flat_b)) if owner[j] == n]
        if [text_b[j] for j in mine] == words(line):
            continue
        text = ""
        for k, j in enumerate(mine):
            i, s, e = flat_b[j]
            if k:
                pi, _, pe = flat_b[mine[k - 1]]
                text += b[i][pe:s] if pi == i else " "
            text += b[i][s:e]
        out.append((line, re.match(r"\s*", line).group(0) + text if text else ""))
    return out


def doubled(line):
    """The line with one more pair of brackets about its last group."""
    items, at = words(line), tokens(line)
    outer = [(i, j) for i, j in partners(items).items() if items[i] == "(" and not any(k < i and j < m for k, m in partners(items).items())]
    if not outer:
        return line
    i, j = max(outer)
    return f"{line[: at[i][0]]}({line[at[i][0] : at[j][1]]}){line[at[j][1] :]}"


def find_pair(texts, line, new_line, whole):
    """Texts old and new for a changed line: a group in brackets about the change, else the line; old stands once in each of the texts."""
    a = tokens(line)
    front, end = common(words(line), words(new_line))
    groups = sorted((m - k, k, m) for k, m in partners(words(line)).items() if k < front and len(a) - end <= m)
    spans = [] if whole else [(a[k][0], a[m][1]) for size, k, m in groups if 4 <= size]
    indent = len(line) - len(line.lstrip())
    spans += [(0, len(line))] if whole else [(indent, len(line)), (0, len(line))]
    for start, stop in spans:
        rest = len(line) - stop
        old, new = line[start:stop], new_line[start : len(new_line) - rest]
        same = line[:start] == new_line[:start] and line[stop:] == new_line[len(new_line) - rest :]
        if same and old != new and all(applied(t, old, new) is not None for t in texts):
            return old, new
    return None


def computed(edit, file, pieces, texts, old_text):
    """Pairs from the lines that differ; None if there is a line that no text finds."""
    whole = True
    for of, old, _ in edit.pairs:
        at = old_text.find(old)
        if of == file and at >= 0:
            whole = whole and not old_text[:at].rsplit("\n", 1)[-1].strip() and not old_text[at + len(old) :].split("\n", 1)[0].strip()
    out = []
    lines = [pair for before, after in pieces for pair in changed_lines(before, after)]
    for k, (line, new_line) in enumerate(lines):
        if any(new_line.strip() == later.strip() for later, _ in lines[k + 1 :]):
            new_line = doubled(new_line)  # lines change places: the first is told from the second as long as both are there
        # tools/must-fail knows an edit of a contract or a constant by a word of its old text
        found = find_pair(texts, line, new_line, whole or re.match(r"\s*(?:requires|ensures|(?:pub )?const) ", line))
        if not found:
            return None
        texts = [applied(t, *found) for t in texts]
        out.append(found)
    return out


CAMEL = re.compile(r"(?<![\w'])[a-z][a-z0-9_]*[A-Z]\w*")


def snake(match):
    word = re.sub(r"([a-z0-9])([A-Z])", r"\1_\2", match.group(0))
    return re.sub(r"([A-Z])([A-Z][a-z])", r"\1_\2", word).lower()


ATOM = r"(?:[\w'.]+|\((?:[^()]|\([^()]*\))*\))"


def guess(text, comparisons):
    """What the scripts most often make of a text. A guess is taken only where it gives what they made of the whole file."""
    text = CAMEL.sub(snake, text)
    for _ in range(4):
        text = re.sub(r"\(([\w'.]+) \.([a-z][\w-]*)\)", r"\1.\2", text)
        text = re.sub(r"(?<=[\w')]) \.([a-z][\w-]*)", r".\1", text)
    if comparisons:
        text = re.sub(rf"\beqb ({ATOM}) ({ATOM})", r"\1 == \2", text)
        text = re.sub(r"\bleb\b", "nat_le", re.sub(r"\bltb\b", "nat_lt", text))
        text = re.sub(rf"\bgetD ({ATOM}) ({ATOM}) 0", r"slice_index \1 \2", text)
    return text


def imported(text):
    """{(path, name)} of the imports of a text."""
    return {(path, name) for path, names in re.findall(r"^(?:ghost )?use ([\w.:]+?)(?:\.|::)\{([^{}]*)\}", text, re.M) for name in names.split(", ")}


def uses(name, text):
    """Whether a text has a name, comments and strings apart; of an operator, what stands between its holes."""
    text = re.sub(r'--[^\n]*|"(?:\\.|[^"\\])*"', "", text)
    there = words(text)
    return all(part in there if re.fullmatch(r"[\w'-]+", part) else part in text for part in name.split("◌") if part)


def import_pairs(original, copy, before, after, texts):
    """Pairs that import what the changed text has and the file did not import; None if it has no import to add to.

    The old text is the beginning of the line alone, so that it stands also where other names of the line have changed.
    """
    added = collections.defaultdict(list)
    for path, name in sorted(imported(copy) - imported(original)):
        # of a copy with several edits the one is sought whose text has the name; before is None where a copy has one edit
        if uses(name, after) and not (before and uses(name, before)) and not all(name in {n for _, n in imported(t)} for t in texts):
            added[path].append(name)
    out = []
    for path, names in added.items():
        old = f"use {path}.{{"
        pair = (old, old + ", ".join(names) + ", ")
        if any(applied(t, *pair) is None for t in texts):
            return None
        out.append(pair)
    return out


def is_import(old, text):
    """Whether an old text stands in an import."""
    return text[: text.find(old)].rsplit("\n", 1)[-1].startswith("use ") or old.startswith("use ")


def twinned(original, copy, before, after):
    """The changed text with the word that the file imports for a comparison, where the scripts left an older one that it does not."""
    have = {name for _, name in imported(original)}
    for old, new in TWINS.items():
        if old not in have and new in have and old not in words(before):
            after = re.sub(rf"(?<![\w.'-]){old}(?![\w'-])", new, after)
    return after


def pieces_of(file, layer, original, copy):
    """({edit: [(text of the turned file, text of the turned copy), ..]}, whether the imports are left out of them), or what is odd.

    The texts are blocks without imports. Only of an edit that has a copy for itself they are the whole files, where in a .rt
    file the imports are edited, or where blocks begin and end.
    """
    a, b = ([x for x in blocks(plain(text)) if not is_head(x)] for text in (original, copy))
    differ = [(x, y) for x, y in zip(a, b) if x != y]
    apart = len(a) == len(b) and (WHOLE not in layer or file.endswith(".antt"))
    pieces = collections.defaultdict(list)
    if apart and WHOLE in layer:
        owners = [layer[WHOLE][0]] * len(differ)
    elif apart and len(differ) == len(layer):
        owners = [layer[i][0] for i in sorted(layer)]
    elif WHOLE in layer:
        return {layer[WHOLE][0]: [(plain(original), plain(copy))]}, False
    else:
        lines = difflib.unified_diff("\n\n".join(a).split("\n"), "\n\n".join(b).split("\n"), lineterm="", n=0)
        return None, f"the copy differs in {len(differ)} blocks, and {len(layer)} were edited:\n" + "\n".join(list(lines)[2:])
    for edit, (x, y) in zip(owners, differ):
        pieces[edit].append((x, twinned(original, copy, x, y)))
    return pieces, True


def turned_pairs(edit, file, pieces, apart, old_text, original, now):
    """(how they were found, the pairs of an edit for one file in today's spelling); else (None, what is wrong)."""
    target = plain(original)
    for x, y in pieces:
        if not x or target.count(x) != 1:
            return None, f"a block of {file} does not stand once"
        target = target.replace(x, y)
    mine = [(o, w) for f, o, w in edit.pairs if f == file and not (apart and is_import(o, old_text))]
    # the old pairs where they still do; else their words turned one by one; else the lines that differ
    tries = [("as it was", mine)] + [("by words", [(guess(o, c), guess(w, c)) for o, w in mine]) for c in (False, True)]
    tries.append(("from the lines that differ", computed(edit, file, pieces, [original, now], old_text)))
    for way, pairs in tries:
        if pairs and good(pairs, [original, now], target):
            return way, pairs
    lines = "\n".join(f"- {x}\n+ {y}" for p, q in pieces for x, y in changed_lines(p, q))
    return None, f"no pairs of lines, whose old text stands once in {file} today, make what the scripts made:\n{lines}"


def turned_edits(old, turned, checkout, layers, complain, count):
    """{edit: {file: [(old, new), ..]}} in today's spelling."""
    found = collections.defaultdict(dict)
    for file in sorted(layers):
        there, here = today(file, turned), today(file, checkout)
        if not there or not here:
            for edit in {e for layer in layers[file] for e, _ in layer.values()}:
                complain(edit, f"{file} stands nowhere today")
            continue
        old_text, original, now = read(os.path.join(old, file)), read(os.path.join(turned, there)), read(os.path.join(checkout, here))
        for n, layer in enumerate(layers[file], 1):
            copy = read(os.path.join(turned, today(variant_path(file, n), turned)))
            pieces, apart = pieces_of(file, layer, original, copy) if layer else ({}, True)
            if pieces is None:
                for edit in {e for e, _ in layer.values()}:
                    complain(edit, f"{variant_path(file, n)}: {apart}")
                continue
            for edit, those in pieces.items():
                way, pairs = turned_pairs(edit, file, those, apart, old_text, original, now)
                if way is None:
                    complain(edit, pairs)
                    continue
                before, after = ("\n".join(piece[k] for piece in those) for k in (0, 1))
                imports = import_pairs(original, copy, None if WHOLE in layer else before, after, [original, now]) if apart else []
                if imports is None:
                    complain(edit, f"an import is to be added to {file}")
                    continue
                count[way] += 1
                if imports and not any(is_import(o, old_text) for f, o, _ in edit.pairs if f == file):
                    count["with an import more"] += 1
                found[edit][file] = imports + pairs
    return found


def good(pairs, texts, target):
    """Whether the pairs can be applied to each text, and make the target of the first, but for layout."""
    for k, text in enumerate(texts):
        for pair in pairs:
            text = applied(text, *pair)
            if text is None:
                return False
        if k == 0 and meaning(text) != meaning(target):
            return False
    return all(old != new for old, new in pairs)


# ---- edits that no script turns: the pairs in today's spelling

HAND = {
    # port.py takes a constant among imports out of them, and all falls in another order
    "must-fail/code/questions/pairs_sources_alone.edit": {
        "crates/questions/src/pairs.rt": [
            ("    if borne == 0 {", "    if borne < LAST_WORD {"),
            ("use rows::layout::{REQUEST, ROWS, SOURCE, VIA};", "use rows::layout::{REQUEST, ROWS, SOURCE, VIA}; const LAST_WORD: u32 = 4294967295;"),
        ]
    },
}


# ---- names

DECLARED = re.compile(r"^\s*(?:(?:unfoldable|abbrev|pub|mutual|opaque|data|record)\s+)*([^\s:(){}]+) :(?: |$)", re.M)


def renamed(old, turned):
    """{name in the old spelling: name today} of what proofs/ and specs/ declare: the n-th declaration of a file is today's n-th."""
    names = {}
    for path in glob.glob(os.path.join(old, "crates/*/*/**/*.antt"), recursive=True):
        file = os.path.relpath(path, old)
        if "Variant" in file or not today(file, turned):
            continue
        a, b = DECLARED.findall(read(path)), DECLARED.findall(read(os.path.join(turned, today(file, turned))))
        if len(a) == len(b):
            names.update(zip(a, b))
    return names


def names_in(line, names, checkout, complain):
    """A line 'refused-by:', 'edits-too:', 'without-code-of:' or 'equal:' with today's names."""
    key, value = line.split(": ", 1)
    if key == "without-code-of":
        for crate in value.split():
            if not os.path.isdir(os.path.join(checkout, "crates", crate)):
                complain(f"no crate {crate}")
        return line
    if "::" in value:
        function = value.split("::")[-1]
        crate = value.split("::")[0]
        if not any(re.search(rf"\bfn {function}\b", read(p)) for p in glob.glob(os.path.join(checkout, "crates", crate, "src/**/*.rt"), recursive=True)):
            complain(f"no function {value}")
        return line
    name, comma, rest = value.partition(", ")
    now = names.get(name, name)
    if not any(re.search(rf"^\s*(?:pub )?{re.escape(now)} :", read(p), re.M) for p in glob.glob(os.path.join(checkout, "crates/*/*/**/*.antt"), recursive=True)):
        complain(f"no declaration {now}, once {name}")
    if rest and not os.path.isfile(os.path.join(checkout, rest)):
        complain(f"no file {rest}")
    return f"{key}: {now}{comma}{rest}"


NAMED = ("refused-by: ", "edits-too: ", "without-code-of: ", "equal: ")


def new_lines(edit, found, names, checkout, complain):
    """The lines of an edit in today's spelling: its own lines, with the pairs of each file where the first pair of it stood."""
    out, done, file, named = [], set(), None, None
    for line in edit.lines:
        if line.startswith("file: "):
            file = edit.prefix + line[6:]
            if file not in done:
                out.append("file: " + today(file, checkout)[len(edit.prefix) :])
        elif line.startswith("old: "):
            continue
        elif line.startswith("new: "):
            if file not in done:
                done.add(file)
                for old, new in found[file]:
                    out += ["old: " + old, "new: " + new]
        elif line.startswith(NAMED):
            out.append(names_in(line, names, checkout, lambda why: complain(edit, why)))
        else:
            out.append(line)
    return out


# ---- the two ways to run it


def check(top):
    edits, bad, odd = edits_below(top), 0, 0
    for edit in edits:
        texts = {}
        for file, old, new in edit.pairs:
            if file not in texts:
                texts[file] = read(os.path.join(top, file)) if os.path.isfile(os.path.join(top, file)) else ""
            text = applied(texts[file], old, new)
            if text is None:
                print(f"BAD {edit.name}: in {file} stands {texts[file].count(old)} times: {old}")
                bad += 1
                break
            if text == texts[file]:
                print(f"BAD {edit.name}: it changes nothing")
                bad += 1
            texts[file] = text
            for line in (old, new):
                bare = re.sub(r'b?"(?:\\.|[^"\\])*"', "", line)
                if re.search(r"[·⌜⌝]| \.[a-z]|\bgetD\b|\b[a-z]+[A-Z]", bare):
                    print(f"old spelling? {edit.name}: {line}")
                    odd += 1
    print(f"{len(edits)} edits, {sum(len(e.pairs) for e in edits)} pairs; {bad} bad, {odd} lines that look like the old spelling")
    return 1 if bad else 0


def main(argv):
    if argv == ["--check"]:
        return check(".")
    if not argv or argv[0].startswith("-") or not os.path.isdir("crates"):
        print(__doc__)
        return 2
    keep = os.path.abspath(argv[2]) if argv[1:2] == ["--keep"] and len(argv) == 3 else None
    work = keep or tempfile.mkdtemp(prefix="respell-edits-")
    old, turned = os.path.join(work, "old"), os.path.join(work, "turned")
    wrong = collections.OrderedDict()

    def complain(edit, why):
        wrong.setdefault(edit, [])
        if why not in wrong[edit]:
            wrong[edit].append(why)

    try:
        if not os.path.isdir(old):
            old_tree(argv[0], old)
        edits = edits_below(old)
        layers = plan(old, edits, complain)
        print(f"{len(edits)} edits with {sum(len(e.pairs) for e in edits)} pairs, in {sum(len(l) for l in layers.values())} copies of {len(layers)} files", flush=True)
        if not os.path.isdir(turned):
            half = os.path.join(work, "half-turned")
            shutil.rmtree(half, ignore_errors=True)
            old_tree(argv[0], half)
            write_variants(half, layers)
            turn_tree(half)
            os.rename(half, turned)
        for file in layers:
            a, b = today(file, turned), today(file, ".")
            if a and b and read(os.path.join(turned, a)) != read(b):
                print(f"look: {b} is not what the scripts make of {file}; the edits' texts must stand in it all the same")
        ways = collections.Counter()
        for file in list(layers):
            layers[file] = [{i: (e, b) for i, (e, b) in layer.items() if e.where not in HAND} for layer in layers[file]]
        found = turned_edits(old, turned, ".", layers, complain, ways)
        found.update({edit: HAND[edit.where] for edit in edits if edit.where in HAND})
        names = renamed(old, turned)
        changed = collections.defaultdict(dict)
        for edit in edits:
            if edit not in wrong:
                changed[edit.where][edit.at] = (edit, new_lines(edit, found[edit], names, ".", complain))
        count = kept = 0
        for where, parts in sorted(changed.items()):
            there = parts_of(where, read(where))
            for at, (edit, lines) in parts.items():
                if edit in wrong:
                    continue
                if at >= len(there) or there[at].split("\n") != edit.lines:
                    print(f"left as it is, since it is not the edit of {argv[0]}: {edit.name}")
                    kept += 1
                    continue
                there[at] = "\n".join(lines)
                count += 1
            write(where, "\n\n".join(there) + "\n")
        for edit, whys in wrong.items():
            print(f"by hand: {edit.name}: " + "; ".join(whys))
        print("changed files of edits: " + ", ".join(f"{n} {way}" for way, n in ways.most_common()))
        print(f"{count} edits turned, {kept} left as they are, {len(wrong)} by hand")
        return 1 if wrong else 0
    finally:
        if not keep:
            shutil.rmtree(work, ignore_errors=True)


if __name__ == "__main__":
    sys.exit(main(sys.argv[1:]))
