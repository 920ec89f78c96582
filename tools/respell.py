#!/usr/bin/env python3
"""Turns the repository's own definitions and lemmas to snake case, in one go: .antt files, the clauses and comments of .rt files, the must-fail
edits and the names that pages give between backticks. Run at the top of the checkout, once, on the commit in which port.py ran:

    python3 tools/respell.py OLD

OLD is a folder with the last text in the older spelling. From the two texts it also learns what port.py respelled, and turns the edits alike.
It prints names that would fall together, and the edits whose text still does not stand exactly once.
"""

import collections
import difflib
import os
import re
import sys

WORD = re.compile(r"[A-Za-z0-9_'\-]+")
KEEP = {"invariant-loop", "decreases-loop"}
BY_HAND = {"questions3To5": "questions_3_to_5", "in-turn": "in_turn_lem"}
FIELDS = {"dense-longitude", "denseLongitude", "dense-latitude", "denseLatitude"}
DECLARED = re.compile(r"(?m)^ *(?:pub |abbrev |unfoldable |data |record |ruleset )*([^\s:(){}.,;λ]+) (?::|\(|\{)")
TOKEN = re.compile(r"[^\s(){}\[\].,;]+|[(){}\[\].,;]")


def walk(root, *endings):
    for folder, dirs, files in os.walk(root):
        dirs[:] = sorted(d for d in dirs if d not in ("out", ".git", "target"))
        for name in sorted(files):
            if name.endswith(endings):
                yield os.path.join(folder, name)


def read(path):
    with open(path, encoding="utf-8") as f:
        return f.read()


def write(path, text):
    with open(path, "w", encoding="utf-8") as f:
        f.write(text)


def snake(name):
    if name in BY_HAND:
        return BY_HAND[name]
    return re.sub(r"(?<=[a-z0-9])(?=[A-Z])", "_", name).replace("-", "_").lower()


def respelled():
    """Old name to new, of every declared name that is not in snake case and not a type's. A lemma that would get the name of a definition has
    `_lem` after it; the second answer has such lemmas that are in snake case already."""
    alike = collections.defaultdict(set)
    foreign = {w for path in walk("crates", ".antt", ".rt") for w in taken_from_libraries(read(path))}
    for path in walk("crates", ".antt"):
        for m in DECLARED.finditer(read(path)):
            n = m.group(1)
            if WORD.fullmatch(n) and not n[0].isupper() and n not in KEEP and n not in foreign:
                alike[snake(n)].add(n)
    names, lemmas = {}, {}
    for new, olds in alike.items():
        defined = [n for n in olds if n not in FIELDS and re.search("[a-z0-9][A-Z]", n)]
        for n in olds:
            to = new + "_lem" if defined and n not in defined and n not in FIELDS else new
            if n != to:
                (lemmas if n == new else names)[n] = to
    return names, lemmas


def in_words(text, names):
    return WORD.sub(lambda m: names.get(m.group(0), m.group(0)), text)


def in_ticks(text, names):
    return re.sub(r"`[^`\n]*`", lambda m: in_words(m.group(0), names), text)


def in_comment(text, names):
    camel = {a: b for a, b in names.items() if "-" not in a}
    return in_ticks(in_words(text, camel), names)


def antt(text, names, lemmas):
    own = {a: b for a, b in lemmas.items() if re.search(rf"(?m)^(?:pub )?{a} (?::|\(|\{{)|^(?:pub )?use [^\n]*\.\{{(?:[^}}]*, )?{a}[,}}]", text)}
    lines = []
    for line in text.split("\n"):
        if line.lstrip().startswith("--"):
            lines.append(in_comment(line, names))
        else:
            code, mark, note = line.partition(" -- ")
            lines.append(lone(in_words(code, names), own) + (mark + in_comment(note, names) if mark else ""))
    return "\n".join(lines)


def lone(code, own):
    """The lemmas of own in a line, but where the word is a part of a path."""
    return WORD.sub(lambda m: own.get(m.group(0), m.group(0)) if code[m.start() - 1 : m.start()] != "." and code[m.end() : m.end() + 1] != "." else m.group(0), code)


def source(text, names, lemmas):
    lines, depth = [], None
    for line in text.split("\n"):
        start = line.lstrip()
        if depth is None and start.startswith("//"):
            lines.append(in_comment(line, names))
            continue
        if depth is None and re.match(r"(pub )?(ghost|requires|ensures)\b", start):
            depth = 0
        if depth is None:
            lines.append(line)
            continue
        lines.append(in_words(line, names))
        depth += line.count("{") - line.count("}")
        if depth <= 0:
            depth = None
    return "\n".join(lines)


def fall_together(path, before, names, lemmas):
    seen = collections.defaultdict(set)
    for m in re.finditer(r"(?<![\w.'-])[A-Za-z0-9_'\-]+(?![\w.'-])", re.sub(r"(?m)--.*$", "", before)):
        seen[names.get(m.group(0), m.group(0))].add(m.group(0))
    for new, olds in seen.items():
        if len(olds) > 1 and not olds & lemmas.keys():
            print(f"fall together in {path}: {', '.join(sorted(olds))} as {new}")


def taken_from_libraries(text):
    """The words that a file takes from libraries: those keep their spelling."""
    for m in re.finditer(r"(?m)^(?:ghost )?(?:pub )?use ([\w.'+-]+)\.\{([^}]*)\}", text):
        own = re.match(r"Rattle\.(\w+)\.", m.group(1))
        if own and os.path.isdir(os.path.join("crates", own.group(1))) and ".declared." not in m.group(1):
            continue
        yield from WORD.findall(m.group(2))


def learnt(old_root):
    """What port.py made of the words of each crate: pairs of words that stand in each other's place."""
    pairs = collections.defaultdict(collections.Counter)
    for path in walk("crates", ".antt", ".rt"):
        before = os.path.join(old_root, path)
        if not os.path.exists(before):
            continue
        a, b = TOKEN.findall(read(before)), TOKEN.findall(read(path))
        for tag, i, j, k, l in difflib.SequenceMatcher(None, a, b, autojunk=False).get_opcodes() if len(a) < 6000 else []:
            if tag == "replace" and j - i == l - k:
                for x, y in zip(a[i:j], b[k:l]):
                    if len(x) > 1 and WORD.fullmatch(x) and WORD.fullmatch(y) and y not in ("result", "Rattle", "std"):
                        pairs[x][y] += 1
    best = {x: ys.most_common(1)[0][0] for x, ys in pairs.items()}
    return {x: y for x, y in best.items() if plain(x) == plain(y)} | {"getD": "get_or", "leb": best.get("leb", "leb")}


def plain(word):
    """A word without what respelling changes."""
    return re.sub(r"[-_]|_lem$", "", word).lower()


def turned(text, ports, names):
    """An edit's text in today's spelling."""
    text = re.sub(r"Rattle·(\w+)·(specs|proofs)\.\2\.", r"Rattle.\1.\2.", text)
    text = re.sub(r"Rattle·(\w+)\.", r"Rattle.\1.", text)
    text = re.sub(r"\((\w[\w'-]*(?: \.[\w'-]+)+)\)", lambda m: m.group(1).replace(" .", "."), text)
    text = re.sub(r"(?<=[\w)']) \.(?=[a-z])", ".", text)
    text = re.sub(r"ensures \{ λ r\. ⌜ (.*) ⌝ \}", lambda m: "ensures { " + re.sub(r"\br\b", "result", m.group(1)) + " }", text)
    text = re.sub(r"⌜ (.*?) ⌝", r"\1", text)
    text = re.sub(r"\(now \((\w+)\.entry\)\)|\(now (\w+)\)", lambda m: (m.group(1) or m.group(2)) + ".now", text)
    text = text.replace("«in_dense»", "in_dense")
    return in_words(in_words(text, ports), names)


def edit(path, ports, names):
    crate = os.path.dirname(os.path.dirname(path))
    lines, file, texts = [], None, {}
    for line in read(path).split("\n"):
        key, _, rest = line.partition(": ")
        if key == "file":
            file = rest
            texts.setdefault(file, read(os.path.join(crate, file)) if os.path.exists(os.path.join(crate, file)) else "")
        if key in ("old", "new"):
            text = rest
            if key == "old":
                kept = texts[file].count(rest) == 1
            if not kept:
                text = turned(rest, ports, names)
            if key == "old" and texts[file].count(text) != 1:
                print(f"edit {path}: {texts[file].count(text)} times in {file}: {text}")
            if key == "old":
                was = text
            else:
                texts[file] = texts[file].replace(was, text, 1)
            line = f"{key}: {text}"
        lines.append(line)
    write(path, "\n".join(lines))


def main(old_root):
    names, lemmas = respelled()
    ports = learnt(old_root)
    files = [(p, antt) for p in walk("crates", ".antt")] + [(p, source) for p in walk("crates", ".rt")]
    for path, how in files:
        text = read(path)
        if how is antt:
            fall_together(path, text, names, lemmas)
        write(path, how(text, names, lemmas))
    pages = [p for p in walk(".", ".md") if not p.startswith("./crates/")]
    for path in pages + [p for p in walk("tests", ".rs", ".c")] + [p for p in walk("bench", ".rs")]:
        text = read(path)
        turned_text = in_ticks(in_ticks(text, ports if path.endswith(".md") else {}), names)
        if turned_text != text:
            write(path, turned_text)
    for path in walk("crates", ".edit"):
        edit(path, ports, names)
    print(f"{len(names) + len(lemmas)} names")


if __name__ == "__main__":
    main(sys.argv[1])
