#!/usr/bin/env python3
"""Spells this repository's own definitions and lemmas as today's Rattle spells names.

usage: respell.py [--table] [FOLDER]

Run once, at the top of a tree (FOLDER, or here) that /opt/rattle/port/port.py has just turned.
Words of functions, lemmas, fields and constructors come into snake case, by the rows of
respell.tsv beside this script (old, a tab, new). With --table the rows are made anew from the
tree and written there. A word that a file imports from a library stays in that file.
Besides: the parts of a made name that are a name of src/ keep their spelling; files named
Contracts.antt become Promises.antt; `before x` and `after x` of a clause are written by today's
fields of a reference.
"""

import collections
import os
import re
import subprocess
import sys

HERE = os.path.dirname(os.path.realpath(__file__))
TABLE = os.path.join(HERE, "respell.tsv")
WORD = re.compile(r'[^\s(){}.;,@"«»:\[\]`]+')
COMMENT = re.compile(r'(?<![^\s(){}.;,@"«»])--[^\n]*')
DECLARED = re.compile(
    r'^\s*((?:abbrev|pub|unfoldable)\s+)*([^\s(){}.;,@"«»:|=]+)(\s+\{[^{}]*\})*\s*:(\s|$)')
TYPE = re.compile(r'^\s*(?:pub\s+)?(record|data)\s+(?:pub\s+)?([^\s(){}.;,@"«»:|=]+)')
USE = re.compile(r"(?m)^\s*(?:pub |ghost )*use (\S+)\.\{([^}]*)\}")
MADE = re.compile(r"^(Need|After|Left|In|At|Then|Else|Before|Held)-")
# Both are fields and variables, of one meaning.
TOGETHER = {"site-memory", "coordinator-memory"}
# Where a place of src/ has the name already.
APART = {"decksPlace": "decks_place_of"}


def snake(word):
    if re.match(r"^[a-zμ◌]", word):
        word = re.sub(r"(?<=[a-z0-9])([A-Z])", lambda m: "_" + m[1].lower(), word)
    return word.replace("-", "_")


def walk(root):
    for folder, dirs, files in os.walk(os.path.join(root, "crates")):
        dirs[:] = sorted(d for d in dirs if d not in ("out", "must-fail"))
        for f in sorted(files):
            if f.endswith((".antt", ".rt")):
                path = os.path.join(folder, f)
                with open(path, encoding="utf-8") as it:
                    yield path, it.read()


def of_libraries(text):
    found = set()
    for m in USE.finditer(text):
        if not re.match(r"Rattle\.(?!std\b|core\b)", m[1]):
            for name in m[2].split(","):
                found.update(name.strip().split(" as "))
    return found


def make_table(root):
    declared = set()
    trees = list(walk(root))
    for path, text in trees:
        if path.endswith(".antt"):
            for line in COMMENT.sub("", text).split("\n"):
                if not re.match(r"(pub )?use ", line):
                    for m in (DECLARED.match(line), TYPE.match(line)):
                        if m:
                            declared.add(m[2])
    rows = {w: snake(w) for w in declared if snake(w) != w and re.search("[A-Za-z]", w)}
    rows.update(APART)
    meet = set()
    for path, text in trees:
        if not path.endswith(".antt"):
            continue
        text = COMMENT.sub("", text)
        library = of_libraries(text)
        seen = collections.defaultdict(set)
        for m in re.finditer(r'(\.)?([^\s(){}.;,@"«»:]+)( =(?!=))?', text):
            word = m[2]
            if m[1] or word in library:
                continue
            ahead = text[max(0, m.start() - 40):m.start()]
            if m[3] and not re.search(r"let\s*$", ahead) and re.search(r"[{;]\s*$", ahead):
                continue
            seen[rows.get(word, word)].add(word)
        for words in seen.values():
            if len(words) > 1:
                meet.update(w for w in words if "-" in w and w not in TOGETHER)
    for word in meet:
        if word in rows:
            rows[word] += "_lem"
    with open(TABLE, "w", encoding="utf-8") as out:
        for old in sorted(rows):
            out.write(f"{old}\t{rows[old]}\n")
    return rows


def read_table():
    with open(TABLE, encoding="utf-8") as it:
        return dict(line.rstrip("\n").split("\t") for line in it if line.strip())


def names_of_source(trees):
    found = set()
    for path, text in trees:
        if path.endswith(".rt"):
            code = re.sub(r"//[^\n]*", "", text)
            found.update(w for w in re.findall(r"[a-z][a-z0-9_]*", code) if "_" in w)
    return found


def keep_source(word, names):
    """The parts of a made name that are a name of src/ keep their spelling."""
    parts = word.split("-")
    out, i = [], 0
    while i < len(parts):
        for j in range(len(parts), i + 1, -1):
            joined = "_".join(parts[i:j])
            bare = re.sub(r"\d+$", "", joined)
            if joined in names or bare in names and bare != joined:
                out.append(joined)
                i = j
                break
        else:
            out.append(parts[i])
            i += 1
    return "-".join(out)


def turn_antt(text, rows, names):
    library = of_libraries(COMMENT.sub("", text))

    def word(m):
        w = m[0]
        if w in library:
            return w
        bare = w.rstrip("₀₁₂'")
        if w in rows:
            made = re.match(r"\.(result|ensures|last|new|before)\b", m.string[m.end():])
            if m.start() and m.string[m.start() - 1] == "." and made:
                return snake(w)
            return rows[w]
        if bare != w and bare in rows:
            return rows[bare] + w[len(bare):]
        if w == "orElse":
            return "or_else"
        if "-" in w and re.search("[a-z]", w) and not w.startswith("-"):
            before = m.string[m.start() - 1] if m.start() else ""
            if before == "." or MADE.match(w):
                return keep_source(w, names)
            if w.replace("-", "_") in names:
                return w.replace("-", "_")
        return w

    def comment(m):
        line = m[0]
        listed = re.match(r"(--   ?\s*)(\S.*?)(  +.*)?$", line)
        if listed:
            head = WORD.sub(word, listed[2])
            gap = listed[3] or ""
            pad = len(listed[2]) - len(head)
            if gap and pad > 0:
                gap = " " * pad + gap
            elif gap and pad < 0:
                gap = " " * max(2, len(gap) - len(gap.lstrip()) + pad) + gap.lstrip()
            line = listed[1] + head + gap
        def camel(x):
            return rows.get(x[0], x[0]) if re.search(r"[a-z][A-Z]", x[0]) else x[0]
        return WORD.sub(camel, line)

    out, at = [], 0
    for m in COMMENT.finditer(text):
        out.append(WORD.sub(word, text[at:m.start()]))
        out.append(comment(m))
        at = m.end()
    out.append(WORD.sub(word, text[at:]))
    return "".join(out)


CLAUSE = re.compile(r"\b(requires|ensures)\*?\s*(?:\w+\s*)?\{|\bghost\s+use\b")


def closing(text, i):
    deep = 0
    for k in range(i, len(text)):
        deep += (text[k] == "{") - (text[k] == "}")
        if not deep:
            return k + 1
    return len(text)


def turn_rt(text, rows):
    out, at = [], 0
    for m in CLAUSE.finditer(text):
        if m.start() < at:
            continue
        line = text.rfind("\n", 0, m.start()) + 1
        if "//" in text[line:m.start()]:
            continue
        out.append(text[at:m.start()])
        if m[0].startswith("ghost"):
            end = text.index(";", m.start()) + 1
            part = text[m.start():end]
            part = re.sub(r"ghost use Rattle\.model\.specs\.Lent\.\{before, after\};", "", part)
            part = re.sub(r"ghost use Rattle\.model\.specs\.Lent\.\{(before|after)\};", "", part)
            if not part and text[end:end + 1] == "\n":
                end += 1
        else:
            end = closing(text, m.end() - 1)
            part = text[m.start():end]
            head = text[:m.start()]
            start = max(head.rfind("\nfn "), head.rfind(" fn "))
            signature = head[start:]
            def lent(x):
                name = x[2]
                if re.search(rf"\b{name}: &mut |&mut {name}\b", signature):
                    return f"{name}.{'old' if x[1] == 'before' else 'new'}"
                if re.search(rf"\b{name}: &|&{name}\b", signature):
                    return f"{name}.now"
                return x[0]
            part = re.sub(r"\((before|after) «?(\w+)»?\)", lent, part)
            part = re.sub(r"\b(before|after) «?(\w+)»?(?=\s*[≡×⌝};)])", lent, part)
        part = WORD.sub(lambda w: "or_else" if w[0] == "orElse" else rows.get(w[0], w[0]), part)
        out.append(part)
        at = end
    out.append(text[at:])
    text = "".join(out)

    def comment(m):
        return WORD.sub(lambda w: rows.get(w[0], w[0]) if re.search(r"[a-z][A-Z]", w[0]) else w[0], m[0])

    return re.sub(r"//[^\n]*", comment, text)


def main(argv):
    made = "--table" in argv
    rest = [a for a in argv if a != "--table"]
    root = os.path.abspath(rest[0] if rest else ".")
    rows = make_table(root) if made else read_table()
    trees = list(walk(root))
    names = names_of_source(trees)
    for path, text in trees:
        new = turn_antt(text, rows, names) if path.endswith(".antt") else turn_rt(text, rows)
        new = re.sub(r"\bspecs\.Contracts\b", "specs.Promises", new)
        if path.endswith("/specs/Lib.antt"):
            new = re.sub(r"(?m)^pub mod Contracts$", "pub mod Promises", new)
        if new != text:
            with open(path, "w", encoding="utf-8") as out:
                out.write(new)
        if path.endswith("/specs/Contracts.antt"):
            os.rename(path, path[: -len("Contracts.antt")] + "Promises.antt")
    for crate in sorted(os.listdir(os.path.join(root, "crates"))):
        folder = os.path.join(root, "crates", crate)
        if os.path.isdir(os.path.join(folder, "src")):
            subprocess.run(["rt", "fmt"], cwd=folder, stdout=subprocess.DEVNULL)
    return 0


if __name__ == "__main__":
    raise SystemExit(main(sys.argv[1:]))
