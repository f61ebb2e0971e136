#!/usr/bin/env python3
"""Counts the places in crates/*/src that docs/DESIGN-PASS.md speaks of, point by point.

    python3 tools/forms.py          the counts, a line for each form
    python3 tools/forms.py -v       with every place
    python3 tools/forms.py ROOT     of another copy of the tree

A place is counted as kept below a line '// As it is: REASON', in a function or type whose comment
has one, and in a file that has one at its head.
"""
import os
import re
import sys

args = [a for a in sys.argv[1:] if a != "-v"]
verbose = "-v" in sys.argv
root = args[0] if args else os.path.join(os.path.dirname(os.path.abspath(__file__)), "..")
crates = os.path.join(root, "crates")

REFUSALS = (
    "NO_REFUSAL|SETTING_OUT_OF_RANGE|PHI_BELOW_EPSILON|TOO_FEW_COUNTERS|MEMORY_TOO_SHORT"
    "|UNKNOWN_SITE|UNKNOWN_ITEM|VALUE_TOO_LARGE|SITE_FULL|MESSAGE_NOT_DUE|AMOUNT_NOT_DUE"
    "|MEMORY_INCONSISTENT|LIST_TOO_SHORT|MALFORMED_LINE|LOG_TOO_SHORT|FILE_UNREADABLE"
    "|CHECKSUM_WRONG"
)
KINDS = "ITEM_REPORT|COUNT_REPORT|POLL|POLL_ANSWER|PROBE|PROBE_ANSWER|ANNOUNCEMENT"

# Forms that a line shows by itself: (point, name, pattern).
LINES = [
    ("1", "a refusal as a number in a record", r"^\s*(pub )?refusal: u32,"),
    ("1", "a function that answers a refusal's number", r"\bfn \w*refusal\("),
    ("1", "a refusal's number by its constant", r"\b(%s)\b" % REFUSALS),
    ("1", "a flag or a count beside a value",
     r"^\s*pub (found|whole|going|failed|taken|due|count): (bool|u32|u64|usize),"),
    ("1", "an own enum of the shape of Option", r"^pub enum (Leaving|Quantile)\b"),
    ("1", "a kind of message by its constant", r"kind (==|!=) (%s)\b" % KINDS),
    ("1", "a kind or a phase by its number", r"\b(which|kind|count|refusal) (==|!=|<) [0-9]"),
    ("3", "a loop that is no `for`", r"^\s*(while|loop)\b|= loop\b"),
    ("4", "a field from the variable of its name", r"^\s*(\w+): \1,$"),
    ("4", "a conversion by hand",
     r"\bfn (\w+_from|\w+_row|\w+_numbers|widened|wide|narrow|digit_byte|class_number)\("),
    ("6", "a place or a length beside a slice",
     r"^\s*(pub )?fn .*\[[^\]]*\], (at|place|from|count|used|length|first|start): usize"),
    ("7", "a function as a value", r"\bfn\(|\bdyn Fn|: &?\[fn"),
]


def sources():
    for crate in sorted(os.listdir(crates)):
        src = os.path.join(crates, crate, "src")
        for path, _, names in sorted(os.walk(src)):
            for name in sorted(names):
                if name.endswith(".rt"):
                    yield crate, os.path.join(path, name)


def items(text):
    """(first line, name, text) of each function, with its comment."""
    lines = text.split("\n")
    at = 0
    while at < len(lines):
        begun = re.match(r"^(\s*)(pub )?(const )?(extern \"C\" )?fn (\w+)", lines[at])
        if not begun:
            at += 1
            continue
        indent = begun.group(1)
        top = at
        while top > 0 and re.match(r"^\s*(//|#\[)", lines[top - 1]):
            top -= 1
        end = at
        while end < len(lines) and not lines[end].startswith(indent + "}"):
            end += 1
        yield top, end, begun.group(5), "\n".join(lines[at:end + 1])
        at = end + 1


def shape(body):
    """The body with each name and number replaced by the order of its coming."""
    code = body[body.index("\n{") + 2:] if "\n{" in body else body
    code = re.sub(r"//.*", "", code)
    seen = {}
    out = []
    for token in re.findall(r"[A-Za-z_]\w*|\d\w*|\S", code):
        if re.match(r"[A-Za-z_]|\d", token):
            if token in ("if", "else", "while", "for", "let", "mut", "return", "match", "as", "in"):
                out.append(token)
            else:
                out.append("n%d" % seen.setdefault(token, len(seen)))
        else:
            out.append(token)
    return tuple(out)


found = {}
order = []


def note(point, name, where, kept):
    key = (point, name)
    if key not in found:
        found[key] = []
        order.append(key)
    found[key].append((where, kept))


for point, name, _ in LINES:
    found[(point, name)] = []
    order.append((point, name))

shapes = {}
asked = {}
groups = {}
for crate, path in sources():
    text = open(path).read()
    lines = text.split("\n")
    if "#[cfg(test)]" in lines:
        lines = lines[:lines.index("#[cfg(test)]")]
        text = "\n".join(lines)
    reason = [False] * len(lines)
    head = 0
    while head < len(lines) and lines[head].startswith("//"):
        head += 1
    whole = any("As it is:" in x for x in lines[:head])
    # A reason holds to the end of the item below it.
    at = 0
    while at < len(lines):
        if "As it is:" in lines[at] and at >= head:
            indent = re.match(r"\s*", lines[at]).group(0)
            end = at
            while end + 1 < len(lines) and lines[end + 1].strip() != "" and not (
                    lines[end + 1].startswith(indent + "}")):
                end += 1
            for k in range(at, min(end + 2, len(lines))):
                reason[k] = True
        at += 1
    spans = list(items(text))
    for top, end, name, body in spans:
        if any("As it is:" in x for x in lines[top:end + 1]):
            first = next(k for k in range(top, end + 1) if "As it is:" in lines[k])
            if lines[first].startswith("//"):
                for k in range(top, end + 1):
                    reason[k] = True
    run = []
    for number, line in enumerate(lines + [""]):
        copied = re.match(r"^\s*(\w+): (\w+)\.\1,$", line)
        if copied and (not run or run[-1][1] == copied.group(2)):
            run.append((number, copied.group(2)))
            continue
        if len(run) > 2:
            note("4", "three fields or more copied by their names",
                 "%s/%s:%d %s" % (crate, os.path.basename(path), run[0][0] + 1, run[0][1]),
                 whole or reason[run[0][0]])
        run = [(number, copied.group(2))] if copied else []
    for number, line in enumerate(lines):
        if re.match(r"\s*//|ghost use |use ", line):
            continue
        if re.match(r"^\s+[A-Z_0-9, ]+,?( \w+,)*$", line) and "{" not in line and "(" not in line:
            continue
        for point, name, pattern in LINES:
            if re.search(pattern, line):
                note(point, name, "%s/%s:%d: %s" % (crate, os.path.basename(path), number + 1,
                                                    line.strip()), whole or reason[number])
        if re.match(r"^\s*(return )?(true|false);?$", line) and number > 0 and (
                re.search(r"\bif .*\{$", lines[number - 1])) and line.strip().startswith("return"):
            note("4", "a test as `if` and `return true` or `false`",
                 "%s/%s:%d" % (crate, os.path.basename(path), number), whole or reason[number])
    for top, end, name, body in spans:
        where = "%s/%s:%d %s" % (crate, os.path.basename(path), top + 1, name)
        kept = whole or any(reason[top:end + 1])
        code = shape(body)
        if len(code) > 24 and not crate.endswith("_c"):
            shapes.setdefault(code, []).append((where, kept))
        for clause in re.findall(r"^\s*requires (?:\w+ )?\{ (.*)", body, re.M):
            clause = clause.rstrip(" }")
            asked.setdefault(clause, []).append((where, kept))
        params = re.search(r"\(([^{]*?)\)\s*(->|\n|$)", body, re.S)
        if params:
            named = tuple(re.findall(r"(\w+): ", params.group(1)))
            for size in range(len(named), 2, -1):
                for i in range(len(named) - size + 1):
                    groups.setdefault(named[i:i + size], []).append((where, kept))

for code, places in shapes.items():
    if len(places) > 1:
        for where, kept in places:
            note("2", "a function of the same shape as another", where, kept)
for clause, places in asked.items():
    if len(places) > 2:
        for where, kept in places:
            note("5", "a `requires` that three functions have", clause + "  " + where, kept)
taken = set()
for params, places in sorted(groups.items(), key=lambda x: (-len(x[0]), -len(x[1]))):
    places = [p for p in places if p[0] not in taken]
    if len(places) > 2 and len(params) > 2:
        for where, kept in places:
            taken.add(where)
            note("5", "three parameters or more that three functions have", "%s  %s"
                 % (", ".join(params), where), kept)

for point in "1234567":
    for key in order:
        if key[0] != point:
            continue
        places = found[key]
        kept = sum(1 for _, k in places if k)
        print("%s  %4d found, %4d of them with a reason: %s" % (point, len(places), kept, key[1]))
        if verbose:
            for where, k in places:
                print("      %s %s" % ("kept" if k else "    ", where))
