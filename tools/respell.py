#!/usr/bin/env python3
"""Brings the names of this repository's own definitions, lemmas, fields and variables in specs/ and proofs/ to snake case.

Run once at the top, after port.py. Names that a file takes from the kit keep their spelling, and so do names that the check makes
(in proofs/FUNCTION/). Types, modules, functions of src/ and strings are left. Names that would fall together are listed, and nothing is
written then.
"""

import glob
import re

CRATES = [line.split(":")[0] for line in open("crates.txt") if line.strip() and not line.startswith("#")]
TOKEN = re.compile(r"[A-Za-z0-9_'\u0370-\u03ff\u2080-\u2089][A-Za-z0-9_'\u0370-\u03ff\u2080-\u2089-]*")
CAMEL = re.compile(r"^[a-z][A-Za-z0-9']*[A-Z][A-Za-z0-9']*$")
USE = re.compile(r"use ([A-Za-z0-9_.·]+)\.\{([^}]*)\}", re.S)


def own(module):
    parts = module.split(".")
    return parts[0] == "Rattle" and len(parts) > 1 and parts[1] in CRATES


# Lemmas that would have the name of the definition which they are about.
LEMMAS = {
    name: name.replace("-", "_") + "_lem"
    for name in ["all-zero", "as-held", "cell_in", "header-bytes", "held-task", "in-turn", "numbers-in", "task-bytes", "task-row", "task-with"]
}


# Names that port.py brought to snake case itself, since the kit has the same; edits and pages still have them as they were.
TURNED = """
add-at, add-left, add-reads, add-start, all-done, all-hold, all-meet, all-none, allBelow, any-found, any-none, as-long, as-many,
block-held, block-none, blockAt, blockOf, by-bit, bytes-drop, bytes-take, bytesOf, cell-in, cellOf, cells-left, choiceOf,
clear-spec, count-most, each-append, each-at, each-first, each-lent, each-more, each-same, fill-done, fill-holds, fill-none,
finish-spec, first-past, firstOf, fits-all, fits-not, front-fits, front-same, goes-on, head-in, header-made, held-keeps, heldAt,
in-array, in-map, in-rows, inTurn, keeps-spec, least-step, left-end, left-one, length-over, main-spec, none-after, none-filled,
none-first, number-more, number-small, numberOf, one-answer, one-below, one-table, or-right, over-none, over-zero, past-room,
planOf, put-spec, read-back, rest-end, right-answer, row-at, row-below, row-is, row-step, row-within, rowOf, rowsOf, rule-value,
run-is, said-same, same-blocks, same-good, same-length, shut-out, some-written, step-went, table-none, tableOf, take-from-spec,
take-none, take-spec, taskOf, up-is, used-le, valueOf, went-on, widen-spec, word-more, words-more, zero-more, enum-told
"""


def snake(name):
    if name in LEMMAS:
        return LEMMAS[name]
    if CAMEL.match(name):
        name = re.sub(r"([a-z0-9])([A-Z])", lambda m: m[1] + "_" + m[2].lower(), name)
        name = re.sub(r"([A-Z])", lambda m: m[1].lower(), name)
    if name[:1].islower() or "-" in name:
        name = name.replace("-", "_")
    return name


def foreign(text):
    names = set()
    for module, items in USE.findall(text):
        if not own(module):
            for item in items.split(","):
                names.add(item.strip().split(" as ")[0].strip())
    return names


def declared(text):
    """What a file of specs/ or proofs/ declares: definitions, fields, constructors and sections' names."""
    found = set()
    for line in text.split("\n"):
        m = re.match(r"\s*(?:abbrev |unfoldable )*(?:pub )?(?:abbrev |unfoldable )*([^\s:(){},;]+)\s+(?::|\()", line)
        if m:
            found.add(m.group(1))
    return found


def functions(path):
    """Whether a file is the proof of one function, where the check makes names of its own."""
    return re.search(r"/proofs/.+/[^/]+\.antt$", path) is not None


def antt(path, text, names):
    kept = foreign(text)
    made = functions(path)
    cited = set()
    if made:
        for module, items in USE.findall(text):
            if own(module) and not re.search(r"\.(Tie|Reads|Lts|Statement|Goals|Given|Code|Met)$", module):
                for item in items.split(","):
                    cited.update(w.strip() for w in item.split(" as "))
    out = []
    for line in text.split("\n"):
        code, mark, comment = line.partition("-- ") if not line.startswith("--") else ("", "--", line[2:])
        def turn(m):
            t = m.group(0)
            if t in kept or "-" not in t and not CAMEL.match(t) and t not in LEMMAS:
                return t
            if made:
                before = code[: m.start()]
                field = before.endswith(".") or re.match(r"\s*[=:] ", code[m.end():]) is not None and not line[:1].strip()
                if not (t in cited and not before.endswith(".") or field and t in names["fields"]):
                    return t
            return snake(t)
        code = TOKEN.sub(turn, code)
        comment = TOKEN.sub(lambda m: snake(m.group(0)) if m.group(0) in names["all"] and CAMEL.match(m.group(0)) else m.group(0), comment)
        comment = re.sub(r"`([^`]*)`", lambda m: "`" + TOKEN.sub(lambda n: snake(n.group(0)) if n.group(0) in names["all"] else n.group(0), m[1]) + "`", comment)
        out.append(code + mark + comment)
    return "\n".join(out)


def source(text, names):
    return TOKEN.sub(lambda m: snake(m.group(0)) if CAMEL.match(m.group(0)) else m.group(0), text)


def known(text, names):
    return TOKEN.sub(lambda m: snake(m.group(0)) if m.group(0) in names["all"] and ("-" in m.group(0) or CAMEL.match(m.group(0))) else m.group(0), text)


def page(text, names):
    return re.sub(r"`([^`\n]*)`", lambda m: "`" + known(m[1], names) + "`", text)


def main():
    files = sorted(glob.glob("crates/*/specs/**/*.antt", recursive=True) + glob.glob("crates/*/proofs/**/*.antt", recursive=True))
    names = {"all": set(), "fields": set()}
    texts = {}
    for path in files:
        texts[path] = open(path, encoding="utf-8").read()
        if not functions(path):
            d = declared(texts[path])
            names["all"] |= d
            names["fields"] |= {n for line in texts[path].split("\n") for n in re.findall(r"^  (?:pub )?([^\s:(){},;]+) : ", line)}
    new, bad = {}, 0
    for path in files:
        text = texts[path]
        new[path] = antt(path, text, names)
        met = {}
        for m in TOKEN.finditer("\n".join(l for l in text.split("\n") if not l.strip().startswith(("--", "use ")))):
            t = m.group(0)
            to = t if t in foreign(text) or functions(path) else snake(t)
            met.setdefault(to, set()).add(t)
        for to, olds in met.items():
            if len(olds) > 1:
                print(f"{path}: {sorted(olds)} fall together as {to}")
                bad += 1
    falls = {}
    for n in names["all"]:
        falls.setdefault(snake(n), set()).add(n)
    for to, olds in sorted(falls.items()):
        if len(olds) > 1:
            print(f"over all files: {sorted(olds)} fall together as {to}")
    if bad:
        raise SystemExit(1)
    names["all"] |= {n.strip() for n in TURNED.split(",")}
    for path in glob.glob("crates/*/src/**/*.rt", recursive=True):
        new[path] = source(open(path, encoding="utf-8").read(), names)
    for path in glob.glob("crates/*/must-fail/*.edit"):
        new[path] = known(open(path, encoding="utf-8").read(), names)
    for path in ["README.md", "docs/DECISIONS.md", "docs/PROMISES.md", "docs/RULES.md"]:
        new[path] = page(open(path, encoding="utf-8").read(), names)
    for path, text in new.items():
        with open(path, "w", encoding="utf-8") as f:
            f.write(text)


main()
