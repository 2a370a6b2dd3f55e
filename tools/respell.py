#!/usr/bin/env python3
"""respell: brings the repository's own definitions and lemmas to snake case, once, after the kit's port.py.

usage: tools/respell.py [--names]    at the top of the repository; --names prints the table and writes nothing

A name of specs/ or proofs/ that begins with a small letter and has a dash or a capital becomes words joined by underscores:
isRingSize is is_ring_size, credit-is-free-space is credit_is_free_space. Types, modules, functions of src/, labels that the
check makes (their types begin with `tie.`) and strings stay. Where a definition and a lemma would fall together, the lemma
gets the ending _lem; a field of a record may be called like a definition.
"""
import collections, glob, os, re, sys

NAME = r'[^\s(){}.;,@"«»]+'
DECLARED = re.compile(rf"(?m)^( *)((?:(?:pub|abbrev|unfoldable|let) +)*)({NAME})(?: +[({{][^\n]*?[)}}])* :(?= |$)(.*)")
BOUND = re.compile(rf"\blet +({NAME})(?= |$)")


def files(ending):
    return sorted(f for f in glob.glob(f"crates/**/*{ending}", recursive=True) if "/out/" not in f and os.path.isfile(f))


def code(text):
    return re.sub(r"(?m)--[^\n]*", lambda m: " " * len(m[0]), text)


def snake(name):
    name = re.sub(r"(?<=[a-z0-9])([A-Z]+(?![a-z])|[A-Z])", lambda m: "_" + m[0].lower(), name)
    return re.sub(r"(?<=\w)-(?=\w)", "_", name)


def in_record(lines, number, indent):
    """Whether the line stands in the block of a record."""
    for line in reversed(lines[:number]):
        if line.strip() and len(line) - len(line.lstrip()) < indent:
            return re.match(r" *(pub |abbrev )*(record|data) ", line) is not None
    return False


kinds = collections.defaultdict(set)
for file in files(".antt"):
    text = code(open(file, encoding="utf-8").read())
    lines = text.split("\n")
    for found in DECLARED.finditer(text):
        if re.match(r" (tie|goal)\.", found[4]) or found[3][0].isupper():
            continue
        if in_record(lines, text.count("\n", 0, found.start()), len(found[1])):
            kind = "field"
        elif "abbrev" in found[2] or "unfoldable" in found[2]:
            kind = "definition"
        else:
            kind = "lemma"
        kinds[found[3]].add(kind)
    for found in BOUND.finditer(text):
        if not found[1][0].isupper():
            kinds[found[1]].add("lemma")

# Names of modules and of parameters, which no signature declares.
for name in ("connection-edges txbuf-edges rxq-edges defs-edges packet-edges killq-edges table-edges isRw onRw bytesOfA ringBCD ruleE ringF formulaH popI ringR "
             "tableSlots table-means ring-ignores ring-means held-before record-bad header-bad clock-bad length-bad answer-bad").split():
    kinds[name].add("name")

table, words = {}, collections.defaultdict(set)
for name in kinds:
    words[snake(name)].add(name)
for word, names in words.items():
    defined = [n for n in names if "definition" in kinds[n]]
    for name in names:
        clash = len(names) > 1 and defined and name not in defined and "lemma" in kinds[name]
        if clash or name != word:
            table[name] = word + "_lem" if clash else word
    if len(defined) > 1:
        sys.exit(f"respell: two definitions fall together: {' '.join(defined)}")

if "--names" in sys.argv:
    for name in sorted(table):
        print(name, table[name], " ".join(sorted(kinds[name])), sep="\t")
    sys.exit()

WORD = re.compile(rf'"[^"\n]*"|(?<!tie\.)(?<!goal\.){NAME}')


def turned(text, dashes=True):
    def word(m):
        new = table.get(m[0])
        return new if new and (dashes or re.search("[A-Z]", m[0])) else m[0]

    return WORD.sub(word, text)


def fields(text):
    """A field keeps the plain word also where a lemma of the same name got an ending: in Pinned.antt, whose fields are named after functions."""
    return re.sub(r"(\b[a-z_0-9]+)_lem\b", r"\1", text)


for file in files(".antt"):
    old = open(file, encoding="utf-8").read()
    new = []
    for line in old.split("\n"):
        at = line.find("--") if re.search(r"(^|\s)--", line) else -1
        new.append(turned(line) if at < 0 else turned(line[:at]) + turned(line[at:], False))
    new = "\n".join(new)
    if os.path.basename(file) == "Pinned.antt":
        new = fields(new)
    if new != old:
        open(file, "w", encoding="utf-8").write(new)
for file in files(".rt"):
    old = open(file, encoding="utf-8").read()
    new = turned(old, False)
    if new != old:
        open(file, "w", encoding="utf-8").write(new)
print(f"respell: {len(table)} names")
