#!/usr/bin/env python3
"""Brings the repository's own definitions, lemmas and fields to the spelling of today's Rattle.

    python3 tools/respell.py          at the top of the repository, once, after port.py

Types in camel case, everything else in snake case. It renames what specs/ and proofs/ declare (what stands in proof folders of a function
is named after that function's goals and stays), in .rt and .antt files, in must-fail edits and between backticks of README and docs/.
Names that would fall together are printed, and kept apart by TOLD.
"""
import glob
import re
import sys

WORD = r"[^\s(){}\[\].,;:|`\"⌜⌝=λ→≡≢×⊎∷↔≤<>&]+"
# Where a lemma and the definition that it is about would have one name, the lemma says what it tells of it.
TOLD = {
    "is-end": "is_end_told",
    "is-path": "is_path_told",
    "ask-said": "ask_said_same",
    "finish-said": "finish_said_same",
    "withdraw-said": "withdraw_said_same",
    "items-within": "items_within_told",
    "names-on": "names_on_told",
    "not-asked": "not_asked_told",
    "not-finished": "not_finished_told",
    "not-withdrawn": "not_withdrawn_told",
    "operation-at": "operation_at_told",
    "placed-in": "placed_in_told",
    "row-at": "row_at_told",
    "taken_out": "took_out",
    "in_use": "length_in_use",
    "ask-core": "ask_core_told",
    "ends-expression": "ends_expression_told",
    "two-read": "two_read_told",
    "withdraw-found": "withdraw_found_told",
}
# Names of a proof's own, below a `where`.
LOCAL = ["builtAsk", "builtEntry", "builtPick", "builtExamined", "some-line"]
# Names that two crates have, for two things, and no file has both.
APART = ["nothing_left", "ReadsAs", "ask_line", "finish_line", "withdraw_line", "is_name", "one_more", "two_fields"]


def sources():
    out = []
    for kind in ("specs", "proofs"):
        out += glob.glob(f"crates/*/{kind}/**/*.antt", recursive=True)
    return sorted(p for p in out if not re.search(r"/proofs/.*(/Proof(\.antt|/)|[^/]/(Answers|Invariants)\.antt$)", p) or re.search(r"/proofs/Answers\.antt$", p))


def respelled(name):
    if name in TOLD:
        return TOLD[name]
    name = name.replace("′", "'")
    if name[0].isupper():
        return "".join(part[:1].upper() + part[1:] for part in re.split(r"[-_]", name))
    name = re.sub(r"(?<=[a-z0-9])([A-Z])", lambda m: "_" + m.group(1).lower(), name)
    return name.replace("-", "_")


def declared():
    tops, fields = {}, {}
    head = re.compile(r"^(?:(?:pub|abbrev|unfoldable|data|record)\s+)*(" + WORD + ")")
    inner = re.compile(r"^  (?:(?:pub|abbrev|unfoldable|data|record)\s+)*(" + WORD + r")[^:]*\s:(?:\s|$)")
    deep = re.compile(r"^ +(?:(?:pub|abbrev|unfoldable|data|record)\s+)*(" + WORD + r")[^:]*\s:(?:\s|$)")
    for path in sources():
        inside = None
        for line in open(path, encoding="utf-8"):
            if line.startswith("  ") and not line.startswith("   ") and inside:
                m = inner.match(line)
                if m and m.group(1) != "--":
                    (fields if inside == "record" else tops).setdefault(m.group(1), path)
                continue
            # what stands deeper: in a record, data or module inside another
            m = deep.match(line)
            if m and m.group(1) not in ("let", "in", "--") and line.startswith("    ") and inside:
                fields.setdefault(m.group(1), path)
                continue
            if not line.strip() or line.startswith((" ", "--")):
                continue
            m = head.match(line)
            inside = None
            if not m or m.group(1) in ("use", "mod", "infix", "infixl", "infixr", "unfolding", "open"):
                continue
            words = line.split(m.group(1))[0].split()
            inside = "record" if "record" in words else "data" if "data" in words else None
            if m.group(1) in ("mutual", "module"):
                inside = m.group(1)
                continue
            tops.setdefault(m.group(1), path)
    return tops, fields


def renames(names):
    return {n: respelled(n) for n in names if respelled(n) != n}


def main():
    tops, fields = declared()
    top, field = renames(list(tops) + LOCAL), renames(fields)
    after = {}
    clash = False
    for n in list(tops):
        after.setdefault(respelled(n), set()).add(n)
    for new, olds in sorted(after.items()):
        if len(olds) > 1 and new not in APART:
            clash = True
            print("fall together:", new, sorted(olds), [tops[o] for o in sorted(olds)])
    if clash or "--list" in sys.argv:
        for old, new in sorted(top.items()) if "--list" in sys.argv else []:
            print(old, new)
        for old, new in sorted(field.items()) if "--list" in sys.argv else []:
            print("." + old, new)
        return
    token = re.compile(r"(\.?)(" + WORD + ")")
    own = "|".join(sorted(c.split("/")[1] for c in glob.glob("crates/*/")))
    foreign = re.compile(r"^\s*(?:ghost |pub )?use (?!Rattle\.(?:" + own + r")\.)[^{;\n]*\{([^}]*)\}", re.M)

    def turned(line, kept=()):
        use = re.match(r"\s*(ghost use|use|pub use)\s", line) is not None

        def one(m):
            dot, word = m.groups()
            if word in kept:
                return dot + word
            if dot and not use:
                return dot + field.get(word, word)
            return dot + top.get(word, field.get(word, word))

        return token.sub(one, line)

    texts = glob.glob("crates/*/specs/**/*.antt", recursive=True) + glob.glob("crates/*/proofs/**/*.antt", recursive=True)
    for path in sorted(texts + glob.glob("crates/*/must-fail/*.edit")):
        old = open(path, encoding="utf-8").read()
        # what comes from a library keeps its name
        kept = {w for names in foreign.findall(old) for w in re.findall(WORD, names)}
        new = "".join(line if line.lstrip().startswith("--") else turned(line, kept) for line in old.splitlines(True))
        new = re.sub(r"`([^`\n]+)`", lambda m: "`" + turned(m.group(1)) + "`", new)
        if new != old:
            open(path, "w", encoding="utf-8").write(new)
    ghostly = re.compile(r"^\s*(ghost use|requires|ensures)\b")
    for path in sorted(glob.glob("crates/*/src/*.rt")):
        old = open(path, encoding="utf-8").read()
        out, deep = [], 0
        for line in old.splitlines(True):
            if deep or ghostly.match(line):
                out.append(turned(line))
                deep += line.count("{") - line.count("}")
            else:
                out.append(line)
        new = "".join(out)
        if new != old:
            open(path, "w", encoding="utf-8").write(new)
    for path in ["README.md"] + sorted(glob.glob("docs/*.md")):
        old = open(path, encoding="utf-8").read()
        new = re.sub(r"`([^`\n]+)`", lambda m: "`" + turned(m.group(1)) + "`", old)
        if new != old:
            open(path, "w", encoding="utf-8").write(new)


main()
