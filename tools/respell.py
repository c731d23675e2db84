#!/usr/bin/env python3
"""Brings the names of this repository's own definitions and lemmas to Rattle's spelling: words in
snake case, types and facts in camel case.

usage: python3 tools/respell.py        at the top of a checkout that port.py has turned, once

It reads the names that specs/ and proofs/ declare, and changes them wherever they are cited: in
.antt files, in the clauses, ghost members and `ghost use` lines of .rt files, and in the code spans
of README.md and docs/. Comments and strings of .rt files, and functions of src/, keep their names.
A name that the check makes (`pub NAME : goal.NAME`) is the check's own and is left alone.
"""
import glob
import re
import sys

# Names that would fall together with another: with a word of the library, with a function of src/.
APART = {"bit-and": "bit_and_lem", "kernels-are-alike": "kernels_are_alike_lem"}

# Facts that were spelled as words.
FACTS = {
    "capped-sound": "CappedSound",
    "from-kept": "FromKept",
    "offered-from": "OfferedFrom",
    "kept_from": "KeptFrom",
    "last_turn": "LastTurn",
    "now-first": "NowFirst",
}

# Names that are bound in a signature, a pattern or an import, and declared nowhere.
BOUND = """S-fits S-live U-fits U-live a-below a-long b-below b-long e-below e-chosen e-within first-order
first-row from-A from-B from-I from-J from-K from-M i-below is-offered live-long no-larger p-full p-low
q-full q-low r-low s-assigned second-order second-row u-assigned y-left y-low old-is by-quotas by-score
by-seats""".split()

STOPS = r"\s(){}\[\];,.:⌜⌝λ«»|`"
TOKEN = re.compile(rf"(\.?)([^{STOPS}]+)")
SIGNATURE = re.compile(r"\s*(?:(?:abbrev|unfoldable|pub) )*([^\s:{}()=|]+) : (.*)")
CODE = re.compile(r'"(?:[^"\\]|\\.)*"|//[^\n]*|[^"/]+|/', re.S)
SPAN = re.compile(r"```.*?```|`[^`\n]*`", re.S)


def read(path):
    with open(path, encoding="utf-8") as file:
        return file.read()


def declared(paths):
    """The dashed names that the files declare, and those of them that are fields."""
    names, fields, made = set(), set(), set()
    for path in paths:
        within_record = False
        for line in read(path).splitlines():
            if re.match(r"\s*(pub )?record ", line):
                within_record = True
            elif not line.strip() or not line.startswith(" "):
                within_record = False
            it = SIGNATURE.match(line)
            if not it or line.lstrip().startswith("--"):
                continue
            if it.group(2).startswith("goal."):
                made.add(it.group(1))
            elif "-" in it.group(1):
                names.add(it.group(1))
                if within_record:
                    fields.add(it.group(1))
    return names - made, fields


def spelled(name):
    if name in APART:
        return APART[name]
    if name in FACTS:
        return FACTS[name]
    if name[0].isupper() and len(name.split("-")[0]) > 1:
        return "".join(word[0].upper() + word[1:] for word in name.split("-"))
    return name.replace("-", "_")


def respell(text, table, fields):
    """The text with each name changed; behind a dot only a field is one of ours."""

    def change(it):
        dot, name = it.groups()
        if name in table and (not dot or name in fields):
            return dot + table[name]
        return it.group()

    return TOKEN.sub(change, text)


def respell_code(text, table, fields):
    """The same for Rust's text: strings and comments stay."""

    def change(it):
        part = it.group()
        return part if part.startswith(('"', "//")) else respell(part, table, fields)

    return CODE.sub(change, text)


def main():
    logic = glob.glob("crates/*/specs/**/*.antt", recursive=True) + glob.glob("crates/*/proofs/**/*.antt", recursive=True)
    code = glob.glob("crates/*/src/**/*.rt", recursive=True)
    pages = glob.glob("README.md") + [page for page in glob.glob("docs/*.md") if "/PORT" not in page]
    names, fields = declared(logic)
    names |= set(FACTS) | set(BOUND)
    table = {name: spelled(name) for name in names}

    taken = {}
    for path in logic + code:
        for _, word in TOKEN.findall(read(path)):
            taken.setdefault(word, path)
    clashes = [(name, new, taken[new]) for name, new in table.items() if new in taken]
    if len(set(table.values())) < len(table):
        clashes.append(("two names", "become one", ""))
    if clashes:
        sys.exit(f"respell: names fall together: {clashes}")

    for path in logic:
        text = read(path)
        new = respell(text, table, fields)
        # There a pattern binds the name; elsewhere the check makes it, after the function let_in.
        if path.endswith("seats/proofs/Trials.antt"):
            new = re.sub(r"\blet-in\b", "let_in", new)
        if new != text:
            open(path, "w", encoding="utf-8").write(new)
    for path in code:
        text = read(path)
        new = respell_code(text, table, fields)
        if new != text:
            open(path, "w", encoding="utf-8").write(new)
    for path in pages:
        text = read(path)
        new = SPAN.sub(lambda it: respell(it.group(), table, fields), text)
        if new != text:
            open(path, "w", encoding="utf-8").write(new)
    print(f"respell: {len(table)} names")


main()
