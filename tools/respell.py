#!/usr/bin/env python3
"""Brings the repository's own names to today's spelling, once, right after the toolchain's port.py and at the top of what it left.

Definitions, lemmas, fields and aliases of specs/ and proofs/ go to snake case (`entry-line` to `entry_line`, `weightOf` to `weight_of`), aliases of types to
camel case, and the crate csv, whose name a library of the toolchain now has, becomes csv_text. Names of functions in src/, names that cross to C, strings,
inputs and outputs stay. In the pages and the must-fail edits the names follow.
"""
import glob
import os
import re
import subprocess

CRATES = "basis bitset constraint pacsolve catalogue plan price node search lister csv report boxplan abi demands".split()
# Aliases of types are types, and names that would fall together, with one another or with a function's, stay apart.
SPECIAL = {
    "A-plan": "APlan",
    "A-node": "ANode",
    "A-best": "ABest",
    "Is-before": "IsBefore",
    "Is-sound": "IsSound",
    "Is-under": "IsUnder",
    "Sound-at": "SoundAt",
    "slots-of": "slots_of_append",
    "entries-of": "entries_of_append",
    "package-of": "package_placed",
    "worth-of": "number_worth",
    "set-of": "set_joined",
    "basePrice": "base_price_of",
    "entryField": "field_of_entry",
    "slotField": "field_of_slot",
}
# The function beside these definitions has their name.
IN_CATALOGUE = {"keyOf": "entry_key", "nameOf": "entry_name"}
TOKEN = re.compile(r"[A-Za-zκℓ_][\w'₀-₉]*(?:-[\w'₀-₉]+)*")
WHOLE = r"(?<![\w'₀-₉-])%s(?![\w'₀-₉-])"


def without_comment(line):
    """Returns a line of antt with no comment and no strings."""
    line = re.sub(r'"[^"]*"', '""', line)
    at = line.find("--")
    while at > 0 and not line[at - 1].isspace():
        at = line.find("--", at + 2)
    return line if at < 0 else line[:at]


def respelled(name):
    if name in SPECIAL:
        return SPECIAL[name]
    snake = re.sub(r"(?<=[a-z0-9])([A-Z])", lambda it: "_" + it[1].lower(), name) if name[0].islower() else name
    return snake.replace("-", "_")


def is_old(name):
    return "-" in name or bool(re.match(r"[a-z]\w*[A-Z]", name))


def own_names():
    """Returns the names to respell: those of specs/ and of the files of lemmas, and the aliases in clauses, that no library of the toolchain gives."""
    names = set()
    for path in glob.glob("crates/*/specs/*.antt") + glob.glob("crates/*/proofs/*.antt"):
        text = "\n".join(map(without_comment, read(path).split("\n")))
        given = set()
        for module, listed in re.findall(r"^use ([^\s{]+)\.\{([^}]*)\}", text, re.M):
            if not re.match(r"Rattle\.(%s)\." % "|".join(CRATES), module):
                given |= {it.strip().split(" as ")[0] for it in listed.split(",")}
        names |= {it for it in TOKEN.findall(text) if is_old(it) and it not in given}
    for path in glob.glob("crates/*/src/**/*.rt", recursive=True):
        for listed in re.findall(r"^ghost use [^\s{]+\.\{([^}]*)\}", read(path), re.M):
            names |= {it for word in listed.split(",") for it in word.strip().split(" as ") if is_old(it)}
    return names


def read(path):
    with open(path, encoding="utf-8", newline="") as it:
        return it.read()


def write(path, text):
    if text != read(path):
        with open(path, "w", encoding="utf-8", newline="") as it:
            it.write(text)


def renamer(names, special):
    turned = {**{it: respelled(it) for it in names}, **special}

    def rename(text):
        return TOKEN.sub(lambda it: turned.get(it[0], it[0]), text)

    return rename


def in_antt(rename, text):
    lines = []
    for line in text.split("\n"):
        code = without_comment(line)
        if '"' in line or code == line:
            # (no name of the repository stands in a string)
            lines.append(rename(line) if not line.lstrip().startswith("--") else line)
        else:
            lines.append(rename(code) + re.sub(r"`[^`]+`", lambda it: rename(it[0]), line[len(code):]))
    return "\n".join(lines)


def in_source(rename, text):
    """Renames in the imports for clauses and in the clauses, which stand between a signature and its body."""
    lines, within = [], False
    for line in text.split("\n"):
        starts = re.match(r"\s*(requires|ensures|ghost)\*?\b", line)
        within = bool(starts) or (within and not re.match(r"\s*[{}]\s*$", line))
        lines.append(rename(line) if within and not line.lstrip().startswith("//") else line)
    return "\n".join(lines)


def in_page(rename, text):
    return re.sub(r"`[^`\n]+`", lambda it: rename(it[0]), text)


def csv_renamed(path, text):
    text = re.sub(r"\bRattle\.csv\.", "Rattle.csv_text.", text)
    if path.endswith((".rt", ".edit", ".antt")):
        text = re.sub(r"\bcsv::", "csv_text::", text)
    if path.endswith(".md"):
        text = re.sub(r"`csv::", "`csv_text::", text)
        text = re.sub(r"\bcsv/(specs|proofs|src|must-fail)/", r"csv_text/\1/", text)
        text = re.sub(r"`csv`", "`csv_text`", text)
    return text


def main():
    names = own_names()
    rename, in_catalogue = renamer(names, {}), renamer(names, IN_CATALOGUE)
    for path in glob.glob("crates/**/*.antt", recursive=True):
        here = in_catalogue if path.startswith("crates/catalogue/") else rename
        write(path, csv_renamed(path, in_antt(here, read(path))))
    for path in glob.glob("crates/*/src/**/*.rt", recursive=True):
        here = in_catalogue if path.startswith("crates/catalogue/") else rename
        write(path, csv_renamed(path, in_source(here, read(path))))
    for path in glob.glob("crates/*/must-fail/*.edit"):
        write(path, csv_renamed(path, rename(read(path))))
    for path in ["README.md", "tests/README.md", *glob.glob("docs/*.md")]:
        write(path, csv_renamed(path, in_page(rename, read(path))))
    write("crates.txt", re.sub(r"(?m)(?<!#)\bcsv\b", "csv_text", read("crates.txt")))
    if os.path.isdir("crates/csv"):
        subprocess.run(["git", "mv", "crates/csv", "crates/csv_text"], check=True)


if __name__ == "__main__":
    main()
