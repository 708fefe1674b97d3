#!/usr/bin/env python3
"""Spells the repository's own definitions and lemmas as today's Rattle does: words in snake case, facts and types in camel case.

usage: python3 tools/respell.py, once, at the top, right after port.py. It was run in the commit that docs/PORT.md names on its second line.

A name is the repository's own where a file of specs/, or a file right in proofs/, declares it: a definition, a lemma, a constructor or
a field. Names that Rattle makes in a function's own proof folder keep their spelling, and so do functions of src/, exported names,
strings, and a name that a file takes from the library. A lemma that would fall together with a definition of its name gets '_lem'.
"""
import collections
import glob
import os
import re
import sys

WORD = r"[^\s:(){}\[\],;.@\"`|⟨⟩λ]+"
# what stands for a name in running text: letters, digits, and the signs that join words
TOKEN = re.compile(r"[A-Za-z_+][A-Za-z0-9_'?]*(?:[-→≤][A-Za-z0-9_'?→]+)*(?:·[A-Za-z0-9_'-]+)?")
ALIASES = {
    "Clocks·hertz": "hertz_of",
    "Search·nearer": "nearer_of",
    "Shown·cut": "cut_of",
    "Shown·hundredths": "hundredths_of",
    "Text·digit": "digit_of",
    "start_Fine": "start_fine",
}


def files_of(*patterns):
    return sorted({f for p in patterns for f in glob.glob(p, recursive=True) if os.path.isfile(f)})


def top_level(path):
    """a file of specs/, or one right in proofs/"""
    return re.match(r"crates/[a-z_0-9]+/(specs/.*|proofs/[^/]*)\.antt$", path) is not None


def declared():
    own = collections.defaultdict(set)
    for path in files_of("crates/*/specs/**/*.antt", "crates/*/proofs/*.antt"):
        for line in open(path, encoding="utf-8"):
            if line.lstrip().startswith("--") or line.startswith("use "):
                continue
            m = re.match(r"^(?:(?:pub|abbrev|unfoldable|data|record|private) )*(" + WORD + r")(?: *[({].*)? :(?: |$)", line) or re.match(
                r"^\s+(?:pub )?(" + WORD + r")(?: +[({].*)? : ", line
            )
            if m:
                own[m.group(1)].add(path)
            m = re.match(r"^\s*module (" + WORD + r") ", line)
            if m:
                own[m.group(1)].add(path)
        # and what is declared otherwise, several constructors on a line or a name under a 'where': each name with a dash or a hump
        # that is not the library's
        text = open(path, encoding="utf-8").read()
        library = from_library(text)
        for line in text.split("\n"):
            if not line.lstrip().startswith("--") and not line.startswith("use "):
                for m in re.finditer(r"(?<![\w-])" + TOKEN.pattern, line.split(" -- ")[0]):
                    word = m.group(0)
                    if word not in library and "·" not in word and re.match(r"[a-z].*(-|[a-z][A-Z])", word):
                        own[word].add(path)
    return own


def snake(name):
    name = name.replace("→", "_to_")
    name = re.sub(r"([a-z0-9])([A-Z])", r"\1_\2", name) if "-" not in name else name
    return name.replace("-", "_").lower().replace("__", "_")


# two that are no lemmas: flash has a definition of the one name, unit one of the other
OTHERWISE = {"erase-all": "all_erase", "at-command": "at_a_command"}


def camel(name):
    return "".join(w[:1].upper() + w[1:] for w in name.split("-"))


def mapping(own):
    table = {}
    by_new = collections.defaultdict(list)
    for name in own:
        if re.match(r"[A-Z]", name):
            # a fact keeps its capital; of 'B0-wakes', which is a field, the word is what counts
            if "-" in name:
                table[name] = snake(name) if re.match(r"[A-Z0-9]+-", name) else camel(name)
            continue
        if not re.match(r"[a-z]", name):
            continue
        by_new[snake(name)].append(name)
    for new, olds in by_new.items():
        for old in olds:
            # of two that fall together the lemma, with a dash, makes way
            target = new + "_lem" if len(olds) > 1 and "-" in old else new
            if old != target:
                table[old] = OTHERWISE.get(old, target)
    return table


def from_library(text):
    """the names that a file takes from elsewhere than the repository"""
    crates = {os.path.basename(d) for d in glob.glob("crates/*")}
    names = set()
    for m in re.finditer(r"\buse ([A-Za-z_.·◌+-]+?)\.\{([^}]*)\}", text):
        parts = m.group(1).replace("·", ".").split(".")
        if parts[0] == "Rattle" and len(parts) > 1 and parts[1] in crates:
            continue
        for item in m.group(2).split(","):
            names.add(item.strip().split(" as ")[-1])
    return names


def respell(text, table, skip):
    def one(m):
        word = m.group(0)
        if word in ALIASES:
            return ALIASES[word]
        if word in skip:
            return word
        return table.get(word, word)

    out = []
    for line in text.split("\n"):
        # a comment's words are left; names in backquotes are names
        cut = re.match(r"^(\s*)(--|//|#)", line)
        if cut:
            out.append(re.sub(r"`[^`]*`", lambda m: TOKEN.sub(one, m.group(0)), line))
        else:
            at = line.find(" -- ")
            head, tail = (line, "") if at < 0 else (line[:at], line[at:])
            out.append(TOKEN.sub(one, head) + tail)
    return "\n".join(out)


def clauses(text, table, skip):
    """a .rt file: only its ghost imports and clauses have such names"""
    out, at = [], 0
    for m in re.finditer(r"^ghost use .*;$|\b(?:requires|ensures|invariant)\b[ a-z_0-9*]*\{", text, re.M):
        if m.start() < at:
            continue
        end = m.end()
        if not m.group(0).startswith("ghost use"):
            depth = 1
            while depth:
                depth += {"{": 1, "}": -1}.get(text[end], 0)
                end += 1
        out.append(text[at : m.start()])
        out.append(TOKEN.sub(lambda w: ALIASES.get(w.group(0), w.group(0) if w.group(0) in skip else table.get(w.group(0), w.group(0))), text[m.start() : end]))
        at = end
    return "".join(out) + text[at:]


def main():
    own = declared()
    table = mapping(own)
    for path in files_of("crates/*/src/**/*.rt"):
        text = open(path, encoding="utf-8").read()
        new = clauses(text, table, from_library(text))
        if new != text:
            open(path, "w", encoding="utf-8").write(new)
    texts = files_of("crates/*/specs/**/*.antt", "crates/*/proofs/**/*.antt", "crates/*/must-fail/*.edit", "wrong/**/*", "mutants/definitions.txt", "tests/broken/*.edit")
    for path in texts:
        text = open(path, encoding="utf-8").read()
        skip = from_library(text)
        here = dict(table)
        m = re.match(r"crates/[a-z_0-9]+/proofs/(.+)/(?:Proof|Answers|Invariants)\.antt$", path)
        if m:
            # a function's own proof: what it declares is named by Rattle, or stands for its goals
            name = m.group(1).split("/")[-1].lstrip("+").replace("_", "-")
            for d in re.finditer(r"^(?:(?:pub|abbrev|unfoldable) )*(" + WORD + r")(?: *[({].*)? :(?: |$)", text, re.M):
                here.pop(d.group(1), None)
            here[name + "-spec"] = snake(name) + "_spec"
            here["+" + name + "-spec"] = snake(name) + "_spec"
        if path.endswith(".edit") and re.search(r"^file: src/", text, re.M):
            # the code's own names stay: an edit of code names no definition but in a clause
            continue
        new = respell(text, here, skip)
        if new != text:
            open(path, "w", encoding="utf-8").write(new)
    # the pages: what stands in backquotes, and what a page copies out of a file
    for path in files_of("docs/**/*.md", "README.md"):
        text = open(path, encoding="utf-8").read()
        new = re.sub(r"`[^`\n]*`|\{\{[^}\n]*\}\}", lambda m: respell(m.group(0), table, set()), text)
        if new != text:
            open(path, "w", encoding="utf-8").write(new)
    print(f"respell: {len(table)} names")
    if "--list" in sys.argv:
        for old, new in sorted(table.items()):
            print(old, new)


main()
