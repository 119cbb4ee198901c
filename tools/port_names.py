#!/usr/bin/env python3
"""Run once at the top of the repository, after /opt/rattle/port/port.py: the definitions and lemmas of the repository get the spelling of today's Rattle.

A name that a file of specs/ or a file of lemmas (proofs/NAME.antt) declares is turned to snake case: a capital within it and a dash become an
underscore (wordOf: word_of, at-most: at_most); a part that begins with a capital keeps it only at the front, where it names a type. Names of the
library, names that Rattle makes, and functions of src/ stay. Names that would fall together are listed, and get the name that CHOSEN has for them.
Texts: crates/*/{src,specs,proofs,must-fail,wrong}, README.md, docs/*.md, tests/ and tools of the repository that name a definition.
"""

import os
import re
import sys
from collections import defaultdict

TOKEN = r"[^\s(){}\[\],;.\"«»@`]+"
# where the plain spelling is another name's
CHOSEN = {
    "asInput": "as_input",
    "finalsAt": "finals_at",
    "withSet": "keeping_set",
    "handedBack": "handed_back_of",
    "fieldOfPart": "part_field",
    "outcomeOf": "outcome_for",
    "pairsOf": "pair_set_of",
    "rightOf": "right_from",
    "transitionOf": "transition_with",
    "many-pairs": "many_pairs_number",
    "no-input-code": "no_input_code_number",
    "no-output-code": "no_output_code_number",
}
# words of Rattle's language or of the repository's prose that stay as they are
KEEP = set()


def texts(top, endings):
    for folder, dirs, files in os.walk(top):
        dirs[:] = sorted(d for d in dirs if d not in ("out", ".git", "target"))
        for name in sorted(files):
            if name.endswith(endings):
                yield os.path.join(folder, name)


def read(path):
    with open(path, encoding="utf-8", newline="") as f:
        return f.read()


def code_of(text):
    return re.sub(r'--[^\n]*|"[^"\n]*"', " ", text)


def snake(name):
    turned = name.replace("-", "_")
    turned = re.sub(r"(?<=[a-z0-9'])([A-Z])", r"_\1", turned)
    turned = re.sub(r"(?<=_[A-Z])([A-Z])", r"_\1", turned)
    turned = re.sub(r"(?<=[A-Za-z0-9])_([A-Z])", lambda m: "_" + m.group(1).lower(), turned)
    return turned


def is_lemma_file(path):
    return re.search(r"crates/\w+/(specs/.*|proofs/\w+)\.antt$", path) is not None


DECLARED = re.compile(rf"^\s*(?:(?:abbrev|unfoldable|pub|ghost|ruleset) )*({TOKEN}) :(?: |$)", re.M)
BOUND = re.compile(r"[({{]((?:{0} )*{0}) :".format(TOKEN))


def imported(text):
    """The names that a file imports from a library."""
    names = set()
    for path, items in re.findall(r"^\s*(?:ghost )?use ([^\s{};]+?)\.\{([^}]*)\}", text, re.M):
        if not re.match(r"Rattle[.·](?!std\b|core\b)\w+[.·](specs|proofs)", path):
            names |= {it.strip() for it in items.split(",")}
    return names


def main():
    files = {p: read(p) for p in texts("crates", (".antt",))}
    declared, words = set(), defaultdict(set)
    for path, text in files.items():
        code = code_of(text)
        for word in re.findall(TOKEN, code):
            words[word].add(path)
        if is_lemma_file(path):
            declared |= set(DECLARED.findall(code))
            for names in BOUND.findall(code):
                declared |= set(names.split())
    rust = set()
    for path in texts("crates", (".rt",)):
        rust |= set(re.findall(r"\w+", re.sub(r"//[^\n]*", " ", read(path))))
    turn = {}
    for name in sorted(declared - KEEP):
        if not re.match(r"^[A-Za-z][\w'-]*$", name) or ("-" not in name and not (name[0].islower() and re.search("[A-Z]", name))):
            continue
        turn[name] = CHOSEN.get(name, snake(name))
    fields = set()
    for path, text in files.items():
        inside = None
        for line in code_of(text).split("\n"):
            indent = len(line) - len(line.lstrip())
            if inside is not None and line.strip() and indent <= inside:
                inside = None
            if re.match(r"\s*(?:pub )?record .* where\s*$", line):
                inside = indent
            elif inside is not None:
                fields |= set(DECLARED.findall(line))
    heirs = defaultdict(list)
    for name, new in turn.items():
        heirs[new].append(name)
    # Names that fall together: a field keeps the plain spelling, a lemma gets `_lem`, and a definition that is spelled as another name, a function of
    # src/ for one, gets `_of`.
    for new, names in sorted(heirs.items()):
        there = new in words or new in declared or new in rust
        lemmas = [it for it in names if "-" in it and it not in fields]
        camels = [it for it in names if "-" not in it]
        if there and new not in words and new not in declared and not camels:
            continue
        if len(names) == 1 and not there:
            continue
        for it in names:
            if it in CHOSEN:
                continue
            if it in lemmas and (there or len(names) > 1):
                turn[it] = new + "_lem"
            elif it in camels and there:
                turn[it] = new + "_of"
        print(f"falls together: {', '.join(it + ' -> ' + turn[it] for it in names)}{' (there: ' + ', '.join(sorted(words.get(new, {'Rust'}))[:2]) + ')' if there else ''}")
    again = defaultdict(list)
    for name, new in turn.items():
        again[new].append(name)
    for new, names in again.items():
        if len(names) > 1 and not all(it in fields for it in names):
            print(f"still together: {names} -> {new}")
        if new.endswith(("_lem", "_of")) and new not in [snake(it) for it in names] and (new in words or new in declared):
            print(f"still there: {names} -> {new}")
    if "--list" in sys.argv:
        for name, new in turn.items():
            print(f"{name}\t{new}")
    if "--write" not in sys.argv:
        print(f"{len(turn)} names")
        return
    word = re.compile(TOKEN)
    ticked = re.compile(r"`([^`\s]+)`")
    changed = 0
    for path in list(texts("crates", (".antt", ".rt", ".edit"))) + list(texts("docs", (".md",))) + list(texts("tests", (".py", ".md", ".sh"))) + ["README.md"]:
        text = read(path)
        theirs = imported(text)

        def new_of(name):
            return name if name in theirs else turn.get(name, name)

        def in_code(code):
            return word.sub(lambda m: new_of(m.group(0)), code)

        def in_words(words_of):
            # in prose only what stands between backticks, or what is spelled as no word of English is
            turned = ticked.sub(lambda m: "`" + in_code(m.group(1)) + "`", words_of)
            return re.sub(r"\b[a-z]+[A-Z]\w*", lambda m: new_of(m.group(0)), turned)

        if path.endswith((".antt", ".rt")):
            mark = "--" if path.endswith(".antt") else "//"
            lines = []
            for line in text.split("\n"):
                cut = re.search(rf'(?:^|\s){mark}', line)
                code, prose = (line[: cut.start()], line[cut.start() :]) if cut else (line, "")
                parts = re.split(r'("[^"\n]*")', code)
                code = "".join(p if p.startswith('"') else in_code(p) for p in parts)
                lines.append(code + in_words(prose))
            new = "\n".join(lines)
        elif path.endswith(".edit"):
            new = "\n".join(in_words(l) if l.startswith("#") else in_code(l) for l in text.split("\n"))
        else:
            new = in_words(text)
        if new != text:
            changed += 1
            with open(path, "w", encoding="utf-8", newline="") as f:
                f.write(new)
    print(f"{len(turn)} names, {changed} files changed")


main()
