#!/usr/bin/env python3
"""Counts the places of issue 47's points in crates/*/src and crates/*/proofs, by text: docs/DESIGN-PASS.md has what it printed before and after.

    tools/design_count.py [POINT ..]      all points where none is named; each place on a line of its own, then the count
"""
import collections
import difflib
import re
import sys
from pathlib import Path

ROOT = Path(__file__).resolve().parent.parent
SOURCES = sorted(ROOT.glob("crates/*/src/**/*.rt"))


def lines():
    """Each line of code, without comments, with its place."""
    for file in SOURCES:
        for number, line in enumerate(file.read_text().splitlines(), 1):
            code = line.split("//")[0].rstrip()
            if code.strip():
                yield f"{file.relative_to(ROOT / 'crates')}:{number}", code


def functions():
    """Each function: its place, name, parameters, clauses and body."""
    for file in SOURCES:
        text = re.sub(r"//[^\n]*", "", file.read_text())
        for found in re.finditer(r"\bfn (\w+)(<[^(]*>)?\(", text):
            deep, end = 1, found.end()
            while deep and end < len(text):
                deep += {"(": 1, ")": -1}.get(text[end], 0)
                end += 1
            parameters = text[found.end():end - 1]
            rest = text[end:]
            clauses = re.match(r"[^{;]*?(?:\s*(?:requires|ensures)\b.*?\}\s*)*(?=\{\s*$|\{\}|\{\n|;)", rest, re.S | re.M)
            head = clauses.group(0) if clauses else rest[:rest.find("{")]
            begin = end + len(head)
            stop = begin
            if begin < len(text) and text[begin] == "{":
                deep, stop = 1, begin + 1
                while deep and stop < len(text):
                    deep += {"{": 1, "}": -1}.get(text[stop], 0)
                    stop += 1
            place = f"{file.relative_to(ROOT / 'crates')}:{text[:found.start()].count(chr(10)) + 1}"
            yield place, found.group(1), parameters, head, text[begin:stop]


def matching(pattern):
    return [f"{place}: {code.strip()}" for place, code in lines() if re.search(pattern, code)]


def point_1():
    """Own enums, numbers that stand for refusals or for nothing, and flags with a value beside them."""
    return (matching(r"^\s*(pub )?enum \w+")
            + matching(r"^\s*(pub )?(outcome|fault|letter|end|number): (u8|u16|Outcome),$|\brefusal: u(8|32)\b|\bnumber: u16, |\bfault: u8, |\boutcome: Outcome,? |\b(split|on_way): bool")
            + matching(r"const (NOWHERE|FINE|UNEVEN|NO_CODE|NO_TRANSITION|NO_STEP|END|OVER)\b.*: u(16|32)")
            + [f"{place}: {code.strip()}" for place, code in lines() if "refusals.rt" in place and re.search(r"const [A-Z_]+: u8", code)])


def point_2():
    """Pairs of functions whose bodies are at least four fifths alike, names of types, numbers and functions aside."""
    def tokens(body):
        words = re.findall(r"\w+|[^\w\s]", body)
        return [re.sub(r"^u(8|16|32|64|size)$", "N", re.sub(r"^\d+$", "0", word)) for word in words]
    all_of = [(place, name, tokens(body)) for place, name, _, _, body in functions()]
    found = []
    for i, (place, name, body) in enumerate(all_of):
        if len(body) < 22:
            continue
        for other, second, rest in all_of[i + 1:]:
            if min(len(body), len(rest)) < 0.8 * max(len(body), len(rest)):
                continue
            if difflib.SequenceMatcher(None, body, rest, autojunk=False).ratio() >= 0.8:
                found.append(f"{place}: {name} and {other}: {second}")
    return found


def point_3():
    """Loops that count by hand: `while`, and `for` over a range of numbers."""
    return matching(r"^\s*while ") + matching(r"^\s*for \w+ in .*\.\.")


def point_4():
    """Equality, order, copies and conversions by hand, by the names and shapes that such functions have here."""
    names = r"^(same|before|copy|number|record|verdict|kind|carried|wide|one_if|either|outcome_of|number_of|as_input|length|yes|then|first_fault|of_file)$"
    return [f"{place}: fn {name}" for place, name, _, _, _ in functions() if re.search(names, name)]


def point_5():
    """Clauses that stand in three or more contracts, and functions with seven parameters or more."""
    seen = collections.defaultdict(list)
    for place, name, _, head, _ in functions():
        for clause in set(re.findall(r"requires\s*\w*\s*\{(.*?)\}\s*(?=requires|ensures|$)", head, re.S)):
            shape = " ".join(clause.split())
            seen[shape].append(f"{place} {name}")
    often = [f"{len(places)} times: {shape}" for shape, places in sorted(seen.items(), key=lambda pair: -len(pair[1])) if len(places) >= 3]
    long = []
    for place, name, parameters, _, _ in functions():
        count = len([one for one in re.split(r",(?![^<\[(]*[>\])])", parameters) if one.strip()])
        if count >= 7:
            long.append(f"{place}: fn {name} with {count} parameters")
    return often + long


def point_6():
    """Parameters or fields that are a buffer's length or place beside it, and parallel lists."""
    found = []
    for place, name, parameters, _, _ in functions():
        words = re.findall(r"(\w+)\s*:\s*(&?(?:'\w+ )?(?:mut )?)(\[?[\w; :]+)", parameters)
        slices = [word for word, _, kind in words if kind.startswith("[")]
        sizes = [word for word, _, kind in words if kind.strip() in ("usize", "u16", "u32")]
        lists = [group for group in (("order", "rank", "parent", "via"), ("out", "out_step"), ("into", "into_step"), ("link", "step"), ("link", "label"), ("order", "parent", "via"), ("parent", "via")) if set(group) <= set(slices)]
        if lists:
            found.append(f"{place}: fn {name}, parallel lists {', '.join(lists[0])}")
        beside = [word for word in sizes if word in ("n", "m", "l", "r", "a", "b", "got", "codes", "count", "k", "size", "end") and slices]
        if beside:
            found.append(f"{place}: fn {name}, {', '.join(beside)} beside a buffer")
    return found


def point_7():
    """Flags that choose what a function does."""
    return [f"{place}: fn {name}({flag}: bool)" for place, name, parameters, _, _ in functions() for flag in re.findall(r"(\w+)\s*:\s*bool", parameters)]


def point_8():
    """Answers and invariants that stand in proofs/F/, and lemmas of a crate's own files that nothing cites."""
    found = []
    texts = {file: file.read_text() for file in sorted(ROOT.glob("crates/*/**/*.antt")) + SOURCES}
    where = collections.defaultdict(set)
    for file, text in texts.items():
        for word in re.findall(r"[\w']+", re.sub(r"--[^\n]*", "", text)):
            where[word].add(file)
    pages = "\n".join(file.read_text() for file in [ROOT / "README.md", *ROOT.glob("docs/*.md")] if file.name not in ("PORT.md", "DESIGN-PASS.md"))
    for file, text in texts.items():
        parts = file.relative_to(ROOT / "crates").parts
        if parts[1] != "proofs":
            continue
        if file.name in ("Answers.antt", "Invariants.antt"):
            found.append(f"{'/'.join(parts)}: {sum(1 for line in text.splitlines() if line.strip())} lines")
            continue
        for name in re.findall(r"^(?:unfoldable |abbrev )?(?:pub )?([a-z]\w*'?) :", text, re.M):
            inside = len(re.findall(rf"(?<![\w'])" + re.escape(name) + r"(?![\w'])", re.sub(r"--[^\n]*", "", text)))
            defined = len(re.findall(rf"^(?:unfoldable |abbrev )?(?:pub )?{re.escape(name)}(?![\w'])", text, re.M))
            if where[name] == {file} and inside <= defined and not re.search(rf"(?<!\w){re.escape(name)}(?!\w)", pages):
                found.append(f"{'/'.join(parts)}: {name} is cited by nothing")
    return found


def main(points):
    for point in points or "12345678":
        count = globals()[f"point_{point}"]
        places = count()
        print(f"point {point}: {count.__doc__}")
        print("".join(f"  {place}\n" for place in places) + f"point {point}: {len(places)} places\n")


if __name__ == "__main__":
    main(sys.argv[1:])
