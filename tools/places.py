#!/usr/bin/env python3
"""Counts the places of docs/DESIGN-PASS.md in the sources below crates/, point by point.

    python3 tools/places.py [FOLDER] [--list]

FOLDER is the top of a checkout, by default this one. --list prints each place too.
"""
import re
import sys
from collections import defaultdict
from difflib import SequenceMatcher
from pathlib import Path

FLAGS = "code cause number found going ended stop wins above staying verdict published".split()
SHAPES = set("Ok Err Refused Turned TurnedBack Declined End Unreadable NotHeld Off None Some".split())
BY_HAND = re.compile(r"^(same\w*|\w*number|number\w*|as_bit|flag|one|wide|choose|least|held_sum|with_mark|(two|four|word)_\w+|is_false|is_trainer|both_lines|add_zero|of_side|copy_\w+)$")


def sources(top):
    return [(p.relative_to(top), p.read_text()) for p in sorted(Path(top).glob("crates/*/src/**/*.rt"))]


def bare(text):
    """The text without comments; strings stay."""
    return re.sub(r"//[^\n]*", "", text)


def functions(text):
    """Name, head with clauses, and body of each function, by counting braces."""
    found = []
    for m in re.finditer(r"^( *)(?:pub )?(?:extern \"C\" )?fn (\w+)", text, re.M):
        indent = m.group(1)
        body = re.search(rf"^{indent}\{{\n(.*?)^{indent}\}}", text[m.start():], re.M | re.S)
        inline = re.search(r"^[^\n]*\{\n(.*?)^" + indent + r"\}", text[m.start():], re.M | re.S)
        if inline and "\n" not in text[m.start():m.start() + inline.start(1)].strip("\n"):
            body = inline
        if body:
            found.append((m.group(2), text[m.start():m.start() + body.start(1)], body.group(1), text[:m.start()].count("\n") + 1))
    return found


def blocks(text, word):
    for m in re.finditer(rf"^ *(?:pub )?{word} (\w+)[^\n;]*\{{\n(.*?)^ *\}}", text, re.M | re.S):
        yield m.group(1), m.group(2), text[:m.start()].count("\n") + 1


def own_enums(top):
    for path, text in sources(top):
        for name, inside, line in blocks(bare(text), "enum"):
            variants = re.findall(r"^\s*([A-Z]\w*)", inside, re.M)
            if SHAPES & set(variants):
                yield f"{path}:{line} enum {name} {{{', '.join(variants)}}}"


def flags(top):
    for path, text in sources(top):
        for name, inside, line in blocks(bare(text), "struct"):
            fields = re.findall(r"^\s*(?:pub )?(\w+): (?:u8|u32|u64|bool),", inside, re.M)
            if any(f in FLAGS for f in fields):
                yield f"{path}:{line} struct {name} ({', '.join(f for f in fields if f in FLAGS)})"


def number_answers(top):
    for path, text in sources(top):
        for name, head, body, line in functions(bare(text)):
            if re.search(r"-> u(8|32|64)\b", head) and re.match(r"(check|refuses|first$|find$|cause_of|state_of|\w*number|as_bit)", name):
                yield f"{path}:{line} fn {name}"


WORDS = set("if else while loop for in let mut match return as".split())


def form(body):
    """The tokens of a body, with every name and every constant made alike."""
    known, out = {}, []
    for t in re.findall(r"b?\"[^\"]*\"|b?'[^']*'|\w+|[^\s\w]", body):
        if re.match(r"[0-9]|b?[\"']", t):
            out.append("N")
        elif re.match(r"\w", t) and t not in WORDS:
            out.append(known.setdefault(t, f"v{len(known)}"))
        else:
            out.append(t)
    return out


def twins(top):
    bodies = []
    for path, text in sources(top):
        for name, head, body, line in functions(bare(text)):
            tokens = form(body)
            if len(tokens) >= 16:
                bodies.append((f"{path}:{line} {name}", tokens))
    for k, (a, x) in enumerate(bodies):
        for b, y in bodies[k + 1:]:
            if abs(len(x) - len(y)) * 10 <= len(x) and SequenceMatcher(None, x, y, False).ratio() >= 0.9:
                yield f"{a} ~ {b}"


def like_structs(top):
    fields = []
    for path, text in sources(top):
        for name, inside, line in blocks(bare(text), "struct"):
            fields.append((f"{path}:{line} {name}", set(re.findall(r"^\s*(?:pub )?(\w+: [^\n]*),$", inside, re.M))))
    for k, (a, x) in enumerate(fields):
        for b, y in fields[k + 1:]:
            if len(x & y) >= 3:
                yield f"{a} ~ {b}: {', '.join(sorted(x & y))}"


def loops(top):
    for path, text in sources(top):
        for n, line in enumerate(bare(text).split("\n"), 1):
            if re.search(r"^\s*('\w+: )?(while|loop)\b", line):
                yield f"{path}:{n} {line.strip()}"


def by_hand(top):
    for path, text in sources(top):
        for name, head, body, line in functions(bare(text)):
            if BY_HAND.match(name):
                yield f"{path}:{line} fn {name}"


def conjuncts(clause):
    depth, start, parts = 0, 0, []
    for i, c in enumerate(clause):
        if c in "({[":
            depth += 1
        elif c in ")}]":
            depth -= 1
        elif c == "×" and depth == 0:
            parts.append(clause[start:i])
            start = i + 1
    parts.append(clause[start:])
    return [re.sub(r"^\((.*)\)$", r"\1", " ".join(p.split())) for p in parts]


def repeated_facts(top):
    where = defaultdict(set)
    for path, text in sources(top):
        for name, head, body, line in functions(bare(text)):
            for clause in re.findall(r"(?:requires|ensures)(?: \w+)? \{(.*?)\}\n", head, re.S):
                for fact in conjuncts(clause):
                    if re.search(r"result", fact) or len(fact) < 8:
                        continue
                    where[fact].add(f"{path}:{line} {name}")
    for fact, places in sorted(where.items(), key=lambda x: -len(x[1])):
        if len(places) >= 3:
            yield f"{len(places)} functions: {fact}"


def lengths_beside(top):
    for path, text in sources(top):
        code = bare(text)
        for name, inside, line in blocks(code, "struct"):
            if re.search(r": \[|Bytes", inside) and re.search(r"^\s*(?:pub )?(length|count|n|top|size): ", inside, re.M):
                yield f"{path}:{line} struct {name}"
        for name, head, body, line in functions(code):
            given = head.split("->")[0]
            if re.search(r": &?(mut )?(\[|Bytes)", given) and re.search(r"\b(length|count|n|top): (&mut )?(usize|u64)\b", given):
                yield f"{path}:{line} fn {name}"


def name_chains(top):
    for path, text in sources(top):
        for name, head, body, line in functions(bare(text)):
            if len(re.findall(r"is_word\(|== b\"|b\"[\w-]+\" =>", body)) >= 3:
                yield f"{path}:{line} fn {name}"


def answers(top):
    for p in sorted(Path(top).glob("crates/*/proofs/**/Answers.antt")):
        n = len(re.findall(r"^pub [\w'.-]+ : \(?goal\.|^pub [\w'.-]+ : goal\.", p.read_text(), re.M))
        yield f"{p.relative_to(top)} {n}"


POINTS = [
    ("1", "own enums of the shape of Option or Result", own_enums),
    ("1", "structs with a flag or a number that says what the rest is", flags),
    ("1", "functions that answer with a number for a refusal or a kind", number_answers),
    ("2", "pairs of functions alike but for names and constants", twins),
    ("2", "pairs of structs with three or more fields in common", like_structs),
    ("3", "while and loop", loops),
    ("4", "functions that compare, copy, convert or choose by hand", by_hand),
    ("5", "facts in the clauses of three or more functions", repeated_facts),
    ("6", "an array or slice with its length or count beside", lengths_beside),
    ("7", "functions that test three or more names for which step to run", name_chains),
    ("8", "files of answers to goals", answers),
]


def main():
    args = [a for a in sys.argv[1:] if not a.startswith("--")]
    top = args[0] if args else Path(__file__).resolve().parent.parent
    for point, what, count in POINTS:
        places = list(count(top))
        print(f"{point}  {len(places):4}  {what}")
        if "--list" in sys.argv:
            for p in places:
                print(f"         {p}")


main()
