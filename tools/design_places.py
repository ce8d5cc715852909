#!/usr/bin/env python3
"""design_places.py [POINT] [-l]: counts, in crates/*/src, the places of each point of docs/DESIGN-PASS.md; -l lists them."""
import collections
import glob
import os
import re
import sys

HERE = os.path.dirname(os.path.dirname(os.path.abspath(__file__)))
FLAGS = "ok found settled refused staged valid any changed housekeeping marks started had".split()
NUMBERS = "no number kind ended owner err answer mark k".split()
WRAPPERS = "text number byte line_end answer named decimal place hex".split()
BY_HAND = "equal same_slot copy copied fill copy_slot copy_block is_word is_nothing is_zero".split()


def sources():
    for path in sorted(glob.glob(f"{HERE}/crates/*/src/**/*.rt", recursive=True)):
        with open(path, encoding="utf-8") as file:
            yield os.path.relpath(path, HERE), file.read()


def line_of(text, at):
    return text.count("\n", 0, at) + 1


def code_of(text):
    """The text with its comments blank."""
    return re.sub(r"//[^\n]*", lambda m: " " * len(m.group()), text)


class Function:
    def __init__(self, path, text, match):
        self.path, self.line, self.name = path, line_of(text, match.start()), match.group(1)
        depth, at = 0, match.end() - 1
        while True:
            depth += {"(": 1, ")": -1}.get(text[at], 0)
            at += 1
            if depth == 0:
                break
        self.parameters = [it.strip() for it in split(text[match.end() : at - 1])]
        brace = re.compile(r"^\{$|\{[^\n]*\n", re.M)
        start = re.compile(r"^( *)\{\n", re.M).search(text, at)
        one = re.compile(r"\) (?:-> [^\n{]+ )?\{\n").search(text, at - 1)
        if one and one.start() <= at and (not start or one.start() < start.start()):
            start = one
        self.head = text[at : start.start()] if start else ""
        end = re.compile(r"^ *\}\n", re.M)
        indent = len(re.match(r" *", text[text.rfind("\n", 0, match.start()) + 1 :]).group())
        close = re.compile(r"^ {%d}\}$" % indent, re.M).search(text, start.end() if start else at)
        self.body = text[start.end() : close.start()] if start and close else ""
        self.answer = (re.match(r"\s*-> ([^\n{]+)", text[at:]) or [None, ""])[1].strip()


def split(text):
    out, depth, last = [], 0, 0
    for at, char in enumerate(text):
        depth += char in "([<"
        depth -= char in ")]" or (char == ">" and text[at - 1] != "-")
        if char == "," and depth == 0:
            out.append(text[last:at])
            last = at + 1
    return [it for it in out + [text[last:]] if it.strip()]


def functions():
    for path, text in sources():
        code = code_of(text)
        for match in re.finditer(r"\bfn (\w+)(?:<[^>(]*>)?\(", code):
            yield Function(path, code, match)


def structs():
    for path, text in sources():
        for match in re.finditer(r"\b(struct|enum) (\w+)(?:<[^>]*>)? \{\n(.*?)\n\}", code_of(text), re.S):
            yield path, line_of(text, match.start()), match.group(1), match.group(2), [it.strip() for it in match.group(3).split("\n") if it.strip()]


def point_1():
    for path, line, what, name, fields in structs():
        if what == "enum":
            full = [it for it in fields if "(" in it]
            if len(fields) == 2 and full:
                yield path, line, f"enum {name} has the shape of Option or Result"
            continue
        named = dict(re.findall(r"(\w+): ([^,]+),", " ".join(fields)))
        flags = [it for it in FLAGS if named.get(it) == "bool"]
        numbers = [it for it in NUMBERS if named.get(it) in ("u8", "u16")]
        if flags and len(named) > 1:
            yield path, line, f"struct {name} has the flag {', '.join(flags)} beside a value"
        if numbers:
            yield path, line, f"struct {name} has the number {', '.join(numbers)}"
    for it in functions():
        if it.answer == "u8" and re.search(r"number|\.no\b|13|refus|result ≡ pick|Writes|Starts|Polls|Releases|Resets|Reports|Finds|Reads|Checks|TellsStrict|TellsOwner|error_of|too_many", it.head):
            yield it.path, it.line, f"fn {it.name} answers a refusal or an error by its number"
        numbers = [p for p in it.parameters if re.match(r"(mut )?(%s): u(8|16)$" % "|".join(NUMBERS), p)]
        if numbers:
            yield it.path, it.line, f"fn {it.name} takes the number {', '.join(numbers)}"


def shape(body):
    names = {}
    return re.sub(r"\b([A-Za-z_]\w*)\b|\b\d\w*\b|b?\"[^\"]*\"", lambda m: names.setdefault(m.group(), f"v{len(names)}") if m.group(1) else "N", re.sub(r"\s+", " ", body))


def point_2():
    same = collections.defaultdict(list)
    for it in functions():
        if it.body.count("\n") >= 3 or re.search(r"_u(8|16|32|64)$", it.name):
            same[shape(it.body)].append(it)
    for them in same.values():
        if len(them) > 1:
            for it in them:
                yield it.path, it.line, f"fn {it.name}: as {', '.join(sorted({o.name + ' of ' + o.path.split('/')[1] for o in them} - {it.name + ' of ' + it.path.split('/')[1]})) or 'another of this name'}"


def point_3():
    for path, text in sources():
        code = code_of(text)
        for match in re.finditer(r"^( *)while [^\n]*\{\n(.*?)\n\1\}", code, re.M | re.S):
            steps = re.search(r"\b(\w+) ([+-]= 1;|= \1 [+-] 1;)", match.group(2))
            yield path, line_of(code, match.start()), "while" + ("" if steps else ", its step is not one")


def point_4():
    for it in functions():
        if it.name in BY_HAND and "extern" not in it.head:
            yield it.path, it.line, f"fn {it.name} by hand"
        if it.name in WRAPPERS and it.parameters and it.parameters[0].startswith("out: &mut Output"):
            yield it.path, it.line, f"fn {it.name} prints by hand"


def clauses(head):
    for match in re.finditer(r"\b(requires|ensures)(?: \w+)? \{ (.*?) \}\s*(?=\n|$)", head, re.S):
        for part in re.split(r" × (?![^()]*\))", match.group(2)):
            yield re.sub(r"\s+", " ", part.strip().strip("()"))


def point_5():
    facts, runs = collections.defaultdict(set), collections.defaultdict(set)
    for it in functions():
        for fact in clauses(it.head):
            if not fact.startswith("result"):
                facts[re.sub(r"\.(old|new|now)\b", "", fact)].add((it.path, it.line))
        for n in range(len(it.parameters)):
            runs[tuple(re.sub(r"^mut |&mut ", "&" if "&mut" in p else "", p) for p in it.parameters[n : n + 3])].add((it.path, it.line))
    for fact, them in sorted(facts.items()):
        if len(them) >= 3:
            yield *min(them), f"the fact '{fact}' in {len(them)} contracts"
    for run, them in sorted(runs.items()):
        if len(run) == 3 and len(them) >= 3:
            yield *min(them), f"the parameters '{', '.join(run)}' in {len(them)} functions"


def point_6():
    for path, line, what, name, fields in structs():
        text = " ".join(fields)
        arrays = re.findall(r"(\w+): \[", text)
        if what == "struct" and re.search(r"\b(n|len): usize", text) and arrays:
            yield path, line, f"struct {name} has a length beside {', '.join(arrays)}"
    for it in functions():
        slices = [p for p in it.parameters if re.match(r"(ids|slots|starts|sizes): &(mut )?\[u", p)]
        if len(slices) > 1:
            yield it.path, it.line, f"fn {it.name} takes the columns {', '.join(p.split(':')[0] for p in slices)}"
        if re.search(r"/ 2\b", it.body) and "while" in it.body and "mid" in it.body:
            yield it.path, it.line, f"fn {it.name} searches by halves"


def point_7():
    for path, line, what, name, fields in structs():
        if what == "enum" and name in ("Lookup", "Call", "Width"):
            yield path, line, f"enum {name} says which step to run"
    for it in functions():
        if it.body.count("if is_word(") > 1 or it.body.count("if command ==") > 1:
            yield it.path, it.line, f"fn {it.name} goes through words"


def main(words):
    points = [point_1, point_2, point_3, point_4, point_5, point_6, point_7]
    for n, point in enumerate(points, 1):
        if [w for w in words if w.isdigit()] and str(n) not in words:
            continue
        them = sorted(set(point()))
        print(f"point {n}: {len(them)} places")
        if "-l" in words:
            for path, line, what in them:
                print(f"  {path}:{line}: {what}")


main(sys.argv[1:])
