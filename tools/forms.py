#!/usr/bin/env python3
# Lists the places of src/ that stand in an older form, by point, with a count: what docs/DESIGN-PASS.md counts.
# tools/forms.py [FOLDER] [POINT]
import glob
import os
import re
import sys
from collections import defaultdict

folder = sys.argv[1] if len(sys.argv) > 1 else "."
only = sys.argv[2] if len(sys.argv) > 2 else ""
sources = {}
for path in sorted(glob.glob(os.path.join(folder, "crates/*/src/*.rt"))):
    with open(path) as handle:
        sources[os.path.relpath(path, folder)] = handle.read()


def line_of(text, at):
    return text.count("\n", 0, at) + 1


def block(text, at):
    """The text from the brace at `at` to the one that closes it."""
    depth = 0
    for i in range(at, len(text)):
        depth += {"{": 1, "}": -1}.get(text[i], 0)
        if depth == 0:
            return text[at : i + 1]
    return text[at:]


class Function:
    def __init__(self, path, text, match):
        self.path, self.name, self.line = path, match.group(1), line_of(text, match.start())
        start = match.end()
        # the parameters
        depth, i = 1, start
        while depth:
            depth += {"(": 1, ")": -1}.get(text[i], 0)
            i += 1
        self.params = re.sub(r"\s+", " ", text[start : i - 1])
        # the body: the first brace at the head of a line
        brace = re.compile(r"^ *\{", re.M).search(text, i)
        one_line = text.find("{", i)
        signature_end = text.find("\n", i)
        at = one_line if 0 <= one_line < signature_end and "ensures" not in text[i:one_line] else brace.end() - 1
        self.head = text[i:at]
        self.body = block(text, at)
        self.result = (re.match(r"\s*->\s*([^\n{]+)", self.head) or [None, ""])[1].strip()

    def place(self):
        return f"{self.path}:{self.line} {self.name}"


functions = []
for path, text in sources.items():
    for match in re.finditer(r"^ *(?:pub )?(?:extern \"C\" )?fn (\w+)(?:<[^(]*>)?\(", text, re.M):
        functions.append(Function(path, text, match))


def told(point, title, places):
    if only and not point.startswith(only):
        return
    print(f"{point} {title}: {len(places)}")
    for place in places:
        print(f"    {place}")


# 1: own enums of the shape of Option or Result, answers by number, numbers that stand for none
enums = []
for path, text in sources.items():
    for match in re.finditer(r"enum (\w+) (\{)", text):
        variants = re.findall(r"^    (\w+)(\(.*\)| \{.*\})?,", block(text, match.start(2)), re.M)
        if len(variants) == 2 and any(not data for _, data in variants):
            enums.append(f"{path}:{line_of(text, match.start())} {match.group(1)}")
told("1a", "enums of the shape of Option", enums)
answers = r"^(Answer|Place|Beside|Price|Saving|Judgement|Laid)$"
told("1b", "functions that answer by number, or by such an enum", [
    f"{f.place()} -> {f.result}" for f in functions if re.match(answers, f.result)
])
tests = []
for path, text in sources.items():
    tests += [f"{path}:{line_of(text, m.start())}" for m in re.finditer(r"\w\.(number|bad) != 0", text)]
told("1c", "tests of a number for refusal or none", tests)
told("1d", "a flag, 1 or 0, or a flag with a value beside it", [
    f"{path}:{line_of(text, m.start())} {m.group(0)}"
    for path, text in sources.items()
    for m in re.finditer(r"let mut \w+ = (?:false|true);|seconds: &mut \[u8; SLOTS\]|fn second_of[^{]*-> u8", text)
])

# 2: functions of one body but for a type, a size or a constant
def shape(function):
    body = re.sub(r"//[^\n]*", "", function.body)
    body = re.sub(r"\b(u8|u16|u32|u64|usize|i32)\b", "T", function.params + body)
    body = re.sub(r"\b[A-Z][A-Z0-9_]+\b|\b\d+\b", "N", body)
    body = re.sub(r"\b(?:\w+::)?[A-Z][a-z]\w*(?:::[A-Z]\w*)?", "C", body)
    body = re.sub(r"(first|second)_edition|_?(?:first|second)\b|(\w)[12]\b", r"E", body)
    return re.sub(r"\s+", " ", body)


twins = defaultdict(list)
for f in functions:
    twins[re.sub(r"\b\w+::\w+\(", "f(", shape(f))].append(f.place())
told("2", "functions of one body but for a type, a size or a constant", [
    "; ".join(group) for group in twins.values() if len(group) > 1
])

# 3: loops that count an index by hand
loops = []
for f in functions:
    for match in re.finditer(r"while ([^{]+) (\{)", f.body):
        for name in set(re.findall(r"\b\w+\b", match.group(1))):
            if re.search(rf"^\s*{name} (\+|-)= 1;", block(f.body, match.start(2)), re.M):
                loops.append(f"{f.place()}: while {match.group(1)}")
                break
told("3", "loops that count an index by hand", loops)

# 4: equality, order, copying, conversion and printing by hand, by what the functions are named for
by_hand = r"^(same_\w+|copy_\w+|clear|larger|less|choose|word_of|byte_at|flatten|with_verdict|put_byte|put_text|put_item)$"
told("4", "functions that compare, copy, convert or print by hand", [f.place() for f in functions if re.match(by_hand, f.name)])

# 5: facts and parameters that come again in three functions or more
facts = defaultdict(list)
for f in functions:
    for clause in re.findall(r"requires (?:\w+ )?\{(.*?)\}\n", f.head + "\n", re.S):
        for fact in re.split(r"\s×\s", re.sub(r"\s+", " ", clause)):
            fact = re.sub(r"^[ (]+|[ )]+$", "", fact)
            facts[re.sub(r"\.(now|old)|\b(table|tree)\b", "", fact)].append(f.place())
told("5a", "facts in the contracts of three functions or more", [
    f"{fact}: {len(set(names))}: {'; '.join(sorted(set(names)))}" for fact, names in facts.items() if len(set(names)) >= 3
])
pairs = defaultdict(set)
for f in functions:
    parameters = [re.sub(r"&'a ", "&", p.strip()) for p in re.split(r",(?![^\[]*\])", f.params) if ":" in p]
    arrays = [p.split(":")[0] for p in parameters if re.search(r"\[[^\]]*; ?\w+\]", p)]
    if len(arrays) >= 2:
        pairs[" ".join(sorted(arrays)[:6])].add(f.place())
told("5b", "functions with two arrays or more side by side", [
    f"{name}: {len(places)}: {'; '.join(sorted(places))}" for name, places in pairs.items()
])

# 6: a buffer with a position beside it, arrays side by side in one function
told("6", "a buffer with a position beside it", [
    f.place() for f in functions if re.search(r"\[u8\](, \w+: [^,]+)*, at: usize|at: usize", f.params) and "&mut [u8]" in f.params
])

# 7: a switch on which step to run
told("7", "a switch on which step to run", [
    f.place() for f in functions if re.search(r"match planner\b", f.body) or re.search(r"\bgainful: bool", f.params)
])
