#!/usr/bin/env python3
"""Lists the places in crates/*/src that the points of docs/DESIGN-PASS.md ask about. From the top: python3 tools/places.py [-v]

What a line of text can show is counted here; whether a place is right as it is, the page says.
1 numbers: constants of a byte (kinds, rows, marks for nothing); functions that answer a byte that says nothing; functions
  that act and answer by a flag; answers of two numbers.   2 twins: functions with bodies of one shape, and
  pairs of files that share six lines of one shape.
3 loops: `while`, and `for` over a range of numbers.   4 by hand: functions that compare, convert or print.
5 facts that three or more functions require, parameters that three or more functions take together, and clauses that
  take two or more ghost members of one bound in a row.
6 buffers: fields of a fixed array, and structs of two or more Vecs or arrays.   7 switches: functions that choose among
  three or more methods.   8 answers: goals that proofs/ answers.
"""
import collections, glob, os, re, sys

WORD = re.compile(r"[A-Za-z_]\w*|\d[\w.]*|'[^']*'|\"[^\"]*\"|\S")
KEPT = {"if", "else", "for", "in", "while", "match", "return", "let", "mut", "fn", "self", "Some", "None", "Ok", "Err", "as", "true", "false"}


def functions(text):
    """Each function: its name, its header up to the body, and the body."""
    for m in re.finditer(r"^([ ]*)(?:pub(?:\(crate\))? )?(?:const |final )?fn (\w+)", text, re.M):
        rest = text[m.start() :]
        body = re.search(r"\{\n(.*?)^%s\}|\{\}$|;$" % m.group(1), rest, re.M | re.S)
        if body:
            yield m.group(2), rest[: body.start()], body.group(1) or ""


def structs(text):
    for m in re.finditer(r"^(?:pub(?:\(crate\))? )?struct (\w+)[^{;(]*\{(.*?)^\}", text, re.M | re.S):
        yield m.group(1), [line.strip() for line in m.group(2).split("\n") if line.strip() and "ghost" not in line]


def shape(body):
    body = re.sub(r"//.*", "", body)
    return " ".join(w if w in KEPT or not (w[0].isalnum() or w[0] in "_'\"") else "x" for w in WORD.findall(body))


def parameters(header):
    m = re.search(r"\((.*?)\)", header, re.S)
    names = [p.split(":")[0].strip().removeprefix("mut ") for p in (m.group(1) if m else "").split(",") if ":" in p]
    return [n for n in names if n not in ("rt", "heap", "self")]


def runs(files):
    """Pairs of places that share six or more lines, up to names and numbers, but for imports, comments and braces alone."""
    at = collections.defaultdict(list)
    for file in files:
        lines = [(n, shape(line)) for n, line in enumerate(open(file), 1) if not re.match(r"\s*(//|use |ghost |#|\W*$|(pub )?mod |\w+,$|pub fn \w+\(\))", line)]
        for i in range(len(lines) - 5):
            at[tuple(line for _, line in lines[i : i + 6])].append((file, lines[i][0]))
    pairs = {}
    for places in at.values():
        for i, a in enumerate(places):
            for b in places[i + 1 :]:
                if a[0] != b[0] or b[1] - a[1] > 6:
                    pairs.setdefault((a[0], b[0]), (a[1], b[1]))
    return [f"{a}:{n} {b}:{m}" for (a, b), (n, m) in pairs.items()]


def main():
    found = collections.defaultdict(list)
    found["2 runs"] = runs(sorted(glob.glob("crates/*/src/**/*.rt", recursive=True)))
    for crate in sorted(glob.glob("crates/*")):
        name = os.path.basename(crate)
        required, together, shapes = collections.Counter(), collections.Counter(), collections.defaultdict(list)
        for file in sorted(glob.glob(crate + "/src/**/*.rt", recursive=True)):
            text = open(file).read()
            for m in re.finditer(r"^\s*(?:pub(?:\(crate\))? )?const (\w+): (?:u8|\[u8; 4\])\b", text, re.M):
                found["1 constants"].append(f"{file} {m.group(1)}")
            for fields in structs(text):
                arrays = [f for f in fields[1] if re.search(r": (\[\w+; \d+\]|Vec<|\[\[)", f)]
                if any(": [" in f for f in arrays) or len(arrays) > 1:
                    found["6 buffers"].append(f"{file} {fields[0]}: {len(arrays)}")
            for fn, header, body in functions(text):
                place = f"{file} {fn}"
                if re.search(r"\(\) -> u8\b", header):
                    found["1 says nothing"].append(place)
                if re.search(r"&mut .*-> bool\b", header, re.S):
                    found["1 flags"].append(place)
                if re.search(r"-> \((?:u\d+|bool|usize),", header):
                    found["1 two numbers"].append(place)
                if re.match(r"same|to_[a-z]|order$|\w+_of$|of_\w+|spot_at|show_\w+|print_\w+|\w+_name$", fn):
                    found["4 by hand"].append(place)
                for loop in re.findall(r"^\s*((?:while|for) [^{]*)\{", body, re.M):
                    if loop.startswith("while") or ".." in loop:
                        found["3 loops"].append(f"{place}: {loop.strip()}")
                called = set(re.findall(r"\b(?:self|walker)\.(\w+)\(", body))
                if len(called) > 2 and re.search(r"\bmatch\b|\bif\b", body):
                    found["7 switches"].append(place)
                if len(shape(body).split()) > 12:
                    shapes[shape(body)].append(place)
                for fact in re.findall(r"requires(?: \w+)? \{(.*)\}$", header, re.M):
                    required[fact.strip()] += 1
                if re.search(r"\b([A-Z]\w*\.\w+)\.\w+ \1\.\w+", header):
                    found["5 members of a bound in a row"].append(place)
                names = sorted(set(parameters(header)))
                for i, a in enumerate(names):
                    for b in names[i + 1:]:
                        together[a, b] += 1
        found["2 twins"] += [", ".join(places) for places in shapes.values() if len(places) > 1]
        found["5 facts"] += [f"{name}: {fact} ({n})" for fact, n in required.items() if n > 2]
        found["5 parameters"] += [f"{name}: {a}, {b} ({n})" for (a, b), n in together.items() if n > 2]
        for file in glob.glob(crate + "/proofs/**/*.antt", recursive=True):
            found["8 answers"] += [file] * len(re.findall(r"^(?:pub )?\S+ : goal\.", open(file).read(), re.M))
    for point in sorted(found):
        print(point, len(found[point]))
        if "-v" in sys.argv[1:] and not point.startswith("8"):
            print("".join(f"    {place}\n" for place in found[point]), end="")


main()
