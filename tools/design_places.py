#!/usr/bin/env python3
"""Lists the places of docs/DESIGN-PASS.md in crates/*/src: design_places.py [POINT [ROOT]]."""
import collections
import glob
import re
import sys

POINT = sys.argv[1] if len(sys.argv) > 1 else ""
ROOT = sys.argv[2] if len(sys.argv) > 2 else "."
PROGRAMS = ("bench_", "proof_")
files = {
    f[len(ROOT) + 1 :]: open(f, encoding="utf-8").read()
    for f in sorted(glob.glob(f"{ROOT}/crates/*/src/**/*.rt", recursive=True))
    if "/bench_" not in f
}


def line_of(text, at):
    return text.count("\n", 0, at) + 1


def functions(text):
    """Each function: its name, where it starts, its parameters, its clauses and its body."""
    for m in re.finditer(r"^ *(?:pub )?fn (\w+)(?:<[^>]*>)?\(", text, re.M):
        deep, i = 1, m.end()
        while deep:
            deep += {"(": 1, ")": -1}.get(text[i], 0)
            i += 1
        head = text[m.end() : i - 1]
        end = re.compile(r"^ *\}\n", re.M).search(text, i)
        rest = text[i : end.end() if end else len(text)]
        at = re.search(r"^ *\{$|\{$", rest, re.M)
        clauses = rest[: at.start()] if at else rest
        params = [re.sub(r"\s+", " ", p).strip() for p in head.split(",\n" if "\n" in head else ", ")]
        yield m.group(1), m.start(), [p.rstrip(",") for p in params if ":" in p], clauses, rest[len(clauses) :]


def option_like():
    for f, t in files.items():
        for m in re.finditer(r"enum (\w+) \{\n(.*?)\n\}", t, re.S):
            body = re.sub(r"//[^\n]*", "", m.group(2))
            body = re.sub(r"\{[^}]*\}", "{}", body)
            variants = [v.strip() for v in re.split(r",\s*\n", body) if v.strip()]
            full = [v for v in variants if "(" in v or "{}" in v]
            if len(full) == 1 and len(variants) >= 2 or len(variants) == 2 and len(full) == 2:
                yield f, line_of(t, m.start()), "enum " + m.group(1)


def flagged():
    for f, t in files.items():
        for m in re.finditer(r"struct (\w+)(?:<[^>]*>)? \{\n(.*?)\n\}", t, re.S):
            flag = re.search(r"(good|ok|given|right|more|fault|found|seen|known|closed): (bool|u8|u64)", m.group(2))
            if flag and m.group(2).count(":") > 1:
                yield f, line_of(t, m.start()), f"struct {m.group(1)}: {flag.group(1)}"


def number_codes():
    for f, t in files.items():
        for m in re.finditer(r"const (\w+): u(?:8|64) = (?:0x)?[0-9A-Fa-f_]+;", t):
            yield f, line_of(t, m.start()), m.group(0)


def twins():
    shapes = collections.defaultdict(list)
    for f, t in files.items():
        for name, at, params, clauses, body in functions(t):
            if body.count("\n") < 4:
                continue
            shape = re.sub(r"\b[A-Za-z_]\w*\b|\b\d[\d_A-Fx]*\b", "N", re.sub(r"//[^\n]*", "", body))
            shapes[re.sub(r"\s+", " ", shape)].append((f, line_of(t, at), "fn " + name))
    for places in shapes.values():
        if len(places) > 1:
            yield from ((f, n, f"{what}, one of {len(places)}") for f, n, what in places)


def loops():
    for f, t in files.items():
        for m in re.finditer(r"^ *(while (?!let).*|loop) \{$", t, re.M):
            yield f, line_of(t, m.start()), m.group(1)


def by_hand():
    word = r"fn (same\w*|is_same\w*|equal\w*|eq|compare\w*|less\w*|before|wide|least|most|digit|hex_digit|value_of_digit|put_decimal|code_of|kind_of|number_of|\w+_code|\w+_of_code|as_\w+)\("
    for f, t in files.items():
        for m in re.finditer(word, t):
            yield f, line_of(t, m.start()), "fn " + m.group(1)


def facts():
    said = collections.defaultdict(list)
    for f, t in files.items():
        for name, at, params, clauses, body in functions(t):
            for m in re.finditer(r"requires(?: \w+)? \{ (.*) \}$", clauses, re.M):
                for part in re.split(r" × ", m.group(1).replace("(", "").replace(")", "")):
                    said[part.strip()].append((f, line_of(t, at), name))
    for part, places in said.items():
        if len(places) > 2:
            yield places[0][0], places[0][1], f"{len(places)} functions require: {part}"


def together():
    runs = collections.defaultdict(set)
    for f, t in files.items():
        for name, at, params, clauses, body in functions(t):
            for i in range(len(params) - 2):
                runs[tuple(params[i : i + 3])].add((f, line_of(t, at), name))
    for run, places in runs.items():
        if len(places) > 2:
            f, n, name = sorted(places)[0]
            yield f, n, f"{len(places)} functions take: {', '.join(run)}"


def beside():
    for f, t in files.items():
        for name, at, params, clauses, body in functions(t):
            has = [p for p in params if re.match(r"(n|m|k|count|len|total|limit|used|asked|span): usize", p)]
            arrays = [p for p in params if "[" in p]
            if has and arrays:
                yield f, line_of(t, at), f"fn {name}: {', '.join(has)}"
        for m in re.finditer(r"struct (\w+)(?:<[^>]*>)? \{\n(.*?)\n\}", t, re.S):
            if "[" in m.group(2) and re.search(r"(len|count|n): usize", m.group(2)):
                yield f, line_of(t, m.start()), f"struct {m.group(1)}"


def switches():
    for f, t in files.items():
        for m in re.finditer(r"match (step|action|purpose|use)\b.*\{|fn \w+\(.*: fn\(", t):
            yield f, line_of(t, m.start()), m.group(0)


points = {
    "1a": option_like, "1b": flagged, "1c": number_codes, "2": twins, "3": loops, "4": by_hand,
    "5a": facts, "5b": together, "6": beside, "7": switches,
}
for point, places in points.items():
    found = sorted(set(places()))
    if POINT == point:
        for f, n, what in found:
            print(f"{f}:{n}: {what}")
    elif not POINT:
        print(point, len(found))
