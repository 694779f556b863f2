#!/usr/bin/env python3
"""Finds the places that docs/DESIGN-PASS.md counts, point by point.

usage: tools/places.py [-l] [FOLDER]    FOLDER has crates/ (this repository if none is named); -l lists each place
"""
import collections
import glob
import os
import re
import sys

WORDS = set("as const else enum fn for if impl in let loop match mod move mut pub ref return self Self static struct trait type use while Some None Ok Err true false".split())


def functions(text):
    """Each function: its name, its head with the clauses, its body."""
    for m in re.finditer(r"^( *)((?:pub(?:\([a-z]+\))? )?(?:extern \"C\" )?fn (\w+).*?)^\1\{\n(.*?)^\1\}|^( *)((?:pub(?:\([a-z]+\))? )?(?:extern \"C\" )?fn (\w+)[^\n]*) \{\n(.*?)^\5\}", text, re.S | re.M):
        if m[3]:
            yield m[3], m[2], m[4], m.start()
        else:
            yield m[7], m[6], m[8], m.start()


def skeleton(body):
    """The body with names and numbers left out."""
    tokens = re.findall(r'b?"[^"]*"|\'.\'|\w+|[^\w\s]', re.sub(r"//[^\n]*", "", body))
    return " ".join("0" if t[0].isdigit() else t if not re.match(r"\w", t) or t in WORDS else '"' if '"' in t else "x" for t in tokens)


def line_of(text, at):
    return text.count("\n", 0, at) + 1


def main(args):
    listed = "-l" in args
    root = next((a for a in args if a != "-l"), os.path.join(os.path.dirname(__file__), ".."))
    sources = {os.path.relpath(f, root): open(f).read() for f in sorted(glob.glob(f"{root}/crates/*/src/*.rt"))}
    code = {f: t for f, t in sources.items() if "_checks/" not in f}

    def lines(pattern, files, but=None):
        return [f"{f}:{n}: {x.strip()}" for f, t in files.items() for n, x in enumerate(t.split("\n"), 1)
                if re.search(pattern, x) and not x.strip().startswith("//") and not (but and re.search(but, x))]

    def spans(pattern, files):
        return [f"{f}:{line_of(t, m.start())}: {' '.join(m[0].split())[:110]}" for f, t in files.items() for m in re.finditer(pattern, t, re.M | re.S)]

    def outside(found):
        """Without what stands in an impl of a conversion or of printing."""
        inside = {(f, n) for f, t in code.items() for m in re.finditer(r"^impl.* (?:From<.*>|TryFrom<.*>|fmt::Display) for.*?^\}", t, re.M | re.S)
                  for n in range(line_of(t, m.start()), line_of(t, m.end()) + 1)}
        return [x for x in found if (x.split(":")[0], int(x.split(":")[1])) not in inside]

    def show(name, found):
        print(f"{name:<62} {len(found):4}")
        if listed:
            for x in found:
                print(f"    {x}")

    print("1. options, results and codes")
    enums = [f"{f}:{line_of(t, m.start())}: {m[1]}" for f, t in code.items() for m in re.finditer(r"^(?:pub(?:\([a-z]+\))? )?enum (\w+) \{\n(.*?)^\}", t, re.M | re.S)
             if len(v := re.findall(r"^    \w+.*$", m[2], re.M)) <= 3 and any(re.search(r"\(|\{", x) for x in v)]
    show("enums of two or three variants, one with a value", enums)
    show("let else, or if, that only hands None or an Err on", spans(r"let (Some|Ok|Err)\([^=;]*\) = [^;]*?else \{\s*return (Err\([\w:]+(\([^()]*\))?\)|None);\s*\}", sources))
    show("match arms that only hand None or an Err on", lines(r"Err\((\w+)\) => (return )?(Err\(\1\)|\w+Error::\w+\(\1\)|Err\(\w+::\w+\(\1\)\))|None => (return )?(Err\([\w:]+\)|None),|Err\(_\) => None|Err\(_\) => Err", sources))
    show("is_err and is_none as tests", lines(r"\.(is_err|is_none)\(\)", code))
    structs = [(f, line_of(t, m.start()), m[1], m[2]) for f, t in code.items() for m in re.finditer(r"^(?:pub(?:\([a-z]+\))? )?struct (\w+)[^{;]*\{\n(.*?)^\}", t, re.M | re.S)]
    show("flags beside values, in structs", [f"{f}:{n}: {s}.{x}" for f, n, s, b in structs for x in re.findall(r"(\w+): bool", b)])
    show("numbers for kinds or for none", [f"{f}:{n}: {s}.{x}" for f, n, s, b in structs for x in re.findall(r"(kind|rule|control|layer|refused|soonest|observation): [iu]\d+", b)]
         + [f"{f}:{line_of(t, at)}: {name}({x})" for f, t in code.items() for name, head, _, at in functions(t) for x in re.findall(r"\b(kind|rule|control|layer): [iu]\d+", head)]
         + lines(r"fn accept_number\(&self, i: u32\) -> i32$|fn soonest_fit.*-> u32", code))

    print("2. twins")
    groups = collections.defaultdict(list)
    for f, t in code.items():
        for name, head, body, at in functions(t):
            s = skeleton(body)
            if len(s.split()) >= 20:
                groups[s].append(f"{f}:{line_of(t, at)}: {name}")
    show("functions whose bodies differ in names and constants alone", [" | ".join(g) for g in groups.values() if len(g) > 1])
    fields = collections.defaultdict(list)
    for f, n, s, b in structs:
        fields[tuple(sorted(re.findall(r"(\w+): ", b)))].append(f"{f}:{n}: {s}")
    show("structs of the same fields", [" | ".join(g) for k, g in fields.items() if len(g) > 1 and len(k) > 1])

    print("3. index loops")
    show("for over a range of numbers", lines(r"for [a-z]\w* in [^{]*\.\.", sources, r"\[[^\]]*\.\.[^\]]*\]"))
    show("while with an index", lines(r"while \w+ < |while .*\.len\(\)", sources))
    show("enumerate", lines(r"\.enumerate\(\)", sources))

    print("4. comparisons, copies, conversions, printing")
    show("impls of comparisons and copies by hand", lines(r"^impl.* (Clone|Copy|PartialEq|Eq|Ord|PartialOrd|Debug|Default) for", sources))
    show("casts", lines(r" as [iu](8|16|32|64|128|size)\b", sources))
    show("words compared one by one", lines(r"if same_word\(", sources))
    show("arms from a name to a number or back, outside From", outside(lines(r"=> (Ok\(|Some\()?-?\d[\d_]*\)?,$|^ *-?\d+ => (Ok|Some)\(", code)))
    show("arms from a name to a text, outside Display", outside(lines(r'=> "[^"]+",$|=> push_bytes\(text, b"', code)))
    show("decimal digits made by hand", lines(r"fn push_(digit|natural|signed)|b'0' \+", code))

    print("5. facts and parameters that travel together")
    facts = collections.defaultdict(set)
    for f, t in code.items():
        for name, head, _, at in functions(t):
            for x in re.findall(r"(?:requires|ensures)(?: \w+)? \{ (.*) \}$", head, re.M):
                facts[f.split("/")[1], x].add(f"{f}:{line_of(t, at)}: {name}")
    show("clauses that stand in three functions of a crate", [f"{c}: {x}: {len(g)}" for (c, x), g in sorted(facts.items()) if len(g) > 2])
    show("functions that take a main and a short plan", [f"{f}:{line_of(t, at)}: {name}" for f, t in code.items() for name, head, _, at in functions(t) if re.search(r"\bmain: &?M,", head) and re.search(r"\bshort: &?S\b", head)])

    print("6. buffers")
    show("arrays with a length beside them, in structs", [f"{f}:{n}: {s}" for f, n, s, b in structs if re.search(r": \[\w+; \w+\]", b) and re.search(r"\b(len|length|count): usize", b)])
    show("arrays filled one by one", spans(r"let mut \w+ = \[[^\]]*;\s*\w+\];\s*(let mut \w+ = 0;|for )", code))
    show("a Vec of at most one", lines(r"Vec<Running>", code))

    print("7. switches")
    show("macros that switch", lines(r"macro_rules!", code))
    show("matches that hand on to another match", lines(r"^ *_ => (self\.|Reply::|name_)\w*\(|else \{\s*name_", code) + spans(r"else \{\s*name_\w+\(word\)\s*\}", code))

    print("8. proofs")
    proofs = {f: open(f).read() for f in glob.glob(f"{root}/crates/*/proofs/**/*.antt", recursive=True)}
    answers = [f"{os.path.relpath(f, root)}: {x}" for f, t in sorted(proofs.items()) if f.endswith("/Answers.antt") for x in re.findall(r"^pub ([\w'+-]+) :", t, re.M)]
    show("answers", answers)
    print(f"lines of proofs {sum(t.count(chr(10)) for t in proofs.values())}")


main(sys.argv[1:])
