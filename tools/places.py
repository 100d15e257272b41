#!/usr/bin/env python3
"""Lists the lines of src/ that the points of docs/DESIGN-PASS.md are about; a reader judges which of them are places.

usage: python3 tools/places.py [POINT]      in the repository's root
Files named tests*.rt are read too. A comment is not, but the lines that begin with '// Stays' are listed last.
"""
import collections
import glob
import re
import sys

FILES = sorted(glob.glob("crates/*/src/**/*.rt", recursive=True))


def lines():
    for path in FILES:
        for number, line in enumerate(open(path), 1):
            yield path[len("crates/"):], number, line.rstrip("\n")


def grep(title, pattern, only=None):
    found = [(p, n, l.strip()) for p, n, l in lines()
             if re.search(pattern, l) and not l.lstrip().startswith("//") and (only is None or re.search(only, p))]
    show(title, [f"{p}:{n}: {l}" for p, n, l in found])


def show(title, found):
    print(f"--- {title}: {len(found)}")
    for line in found:
        print("    " + line)


def functions():
    """(path, name, parameters, clauses) of each function."""
    for path in FILES:
        text = open(path).read()
        for m in re.finditer(r"^\s*(?:pub(?:\([a-z]+\))? )?fn (\w+)[^(]*\(", text, re.M):
            depth, at = 1, m.end()
            while depth:
                depth += {"(": 1, ")": -1}.get(text[at], 0)
                at += 1
            parameters = [p.strip() for p in re.split(r",\s*(?![^<\[(]*[>\])])", text[m.end():at - 1]) if p.strip()]
            end = re.search(r"\{\s*$|;\s*$|\{ ?\}$", text[at:], re.M)
            head = text[at:at + end.start()] if end else ""
            clauses = re.findall(r"^\s*(?:requires|ensures) (?:\w+ )?\{ (.*) \}", head, re.M)
            yield path[len("crates/"):], m.group(1), parameters, clauses


def repeated(kind, of, least=3):
    seen = collections.defaultdict(list)
    for path, name, parameters, clauses in functions():
        if "/tests" in path:
            continue
        crate = path.split("/")[0]
        for thing in of(parameters, clauses):
            if (path, name) not in seen[crate, thing]:
                seen[crate, thing].append((path, name))
    show(kind, [f"{crate}: {thing}   in " + ", ".join(name for _, name in where)
                for (crate, thing), where in sorted(seen.items()) if len(where) >= least])


def facts(_, clauses):
    for clause in clauses:
        for fact in re.split(r" × (?=\()|(?<=\)) × ", clause):
            fact = fact.strip()
            fact = fact[1:-1] if re.fullmatch(r"\([^()]*\)", fact) else fact
            yield re.sub(r"\.(now|old|new)\b", "", fact)


def together(parameters, _):
    names = [p for p in parameters if "self" not in p]
    for a, b in zip(names, names[1:]):
        yield f"{a}, {b}"


def twins():
    """Functions of the same name, or whose code reads alike but for names of types, constants and paths."""
    bodies = collections.defaultdict(list)
    names = collections.defaultdict(list)
    for path in FILES:
        text = open(path).read()
        for m in re.finditer(r"^(\s*)(?:pub(?:\([a-z]+\))? )?fn (\w+).*?^\1\{\n(.*?)^\1\}", text, re.M | re.S):
            body = re.sub(r"::<[^>]*>|\b[A-Z]\w*\b|\b\d\w*\b|self\.(plain\.)?|&mut |&|\s+", "", m.group(3))
            where = f"{path[len('crates/'):]}:{m.group(2)}"
            if len(body) > 25:
                bodies[body].append(where)
            if "/tests" not in path:
                names[m.group(2)].append(where)
    show("functions that read alike", [" ~ ".join(w) for w in bodies.values() if len(w) > 1])
    show("functions of one name", [" ~ ".join(w) for n, w in sorted(names.items()) if len(w) > 1])
    constants = collections.defaultdict(list)
    for p, n, l in lines():
        m = re.search(r"const (\w+): \w+ = (.*);", l)
        if m and "/tests" not in p:
            constants[m.group(2)].append(f"{p}:{m.group(1)}")
    show("constants of one value", [f"{v}: " + " ~ ".join(w) for v, w in sorted(constants.items()) if len(w) > 1])


def point(n):
    print(f"=== point {n}")
    if n == 1:
        grep("enums", r"^\s*(pub(\([a-z]+\))? )?enum ")
        grep("flags in structs", r"^\s+(pub(\([a-z]+\))? )?\w+: bool,")
        grep("numbers for kinds and refusals", r"const (REED|THREE|LOSS)\w*: u8|coder: (u8|usize)|(Number|Written)\(u8\)|^\s*[01] => (&\[|Ok)")
        grep("answers as numbers in tests", r"\) -> (u8|\(u8,.*) \{$", "/tests")
    elif n == 2:
        twins()
    elif n == 3:
        grep("loops over numbers", r"\bfor .* in .*\.\.|\bwhile |\bloop \{")
        grep("other loops", r"\bfor \w.* in (?!.*\.\.)")
    elif n == 4:
        grep("equality and copying", r"fn (same|equal|equals|is_zero|copy_\w+|eq|cmp|clone)\b")
        grep("conversion", r"Err\(\w+::Unfit|Ok\((\w+)\) => Ok\(|Err\(_\) => (Ok|Err)|fn number\(self|=> \w+::(Octet|Lost)\b")
        grep("printing", r"format!|write!|impl (fmt::)?Display")
    elif n == 5:
        repeated("facts in the contracts of three functions or more", facts)
        repeated("parameters side by side in three functions or more", together)
    elif n == 6:
        grep("fixed buffers", r"let (mut )?\w+ = \[.*; .*\];|^\s+(pub(\([a-z]+\))? )?\w+: \[.*; .*\],", r"^(?!.*tests)")
        grep("slices with a length or an index beside", r"(used|count|kept|width|frame|check|start|wait): usize[,)]|places: &\[u8\], *values|^\s+places: &\[u8\],$", r"^(?!.*tests)")
        grep("searched by hand", r"if \w+\.\w+ == \w+ \{")
    elif n == 7:
        grep("steps chosen by a match", r"=> (\w+\(heap|put\()|&'static \[\w+\]|dyn |: fn\(")
    elif n == 8:
        total = 0
        for path in sorted(glob.glob("crates/*/proofs/**/Answers.antt", recursive=True)):
            answers = len(re.findall(r"^pub [\w+-]+ :", open(path).read(), re.M))
            total += answers
        counted = collections.Counter(p.split("/")[1] for p in glob.glob("crates/*/proofs/**/*.antt", recursive=True) for _ in open(p))
        print(f"--- answers: {total}; lines of proofs/: {sum(counted.values())}")
        for crate, count in sorted(counted.items()):
            print(f"    {crate}: {count}")


for n in [int(a) for a in sys.argv[1:]] or range(1, 9):
    point(n)
if len(sys.argv) < 2:
    show("places that stay, each with its reason", [f"{p}:{n}: {l.strip()}" for p, n, l in lines() if l.lstrip().startswith("// Stays")])
