#!/usr/bin/env python3
"""Places in crates/*/src that an older form of the language shaped, by the points of docs/DESIGN-PASS.md.

    python3 tools/places.py [POINT..]     (at the top of the repository)

It finds candidates by the text; which of them are places, and why one stays, is said in docs/DESIGN-PASS.md.
"""
import collections
import glob
import itertools
import os
import re
import sys

SOURCES = sorted(p for p in glob.glob("crates/*/src/**/*.rt", recursive=True) if "/out/" not in p and "/target/" not in p)
PROOFS = sorted(p for p in glob.glob("crates/*/proofs/**/*.antt", recursive=True) if "/out/" not in p and "/target/" not in p)
TEXT = {p: open(p).read() for p in SOURCES}


def places(pattern, flags=re.M):
    for path in SOURCES:
        for found in re.finditer(pattern, TEXT[path], flags):
            line = TEXT[path].count("\n", 0, found.start()) + 1
            yield f"{path}:{line}", " ".join(found.group(0).split())


def functions():
    """Path, line, name, parameters and clauses of each function."""
    for path in SOURCES:
        for found in re.finditer(r"^( *)(?:pub(?:\(crate\))? )?fn (\w+)(?:<[^>]*>)?\((.*?)\)(.*?)(?=^\1\{|\{$|;$)", TEXT[path], re.M | re.S):
            line = TEXT[path].count("\n", 0, found.start()) + 1
            yield path, line, found.group(2), found.group(3), found.group(4)


def own_variants():
    print("  enums:", ", ".join(text for _, text in places(r"^(?:pub )?enum \w+")))
    for what, pattern in [
        ("a flag in a struct", r"^ +(?:pub(?:\(crate\))? )?\w+: bool,$"),
        ("a number for a kind or a refusal", r"fn (?:number|from_number|refusal|code|kind)\(|\b(?:word|kind|code|number|layer): u(?:8|32)\b(?=[,)])"),
    ]:
        report(what, places(pattern))


def twins():
    """Functions of one name whose bodies are alike when the names of fields and types are left out."""
    bodies = collections.defaultdict(list)
    for path in SOURCES:
        for found in re.finditer(r"^( *)(?:pub(?:\(crate\))? )?fn (\w+)\b.*?^\1\}$", TEXT[path], re.M | re.S):
            line = TEXT[path].count("\n", 0, found.start()) + 1
            body = found.group(0)
            body = body[body.rfind("\n" + found.group(1) + "{") :] if "\n" + found.group(1) + "{" in body else body[body.find("{") :]
            shape = re.sub(r"\b(?!self\b|Some\b|None\b|Ok\b|Err\b|match\b|if\b|else\b|return\b|let\b)[A-Za-z_]\w*\b", "_", " ".join(body.split()))
            bodies[(found.group(2), shape)].append(f"{path}:{line}")
    report("functions alike but for names", ((", ".join(where), name) for (name, _), where in sorted(bodies.items()) if len(where) > 1 and name != "main"))


def counted_loops():
    report("loops that are no `for` over items", places(r"^ *(?:while|loop)\b.*\{$|^ *for \w+ in [^{]*\.\.[^{]*\{$"))
    report("an index counted by hand", places(r"^ *\w+ \+= 1;$"))


def by_hand():
    report("a conversion with a name of its own", places(r"fn (?:number|from_number|refusal|words|to_\w+|from_\w+|into_\w+)\("))
    report("a default with a name of its own", places(r"fn (?:bare|empty|zero)\(\)|fn new\(\) -> "))
    report("a case told apart by hand", places(r"=> (?:true|false),"))
    report("text made by hand", places(r"format!\("))
    report("plain public types without comparisons", places(r"(?:^#\[derive\((?:Clone, Copy|Drop)\)\]\n)pub (?:struct|enum) \w+"))


def travelling():
    pairs, facts = collections.defaultdict(set), collections.defaultdict(set)
    for path, line, name, parameters, clauses in functions():
        names = sorted(set(re.findall(r"(\w+): (?!&HostRuntime|Global)", parameters)) - {"self"})
        for pair in itertools.combinations(names, 2):
            pairs[(os.path.dirname(path).split("/")[1], pair)].add(name)
        for label, fact in re.findall(r"(requires|ensures)(?: \w+)? \{ (.*?) \}(?=\n|$)", clauses):
            facts[" ".join(fact.split())].add(f"{path}:{line} {name}")
    report("parameters together in three functions or more", ((f"{crate} {a}, {b}", " ".join(sorted(names))) for (crate, (a, b)), names in sorted(pairs.items()) if len(names) > 2))
    report("one clause in three functions or more", ((fact[:90], " ".join(sorted(w.split()[-1] for w in where))) for fact, where in sorted(facts.items()) if len(where) > 2))


def buffers():
    report("a place beside a collection", places(r"^ +\w+: (?:usize|u32),(?=\n +ghost \w+: \{ \w+ [<≤])"))
    report("an array or an index", places(r"\[\w+(?:\.\w+)*(?: as usize)?\](?=[;. )])|: \[\w+; \w+\]"))


def closures():
    report("a match that only wraps again", places(r"match [^{\n]+ \{\n\s*(?:Some|Ok)\(\w+\)(?: if [^=]+)? => [^\n]+\n\s*(?:None|Err\(_\)|_) => [^\n]+\n\s*\}|match [^{\n]+ \{\n\s*(?:Some|Ok)\(_\) => [^\n]+\n\s*None => [^\n]+\n\s*\}"))
    report("an if that makes an Option or a number of a test", places(r"if [^{\n]+ \{\n\s*(?:Some\([^\n]+\)|Ok\(\(\)\)|[\w.]+\([^\n]+\))\n\s*\} else \{\n\s*(?:None|Err\(\w+\))\n\s*\}|if [^{\n]+ \{\n\s*return None;\n\s*\}|if [^{\n]+is_err\(\) \{\n\s*return Err\([^\n]+\);\n\s*\}|if \w+ \{ \w+ \} else \{ 0 \}"))
    report("closures there are", places(r"(?<=[(, ])(?:move )?\|[&\w(][\w&(), ]*\| |\(\|\| "))
    report("a stored or handed-out function", places(r"\bdyn \w+|: fn\("))


def proofs():
    answers = sum(len(re.findall(r"^pub [\w-]+ : goal\.", open(p).read(), re.M)) for p in PROOFS)
    lemmas = sum(len(re.findall(r"^ *(?:pub )?(?!use |module |abbrev |mod |record )[\w≡≤-]+(?: [\w]+)* : ", open(p).read(), re.M)) for p in PROOFS) - answers
    print(f"  answers: {answers}; lemmas in proofs/: {lemmas}; lines in proofs/: {sum(open(p).read().count(chr(10)) for p in PROOFS)}")


def report(what, found):
    found = list(found)
    print(f"  {what}: {len(found)}")
    for where, text in found:
        print(f"    {where}  {text}")


POINTS = [own_variants, twins, counted_loops, by_hand, travelling, buffers, closures, proofs]

if __name__ == "__main__":
    for number in [int(a) for a in sys.argv[1:]] or range(1, 9):
        print(f"{number}.")
        POINTS[number - 1]()
