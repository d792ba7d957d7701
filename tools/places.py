#!/usr/bin/env python3
"""Counts, in the sources of all crates, the places at which an older form may stand: `tools/places.py [COMMIT] [-v]`.

With no commit it reads the working tree; -v names each place. The subjects are those of docs/DESIGN-PASS.md.
"""
import collections
import re
import subprocess
import sys


def sources(commit):
    """The files of src/ as (path, text), of a commit or of the working tree."""
    if commit:
        names = subprocess.run(["git", "ls-tree", "-r", "--name-only", commit, "crates"], capture_output=True, text=True).stdout.split("\n")
    else:
        names = subprocess.run(["git", "ls-files", "-co", "--exclude-standard", "crates"], capture_output=True, text=True).stdout.split("\n")
    for name in sorted(set(names)):
        if re.search(r"/src/.*\.rt$", name):
            if commit:
                yield name, subprocess.run(["git", "show", f"{commit}:{name}"], capture_output=True, text=True).stdout
            else:
                try:
                    yield name, open(name).read()
                except FileNotFoundError:
                    pass


FUNCTION = re.compile(r"^( *)(?:pub(?:\(crate\))? )?(?:const )?fn (\w+)[^\n]*", re.M)


def functions(path, text):
    """Each function: its name, its head (parameters and clauses) and its body, with no comments."""
    for match in FUNCTION.finditer(text):
        indent = match.group(1)
        end = re.compile(rf"^{indent}}}", re.M).search(text, match.start())
        whole = text[match.start(): end.end() if end else match.end()]
        first = whole.split("\n", 1)[0]
        if first.rstrip().endswith(";"):
            yield match.group(2), first, "", text[: match.start()].count("\n") + 1
            continue
        if first.rstrip().endswith("{"):
            head, body = whole.split("{", 1)
        else:
            cut = re.search(rf"^{indent}{{", whole, re.M)
            head, body = (whole[: cut.start()], whole[cut.start():]) if cut else (whole, "")
        yield match.group(2), head, re.sub(r"//[^\n]*", "", body), text[: match.start()].count("\n") + 1


WORDS = {"if", "else", "for", "in", "let", "mut", "match", "return", "Some", "None", "Ok", "Err", "true", "false", "as", "while", "self"}


def skeleton(body):
    """A body with each name, number and string as a blank."""
    tokens = re.findall(r'b?"[^"]*"|b?\'[^\']+\'|\w+|[^\s\w]', body)
    return " ".join(t if t in WORDS or not re.match(r"[\w\"']|b['\"]", t) else "_" for t in tokens)


def lines_with(files, pattern):
    for path, text in files:
        code = re.sub(r"//[^\n]*", "", text)
        for match in re.finditer(pattern, code, re.M):
            yield f"{path}:{code[:match.start()].count(chr(10)) + 1}: {match.group(0).strip().splitlines()[0]}"


def repeated(files, least):
    """Clauses whose text stands in the contracts of so many functions."""
    where = collections.defaultdict(list)
    for path, text in files:
        for name, head, _, line in functions(path, text):
            for kind, clause in re.findall(r"(requires|ensures)(?: \w+)? \{ (.*) \}\s*$", head, re.M):
                for fact in re.split(r" × ", clause):
                    where[re.sub(r"^\(|\)$", "", fact)].append(f"{path}:{line} {name}")
    return {fact: places for fact, places in where.items() if len(set(places)) >= least and "result" not in fact}


def together(files, least):
    """Pairs of parameters, by name and type, that stand in the signatures of so many functions."""
    where = collections.defaultdict(set)
    for path, text in files:
        for name, head, _, line in functions(path, text):
            signature = head.split("->")[0].split("requires")[0].split("ensures")[0]
            params = re.findall(r"(\w+): ((?:&'?\w* ?(?:mut )?)?[\w:<>\[\]]+)", signature)
            names = [f"{p}: {t}" for p, t in params if p not in ("rt", "heap")]
            for i, a in enumerate(names):
                for b in names[i + 1:]:
                    where[(path.split("/")[1], a, b)].add(f"{path}:{line} {name}")
    return {pair: sorted(places) for pair, places in where.items() if len(places) >= least}


def main():
    words = [w for w in sys.argv[1:] if w != "-v"]
    files = list(sources(words[0] if words else None))
    verbose = "-v" in sys.argv

    def show(title, places):
        places = list(places)
        print(f"{title}: {len(places)}")
        if verbose:
            for place in places:
                print("    " + place)

    print("forms of Option and Result by hand, flags and codes")
    show("  an arm or a let that hands a value or a fault on", lines_with(files, r"(Ok|Some)\((\w+)\) => (Ok\(\2\)|Some\(\2\)|\2),|Err\(\w+\) => (return )?Err\(.*|Err\(_\) => None.*|None => (return )?Err\(.*|None => None.*|let Ok\(.*"))
    show("  a result of u8 that says nothing", lines_with(files, r"-> u8$(?=(\n    ensures.*)+\n\{\n(    let _.*\n)?    0\n)"))
    show("  a count that is a flag, a number that is a kind", lines_with(files, r"\bblocks: u64.*|\bmark\(is: bool\).*|fn \w+\(.*\bdecimals: usize.*"))
    print("twins")
    shapes = collections.defaultdict(list)
    for path, text in files:
        for name, head, body, line in functions(path, text):
            shape = skeleton(body)
            if len(shape.split()) >= 14:
                shapes[shape].append(f"{path}:{line} {name}")
    groups = [places for places in shapes.values() if len(places) > 1]
    print(f"  groups of functions whose bodies differ in names and constants alone: {len(groups)}, functions in them: {sum(map(len, groups))}")
    if verbose:
        for places in groups:
            print("    " + ", ".join(places))
    consts = collections.defaultdict(list)
    for path, text in files:
        for name, value in re.findall(r"^ *(?:pub(?:\(crate\))? )?const (\w+): \w+ = ([^;]+);", text, re.M):
            consts[name].append(f"{path} {name}")
    show("  constants that stand in two files under one name", [", ".join(p) for p in consts.values() if len(p) > 1])
    print("loops that count by hand")
    show("  for over a range, while", lines_with(files, r"^ *(for \w+ in [^{]*\.\.[^{]*\{|while [^{]*\{)"))
    show("  a counter beside a loop", lines_with(files, r"^ *\w+ \+= 1;"))
    show("  enumerate", lines_with(files, r"^ *for \(\w+, \w+\) in .*enumerate\(\).*"))
    show("  a loop that adds up, tests all or finds one", lines_with(files, r"^ *for [^{]*\{\n(?:        +(?:\w+ \+= .*;|if .*\{\n *(?:return .*;|\w+ \+= .*;)\n *\})\n)+ *\}"))
    print("equality, order, copying, conversion, printing by hand")
    show("  casts", lines_with(files, r".*\bas (u8|u16|u32|u64|u128|usize|char)\b.*"))
    show("  functions that compare, copy or convert", lines_with(files, r"^ *(pub )?(pub\(crate\) )?fn (same_\w+|is_of|mark|better|compare|of|product_text|refusal|at|number_and_place)\b.*"))
    print("facts and parameters that travel")
    for fact, places in sorted(repeated(files, 3).items(), key=lambda f: -len(f[1])):
        print(f"  fact in {len(places)} contracts: {fact}")
        if verbose:
            print("    " + ", ".join(places))
    for pair, places in sorted(together(files, 3).items(), key=lambda f: -len(f[1])):
        print(f"  {pair[0]}: {pair[1]}, {pair[2]} in {len(places)} signatures")
    print("buffers with a length beside")
    show("  fields that are arrays", lines_with(files, r"^ *(pub(\(crate\))? )?\w+: \[[^\]\d][^\]]*; \w+\],"))
    show("  slots and a count filled by hand", lines_with(files, r"^ *\w+\[\w+\] = .*"))
    print("switches on a step, tables of functions")
    show("  fn pointers, dyn, parameters that are flags", lines_with(files, r".*\bdyn \w.*|.*: fn\(.*|^ *(pub )?(pub\(crate\) )?fn \w+\(.*: bool.*"))


main()
