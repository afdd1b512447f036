#!/usr/bin/env python3
"""places.py [COMMIT] [-v]: the places of docs/DESIGN-PASS.md in crates/*/src of a commit (default HEAD), point by point.

Each point counts lines by patterns of the old form, whatever the names are; -v lists them. Points 2 and 5 read
whole functions: 2 pairs those whose bodies differ in names and numbers alone, 5 counts the facts that stand in
the clauses of three or more functions and the parameters that three or more functions take together.
"""
import collections
import itertools
import re
import subprocess
import sys

LINES = {
    "1 refusals as numbers": r"refusals?: u8\b|fn \w*refusal\w*\(.*-> u8$|Refused\(u8\)|\bwritten: u8\b",
    "1 own enums in place of Option or Result": r"^    (Refused|Nothing|Unknown)\b",
    "1 flags with a value beside them, or two flags for a kind": r"^    pub (fit|even|found|refusal): ",
    "1 kinds as numbers": r"\bkind: u8\b|KIND: u8\b|fn \w*kind\(.*-> u8$|\bkind == \d|^ +\d+( \| \d+)? => (?!rows)",
    "3 loops": r"^ +(while|loop)\b",
    "4 order, equality, conversion by hand": r"fn (same|same_clip|has_mark|lesser|greater|less|distance|higher|lower|span|rise|"
    r"bits|signed|word|word_bytes|wide|wide_unsigned|either|coordinate|unsigned|edge|falls|at_most|passed|touched|apart_of)\("
    r"|fn \w+_(answer|given|kind)\(|fn (basis|clip|point|ends|corners)_of\(",
    "6 buffers with a place or a length beside them": r"(?:out|list|hs|bytes): (?:&mut )?\[\w+(?:; \w+)?\], (?:at|place|n|radius): |list: &'a mut",
    "7 switches on which step to run": r"\.len\(\) == 256 \{|\bleft: bool|\bshow: bool",
}


def source(commit):
    names = subprocess.run(["git", "ls-tree", "-r", "--name-only", commit, "crates"], capture_output=True, text=True, check=True)
    for name in names.stdout.split():
        if re.fullmatch(r"crates/\w+/src/.*\.rt", name):
            text = subprocess.run(["git", "show", f"{commit}:{name}"], capture_output=True, text=True, check=True).stdout
            yield name.removeprefix("crates/"), text


def functions(text):
    """Each function: its name, its parameters, its clauses and its body."""
    for found in re.finditer(r"^( *)(?:pub(?:\(crate\))? )?(?:extern \"C\" )?fn (\w+)(?:<[^>]*>)?\((.*?)\)(?: -> [^\n{]+)?\n(.*?)^\1\}$", text, re.S | re.M):
        indent, name, parameters, rest = found.groups()
        clauses, _, body = rest.partition(f"{indent}{{\n")
        yield name, [" ".join(p.split()) for p in parameters.split(",") if p.strip()], clauses, body


def twins(all_functions):
    """Pairs of functions of three lines or more that are the same but for names of functions, types and numbers."""
    shapes = collections.defaultdict(list)
    for where, name, parameters, clauses, body in all_functions:
        if body.count("\n") >= 3:
            shape = re.sub(r"\b(?:\w+::)*\w+(?=\()|\b[A-Z]\w*\b|\b\d+\b", "_", body)
            shapes[re.sub(r"\s+", " ", shape)].append(f"{where} {name}")
    return [group for group in shapes.values() if len(group) > 1]


def repeated(all_functions):
    facts, together = collections.defaultdict(set), collections.defaultdict(set)
    for where, name, parameters, clauses, body in all_functions:
        for clause in re.findall(r"requires(?: \w+)? \{(.*?)\}", clauses, re.S):
            for fact in clause.split(" × "):
                fact = " ".join(fact.split()).strip("() ")
                if re.match(r"[A-Z]|\w+_refusal|length palette", fact):
                    facts[fact].add(f"{where} {name}")
        for group in itertools.combinations(parameters, 3):
            together[group].add(f"{where} {name}")
    # groups that the same functions take are one
    widest = collections.defaultdict(dict)
    for group, users in together.items():
        if len(users) >= 3:
            widest[frozenset(users)].update(dict.fromkeys(group))
    return (
        {fact: users for fact, users in facts.items() if len(users) >= 3},
        {tuple(group): users for users, group in widest.items()},
    )


def main():
    arguments = [a for a in sys.argv[1:] if a != "-v"]
    commit, verbose = (arguments or ["HEAD"])[0], "-v" in sys.argv
    files = list(source(commit))
    for point, pattern in LINES.items():
        found = [f"{name}:{at}: {line.strip()}" for name, text in files for at, line in enumerate(text.split("\n"), 1) if re.search(pattern, line)]
        print(f"{point}: {len(found)}")
        if verbose:
            print("".join(f"    {line}\n" for line in found), end="")
    everything = [(name, *function) for name, text in files for function in functions(text)]
    groups = twins(everything)
    print(f"2 twins: {sum(len(g) for g in groups)} functions in {len(groups)} groups")
    if verbose:
        print("".join(f"    {', '.join(g)}\n" for g in groups), end="")
    facts, together = repeated(everything)
    print(f"5 facts in three contracts or more: {len(facts)}; groups of three parameters or more that three functions take together: {len(together)}")
    if verbose:
        for fact, users in sorted(facts.items(), key=lambda f: -len(f[1])):
            print(f"    {len(users)} {fact}")
        for group, users in sorted(together.items(), key=lambda f: -len(f[1])):
            print(f"    {len(users)} ({', '.join(group)})")


main()
