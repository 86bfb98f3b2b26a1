#!/usr/bin/env python3
"""Respells the repository's own names in specs/ and proofs/ as today's Rattle spells names.

usage: respell.py            prints what it would do, and which names fall together
       respell.py --write    does it; run once, right after the toolchain's porting script

Words go to snake case and types to camel case: `side-number` becomes `side_number`, `Root-law` becomes `RootLaw`,
and `getD`, which the library now calls `get_or`, has that name in ours too.

First the names that specs/ and proofs/ declare (definitions, lemmas, fields of records, constructors), as whole words
wherever antt stands: in .antt files, in the clauses of .rt files, in must-fail edits. Names of the library, and names
that the check makes, keep their dashes. A name after a value's dot is the check's, unless a record here declares it.

Then, in the proof files of functions, the parts that the check takes from the source: it writes an identifier of the
source as it stands, so `c.left-part-k` is `c.left_part-k` where `left_part` is one, and `-2` stands for a middle dot and 2.
"""
import collections
import glob
import os
import re
import sys

# a character of an antt word, and what stands beside one
IN = r"[^\s(){}.;,@\"«»\[\]]"
WORD = IN + "+"
BEFORE, AFTER = "(?<!%s)" % IN, "(?!%s)" % IN
DECLARED = re.compile(
    r"^ *(?:(?:pub|abbrev|unfoldable|axiom|record|data|ruleset)\s+)*([^\s(){}\[\];,.:=\"]+)"
    r"(?:\s*(?:\{[^{}]*\}|\([^()]*\)))*\s+:\s+(.*)$"
)
NO_NAMES = {"let", "in", "where", "use", "mod", "module", "unfolding", "open", "elim", "|", "→", "--", "as"}
ANTT = ("crates/*/specs/**/*.antt", "crates/*/proofs/**/*.antt")
SOURCE = ("crates/*/src/**/*.rt",)
EDITS = ("crates/*/must-fail/*.edit",)
# words that the check itself joins to others
MADE = """overflow_add overflow_sub overflow_mul overflow_shl overflow_shr overflow_cast overflow_step nonzero_div nonzero_rem
offset_bounds slice_bounds invariant_of shape_of no_deeper type_inv well_formed view_is in_default in_ok in_err in_some in_none
call_mut len_below len_at_least from_residual is_some is_none is_ok is_err In_ok In_err In_default""".split()


def files(*patterns):
    for pattern in patterns:
        for path in sorted(glob.glob(pattern, recursive=True)):
            if "/out/" not in path:
                yield path


def text(path):
    with open(path, encoding="utf-8") as f:
        return f.read()


def respelled(name):
    parts = name.replace("getD", "get_or").split("-")
    if name[0].isupper():
        return "".join(part[:1].upper() + part[1:] for part in parts)
    return "_".join(parts)


def is_comment(path, line):
    mark = "//" if path.endswith(".rt") else "--"
    return not path.endswith(".edit") and line.lstrip().startswith(mark)


def own_names():
    """What specs/ and proofs/ declare and must be respelled, and which fields records declare."""
    declared, made, fields = collections.defaultdict(set), set(), set()
    for path in files(*ANTT):
        in_record = False
        for line in text(path).splitlines():
            m = DECLARED.match(line)
            if re.match(r"(pub )?record ", line):
                in_record = True
            elif line.strip() and not line.startswith(" "):
                in_record = False
            elif in_record and m:
                fields.add(m[1])
            if not m or m[1] in NO_NAMES or m[1].startswith("--"):
                continue
            if m[2].startswith("goal."):
                made.add(m[1])
            else:
                declared[m[1]].add(path)
    own = {n: respelled(n) for n in declared if "-" in n and "·" not in n and n not in made}
    return own, declared, fields


def fall_together(own, declared):
    """Names that become one with another name, or with a word of a file in which they stand."""
    by_new = collections.defaultdict(list)
    for old, new in own.items():
        by_new[new].append(old)
    words = {path: set(re.findall(WORD, text(path))) for path in files(*ANTT, *SOURCE)}
    for old, new in sorted(own.items()):
        if len(by_new[new]) > 1:
            yield f"{new}: of {by_new[new]}"
        if new in declared:
            yield f"{new}: of {old}, and declared in {sorted(declared[new])}"
        for path in (p for p, w in words.items() if old in w and new in w):
            yield f"{new}: of {old}, and a word of {path}"


def after_value(line, at):
    """Whether the word at `at` stands after a value's dot, and not after a module's."""
    if at == 0 or line[at - 1] != ".":
        return False
    start = at - 1
    while start > 0 and (line[start - 1] == "." or re.match(IN, line[start - 1])):
        start -= 1
    return not line[start:at].split(".")[0][:1].isupper()


def respell_names(own, fields):
    """Each changed file with its new text."""
    any_name = "|".join(re.escape(n) for n in sorted(own, key=len, reverse=True))
    rule = re.compile(BEFORE + "(" + any_name + ")" + AFTER)
    for path in files(*ANTT, *SOURCE, *EDITS):
        old = text(path)
        new = "".join(
            line
            if is_comment(path, line)
            else rule.sub(lambda m: m[0] if after_value(line, m.start()) and m[1] not in fields else own[m[1]], line)
            for line in old.splitlines(True)
        )
        if new != old:
            yield path, new


def identifiers(crate):
    """The identifiers with an underscore that the check can take from the source."""
    found = set(MADE)
    for path in files(crate + "/src/**/*.rt"):
        found |= set(re.findall(r"\b[A-Za-z0-9]*_\w*\b", text(path)))
    for path in files(*SOURCE):
        found |= set(re.findall(r"\b(?:fn|pub|const|ghost|struct|enum) +([A-Za-z0-9]*_\w*)\b", text(path)))
    return {i for i in found if "_" in i.strip("_") and not i.startswith("_")}


def respell_labels(crate):
    """Each changed proof file of a function, with its new text."""
    dashed = "|".join(re.escape(i.replace("_", "-")) for i in sorted(identifiers(crate), key=len, reverse=True))
    rule = re.compile(r"(?<![^-+·\s.])(" + dashed + r")(?![^-+·])")

    def label(word):
        return re.sub(r"^-(?=[a-z])", "_", rule.sub(lambda m: m[1].replace("-", "_"), word).replace("·", "-"))

    def projections(m):
        first, *rest = m[0].split(".")
        return m[0] if first[:1].isupper() else ".".join([first, *map(label, rest)])

    def one(line):
        m = re.match(r"(use \S+\.(?:Goals|Given|Kinds)\.\{)(.*)(\}.*)", line, re.S)
        if m:
            return m[1] + ", ".join(label(w.strip()) for w in m[2].split(",")) + m[3]
        if line.startswith("use ") or line.lstrip().startswith("--"):
            return line
        line = re.sub(r"(?<=\))\.(%s)" % WORD, lambda m: "." + label(m[1]), line)
        return re.sub(r"%s(?:\.%s)+" % (WORD, WORD), projections, line)

    for path in files(crate + "/proofs/*/**/*.antt"):
        old = text(path)
        new = old
        for name in set(re.findall(r"(?m)^(?:(?:pub|abbrev|unfoldable) )*(%s) : goal\." % WORD, old)):
            new = re.sub(r"(?<![^\s(){}.;,])" + re.escape(name) + r"(?![^\s(){}.;,])", label(name), new)
        new = "".join(map(one, new.splitlines(True)))
        if new != old:
            yield path, new


def main(write):
    own, declared, fields = own_names()
    for line in fall_together(own, declared):
        print("falls together:", line)
    changed = set()

    def put(parts):
        for path, new in parts:
            changed.add(path)
            if write:
                with open(path, "w", encoding="utf-8") as f:
                    f.write(new)

    if own:
        put(list(respell_names(own, fields)))
    for crate in sorted(glob.glob("crates/*")):
        put(list(respell_labels(crate)))
    print(len(own), "names;", len(changed), "files", "changed" if write else "to change")


if __name__ == "__main__":
    os.chdir(os.path.join(os.path.dirname(os.path.realpath(__file__)), ".."))
    main("--write" in sys.argv)
