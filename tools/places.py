#!/usr/bin/env python3
"""Lists the places in crates/*/src that an older way of writing left, by seven points.

    tools/places.py            the checkout as it stands
    tools/places.py COMMIT     as it stood at a commit
    tools/places.py -c [..]    the counts alone

It goes by text, so what it finds is to be read; docs/DESIGN-PASS.md says what came of each.
"""
import re
import subprocess
import sys
from collections import defaultdict
from pathlib import Path

ROOT = Path(subprocess.run(["git", "rev-parse", "--show-toplevel"], capture_output=True, text=True, check=True).stdout.strip())


def sources(commit):
    """Name and text of each source file, in order."""
    if commit is None:
        paths = [str(p.relative_to(ROOT)) for p in ROOT.glob("crates/*/src/**/*.rt")]
        return [(p, (ROOT / p).read_text()) for p in sorted(paths)]
    listed = subprocess.run(["git", "ls-tree", "-r", "--name-only", commit, "crates"], capture_output=True, text=True, check=True, cwd=ROOT).stdout.split()
    show = lambda p: subprocess.run(["git", "show", f"{commit}:{p}"], capture_output=True, text=True, check=True, cwd=ROOT).stdout
    return [(p, show(p)) for p in sorted(listed) if re.match(r"crates/\w+/src/.*\.rt$", p)]


def at(text, start):
    return text.count("\n", 0, start) + 1


def finds(files, pattern, keep=lambda m: True):
    for name, text in files:
        for m in re.finditer(pattern, text, re.M | re.S):
            if keep(m):
                yield f"{name}:{at(text, m.start())}: {' '.join(m.group(0).split())[:100]}"


FUNCTION = re.compile(r"^ *(?:pub(?:\(crate\))? )?(?:extern \"C\" )?fn (\w+)", re.M)


def functions(text):
    """Each function: its name, its line, its head with the contract, and its body."""
    for m in FUNCTION.finditer(text):
        indent = re.match(r" *", m.group(0)).group(0)
        close = re.search(rf"^{indent}}}$", text[m.start():], re.M)
        whole = text[m.start():m.start() + close.end()] if close else text[m.start():]
        stop = re.search(rf"^{indent}fn |;\n", whole[1:], re.M)
        opened = re.search(rf"(?:\{{\n)(?={indent}    \w)", whole)
        opened_alone = re.search(rf"^{indent}\{{$", whole, re.M)
        cut = opened_alone.start() if opened_alone else (opened.start() if opened else len(whole))
        if stop and stop.start() < cut:
            continue
        yield m.group(1), at(text, m.start()), whole[:cut], whole[cut:]


def shape(code):
    """A text with its names and numbers taken out, for finding what differs in them alone."""
    code = re.sub(r"//.*", "", code)
    names = {}
    out = []
    for token in re.findall(r"[A-Za-z_]\w*|\d\w*|[^\s\w]", code):
        if re.match(r"\d", token):
            out.append("#")
        elif token in {"fn", "if", "else", "match", "for", "in", "while", "let", "mut", "return", "self", "Some", "None", "Ok", "Err", "pub", "as"}:
            out.append(token)
        else:
            out.append(str(names.setdefault(token, len(names))))
    return " ".join(out)


def signature(head):
    head = re.split(r"\n *(?:requires|ensures)\b", head[head.index("fn "):])[0]
    inner = head[head.index("("):head.rindex(")") + 1]
    return re.findall(r"(\w+): ([^,()]+(?:\([^)]*\))?)", inner)


def point1(files):
    yield from finds(files, r"#\[derive\(([^)]*)\)\]\npub(?:\(crate\))? enum \w+", lambda m: "PartialEq" not in m.group(1))
    yield from finds(files, r"(?:Some|Ok|Err)\((\w+)\) => (?:Some|Ok|Err)\(\1\)")
    yield from finds(files, r"Some\(\w+\) => Some\([^\n]*\n *None => None|None => None,\n *Some\(\w+\) => Some")
    yield from finds(files, r"if [^\n]* \{\s*Some\([^\n]*\)\s*\} else \{\s*None\s*\}")
    yield from finds(files, r"if [^\n]* \{\s*Ok\([^\n]*\)\s*\} else \{\s*Err\([^\n]*\)\s*\}")
    yield from finds(files, r"let (?:Some|Ok)\([^\n]*\) = [^;{]* else \{\s*(?:return (?:None|Err\([^;]*\));|unreachable\(\))\s*\}")
    yield from finds(files, r"if \w[\w.]*\([^\n]*\)\.is_(?:none|err)\(\) \{\s*return")
    yield from finds(files, r"(?:None|Err\(_\)) => unreachable\(\)")
    yield from finds(files, r"Result<[\w<>]+, u8>")
    yield from finds(files, r"\.number == \d")
    yield from finds(files, r"^ +(?:pub(?:\(crate\))? )?\w+: bool,$")


def point2(files):
    seen = defaultdict(list)
    for name, text in files:
        for fn, line, head, body in functions(text):
            plain = re.split(r"\n *(?:requires|ensures)\b", head)[0] + body
            if len(plain.split("\n")) >= 3 and len(shape(body).split()) >= 12:
                seen[shape(plain)].append(f"{name}:{line}: fn {fn}")
        for m in re.finditer(r"^(?:#\[[^\n]*\n)*pub(?:\(crate\))? (?:struct|enum) \w+[^{;\n]*\{.*?^\}", text, re.M | re.S):
            seen[shape(m.group(0))].append(f"{name}:{at(text, m.start())}: {re.search(r'(?:struct|enum) .w+'.replace('.w', chr(92) + 'w'), m.group(0)).group(0)}")
    for places in seen.values():
        if len(places) > 1:
            yield " ~ ".join(places)


def point3(files):
    yield from finds(files, r"^ *while (?!let)[^\n]*\{")
    yield from finds(files, r"^ +\w+ [+-]= 1;$")
    for name, text in files:
        for m in re.finditer(r"^( *)for (\w+) in [^\n]*\.\.[^\n]*\{\n(.*?)^\1\}", text, re.M | re.S):
            if re.search(rf"\[[^\]]*\b{m.group(2)}\b[^\]]*\]|\(\w+, {m.group(2)}\)", m.group(3)):
                yield f"{name}:{at(text, m.start())}: {' '.join(m.group(0).split())[:100]}"
    yield from finds(files, r"for \(\w+, \w+\) in [^\n]*\.enumerate\(\) \{\n[^}]*(?:\[[^\]]*\+|\* \w+;)")
    yield from finds(files, r"for \w+ in [^\n]*\{\n *\w+\.push\([^\n]*\)\?;(?:\n[^\n]*wrapping_add[^\n]*)?\n *\}")
    yield from finds(files, r"for \w+ in \w+\.iter_mut\(\) \{\n *\*\w+ = byte;")


def point4(files):
    yield from finds(files, r"^impl(?:<[^\n]*>)? (?:PartialEq|Eq|PartialOrd|Ord|Clone|Copy|Debug) for \w+")
    yield from finds(files, r"^impl fmt::Display for \w+")
    yield from finds(files, r"fn (?:of|number|report|side|link|raw|entry_of|bytes_of|of_raw)\((?:self|raw|number|bytes|link|entry)[^)]*\)")
    yield from finds(files, r"let number = report\.number;\n[^;]*;\n[^;]*;")
    yield from finds(files, r"u(?:16|32|64)::from_[bl]e_bytes\(\[\s*\w+\[")


def facts(text):
    """Each `requires`, taken apart at ×, with the names of parameters made alike."""
    for fn, line, head, _ in functions(text):
        names = {n for n, _ in signature(head)} | {"self"}
        for clause in re.findall(r"requires(?: \w+)? \{ (.*) \}", head):
            for fact in re.split(r" × ", clause):
                fact = fact.strip()
                while fact.startswith("(") and fact.endswith(")") and fact[1:-1].count("(") == fact[1:-1].count(")"):
                    fact = fact[1:-1]
                alike = re.sub(r"\b(\w+)\.(?:now|old)\b", r"\1", fact)
                alike = re.sub(r"\b\w+\b", lambda m: "_" if m.group(0) in names else m.group(0), alike)
                yield alike, f"fn {fn}:{line}"


def point5(files):
    crates = defaultdict(lambda: defaultdict(list))
    together = defaultdict(lambda: defaultdict(list))
    for name, text in files:
        crate = name.split("/")[1]
        for fact, where in facts(text):
            crates[crate][fact].append(f"{name}: {where}")
        for fn, line, head, _ in functions(text):
            params = [(n, t.strip()) for n, t in signature(head) if n != "rt"]
            for i, a in enumerate(params):
                for b in params[i + 1:]:
                    together[crate][(a, b)].append(f"{fn}:{line}")
    for crate, facts_ in crates.items():
        for fact, where in facts_.items():
            if len(where) >= 3:
                yield f"{crate}: the fact {fact} in {len(where)} functions"
    for crate, pairs in together.items():
        for (a, b), where in pairs.items():
            if len(where) >= 3:
                yield f"{crate}: {a[0]}: {a[1]} with {b[0]}: {b[1]} in {', '.join(where)}"


def point6(files):
    yield from finds(files, r"^(?:pub(?:\(crate\))? )?struct \w+[^{;\n]*\{[^}]*(?:\[[^\n]*),\n[^}]*\b(?:count|held|top|len|length): (?:usize|u32|u8),[^}]*\}")
    yield from finds(files, r"\w+: &mut \[\w+\], at: usize")
    yield from finds(files, r"\w+ = \w+ \+ \(\w+ - \w+\) / 2;")
    yield from finds(files, r"let mut \w+ = \[[^\]\n]*(?:\n[^;]*)?; [^\]]+\];")


def point7(files):
    for name, text in files:
        for fn, line, head, _ in functions(text):
            for n, t in signature(head):
                if t.strip() == "bool":
                    yield f"{name}:{line}: fn {fn}({n}: bool)"


POINTS = [
    ("1", "enums, Options and Results by hand, flags, number codes", point1),
    ("2", "twins", point2),
    ("3", "loops that count an index", point3),
    ("4", "equality, conversion and printing by hand", point4),
    ("5", "facts and parameters that travel together", point5),
    ("6", "buffers with a length beside them, searches by hand", point6),
    ("7", "switches on which step to run", point7),
]


def main():
    args = sys.argv[1:]
    short = "-c" in args
    args = [a for a in args if a != "-c"]
    files = sources(args[0] if args else None)
    for number, title, find in POINTS:
        found = sorted(set(find(files)))
        print(f"{number}. {title}: {len(found)}")
        if not short:
            for line in found:
                print(f"   {line}")


main()
