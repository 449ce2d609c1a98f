#!/usr/bin/env python3
"""Lists the places in crates/*/src at which a newer form may read better: python3 tools/places.py [FOLDER]

Each row is a pattern of the older language. A place is one line; for structs, contracts and parameters it is one struct or
one text. What is found is a place to look at, not a fault."""
import collections
import pathlib
import re
import sys

root = pathlib.Path(sys.argv[1] if len(sys.argv) > 1 else ".")
sources = {p.relative_to(root): p.read_text() for p in sorted(root.glob("crates/*/src/**/*.rt"))}
code = {p: t for p, t in sources.items() if p.name != "tests.rt"}


def row(key, what, found):
    print(f"{key} {what}: {len(found)}")
    for place in found:
        print(f"    {place}")


def grep(texts, pattern):
    return [f"{p}:{n}: {l.strip()}" for p, t in texts.items() for n, l in enumerate(t.split("\n"), 1)
            if re.search(pattern, l) and not l.lstrip().startswith("//")]


row("1a", "own enums", grep(code, r"^\s*(pub(\(crate\))? )?enum "))
row("1b", "numbers for refusals or kinds", grep(code, r"fn (number|code|kind)\(self\) -> (u8|Option)|\b(kind|code): u(8|16|32),|^\s+[A-Z]\w+\(u8\),"))
row("1c", "a bool as a field or a parameter", grep(code, r"\b\w+: bool\b"))
row("1d", "a result or an option taken apart to be made again, an error made by hand",
    grep(sources, r"(Ok|Some)\(\w+\) => ((Ok|Some)\(|\w+ = )|Err\(\w*\) => Err\(|None => (None|Err\()|Err\(AllocError\)"))
row("3a", "loops over numbers, and while", grep(sources, r"\b(while|loop)\b.*\{$|\bfor \w+ in [^&\[]*\.\."))
row("3b", "an index that is a sum or a quotient", grep(code, r"\w\[[^\]:]*[+*/][^\]]*\]"))
row("4a", "impls of equality, order, copying and the like by hand",
    grep(code, r"^\s*impl.* (PartialEq|Eq|PartialOrd|Ord|Clone|Copy|Hash|Default|Debug)\b.* for "))
row("4b", "a function of one value that answers a number, a character or a struct (not `from`, `new`)",
    grep(code, r"fn (?!from\b|new\b|try_from\b)\w+\((self|\w+: (u8|u16|u32|u64|usize))\) -> (Option<)?(u8|u16|u32|u64|usize|char|[A-Z]\w+)\b"))
row("4c", "a function that makes a text", grep(code, r"-> Result<String|fn add_\w+\("))
row("4d", "a chain of comparisons with numbers",
    grep(code, r"(\w+ == \d+ \|\| \S*){2}|\d+ <= \w+ && \w+ <= |\w+ < \d+ \|\| \S+ > "))

# Structs whose fields may be one thing: a buffer and a number that says how much of it, or two buffers.
lengths, buffers = [], []
for p, t in code.items():
    for name, body in re.findall(r"struct (\w+)(?:<[^{>]*>)? \{\n(.*?)\n\}", t, re.S):
        fields = re.findall(r"^    (?:pub(?:\(crate\))? )?(\w+): (.*),$", body, re.M)
        held = [f for f, k in fields if re.match(r"\[|&'a \[|Vec<|String|BlockBytes|u64$", k)]
        told = [f for f, k in fields if re.match(r"(u8|u32|usize)$", k)]
        if held and told:
            lengths.append(f"{p}: {name} {{ {', '.join(f for f, _ in fields)} }}")
        if len([f for f, k in fields if re.match(r"\[|Vec<|String|Table", k)]) > 1:
            buffers.append(f"{p}: {name} {{ {', '.join(f for f, _ in fields)} }}")
row("6a", "a struct with a buffer or word, and a number beside it", lengths)
row("6b", "a struct with two buffers", buffers)
row("7a", "boxed closures, function pointers, tables of functions", grep(code, r"\bdyn\b|\bfn\(|\[fn"))
row("8a", "functions that do nothing at run time: no body, a bare number, or only what a proof uses",
    [f"{p}: {name}" for p, t in code.items() for name, body in
     re.findall(r"^ *(?:pub(?:\(crate\))? )?fn (\w+)(?:(?!^ *(?:pub|fn)).)*?^ *\{\n?(.*?)^ *\}$", t, re.S | re.M)
     if re.fullmatch(r"\s*(\d+|let _ = .*;)?\s*", body) or "prove!" in body]
    + grep(code, r"^\{\}$"))

# Texts that stand in the contracts of three or more functions, and parameters that go together in three or more.
clauses, views, params = (collections.defaultdict(set) for _ in range(3))
pattern = r"fn (\w+)(?:<[^(]*>)?\(([^{]*?)\)[^{;]*?\n?((?:\s*(?:requires|ensures\*?)[^\n]*\n)+|\{)"
for m in re.finditer(pattern, "\n".join(code.values())):
    name, args, contract = m.groups()
    kinds = [f"{n}: {k}" for n, k in re.findall(r"(\w+): ([^,\n]+)", args)]
    for i, first in enumerate(kinds):
        for second in kinds[i + 1:]:
            params[f"{first}, {second}"].add(m.start())
    for c in re.findall(r"(?:requires|ensures\*?)[^{\n]*\{ (.*) \}", contract):
        bare = re.sub(r"\.(now|old|new)\b", "", c)
        clauses[bare].add(m.start())
        fields = re.findall(r"\bself\.(\w+)", bare)
        if len(set(fields)) > 1:
            views[" ".join(dict.fromkeys(fields))].add(m.start())
for key, what, table in (("5a", "a clause that three or more functions repeat", clauses),
                         ("5b", "fields of self that three or more contracts name together", views),
                         ("5c", "parameters that go together in three or more functions", params)):
    row(key, what, [f"{len(fs)} functions: {t}" for t, fs in sorted(table.items()) if len(fs) >= 3])
