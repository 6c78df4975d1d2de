#!/usr/bin/env python3
"""Writes the generated parts of docs/DESIGN-PASS.md anew: what changed between the commit in its first line and the files as they are.

usage: python3 tools/design_changes.py           at the top of the repository: writes the parts between `<!-- NAME` and `<!-- end -->`
       python3 tools/design_changes.py --check   names what the sentences written by hand do not speak of, and writes nothing

counts   the places at the start and today, by tools/design_places.py
places   the places of the start by crate; with a star those that stand
table    for each point: found, new since, changed, kept with a reason, still to do. A place is kept with a reason where an item of the section
         `Kept, with the reason` begins with its point and kind and has its `crate::name` in it (a * stands for any name)
changes  by crate: public functions, types, constants, definitions of specs/, public theorems of proofs/; of theorems that are gone the statement
         where README.md or a page of docs/ named them at the start, else the name

The contracts are read by the kit's script contracts.py (KIT).
"""
import collections
import fnmatch
import io
import os
import re
import subprocess
import sys
import tarfile
import tempfile

import design_places

KIT = "/opt/rattle/port"
PAGE = "docs/DESIGN-PASS.md"
ORDER = [what + end for what in ("functions", "types and constants", "definitions", "theorems") for end in ("", " new", " gone")] + ["lemmas gone"]
sys.path.insert(0, KIT)


def extract(commit, folder):
    archive = subprocess.run(["git", "archive", commit], stdout=subprocess.PIPE, check=True).stdout
    with tarfile.open(fileobj=io.BytesIO(archive)) as tar:
        tar.extractall(folder)


def key(place):
    """A place without its file and line, so that it is found again where its function moved."""
    point, what, path, _, name, text = place
    told = re.sub(r" in \d+ functions$", "", text) if what in ("group", "fact", "arithmetic", "kind", "library") else ""
    return point, what, path.split("/")[1], name, told


def counted(found):
    return collections.Counter((p[0], p[1]) for p in found)


def kinds():
    return [(point, kind) for point, names in design_places.POINTS.items() for kind in names]


def lines(root, part, ending):
    return sum(text.count("\n") for path, text in design_places.tree(root) if path.split("/")[2] == part and path.endswith(ending))


def counts(start, old, new):
    a, b = counted(old), counted(new)
    yield "| point | kind | at the start | today |\n| --- | --- | --- | --- |"
    for point, kind in kinds():
        yield f"| {point} | {kind} | {a[point, kind]} | {b[point, kind]} |"
    for part, ending in (("src", ".rt"), ("specs", ".antt"), ("proofs", ".antt")):
        yield f"| | lines of crates/*/{part} | {lines(start, part, ending)} | {lines('.', part, ending)} |"


def listed(old, new):
    today = {key(p) for p in new}
    by = collections.defaultdict(lambda: collections.defaultdict(list))
    for p in old:
        if p[1] != "answer in proofs":
            star = "*" if key(p) in today else ""
            told = f" ({p[5]})" if p[1] in ("group", "fact", "library", "arithmetic") else ""
            by[key(p)[2]][p[0], p[1]].append(f"{star}`{p[4]}`{told}")
    for crate in sorted(by):
        yield f"\n`{crate}`"
        for (point, what), names in sorted(by[crate].items()):
            yield f"- {point} {what}: {'; '.join(names)}"


def kept_items(page):
    section = re.search(r"^## Kept, with the reason\n(.*?)(?=^## |\Z)", page, re.M | re.S)
    for item in re.findall(r"^- (\d) ([^:`]*): (.*(?:\n  .*)*)", section.group(1) if section else "", re.M):
        yield item[0], [k.strip() for k in item[1].split(",")], re.findall(r"`(\w+::[\w*]+|\*)`", item[2])


def is_kept(place, items):
    point, what, crate, name, _ = key(place)
    return any(point == p and what in ks and any(fnmatch.fnmatch(f"{crate}::{name}", n) for n in names) for p, ks, names in items)


def table(old, new, page):
    items, before = list(kept_items(page)), {key(p) for p in old}
    yield "| point | found at the start | new since | changed | kept with a reason | still to do |\n| --- | --- | --- | --- | --- | --- |"
    for point in design_places.POINTS:
        a, b = [p for p in old if p[0] == point], [p for p in new if p[0] == point]
        if point == "8":
            a, b = [p for p in a if p[1] == "answer in proofs"], [p for p in b if p[1] == "answer in proofs"]
            yield f"| 8 (answers) | {len(a)} | | {len(a) - len(b)} | {len(b)} | |"
            continue
        fresh = [p for p in b if key(p) not in before]
        kept = [p for p in b if is_kept(p, items)]
        yield f"| {point} | {len(a)} | {len(fresh)} | {len(a) - (len(b) - len(fresh))} | {len(kept)} | {len(b) - len(kept)} |"


def types(root):
    out = {}
    for path, text in design_places.tree(root):
        if re.match(r"crates/\w+/src/", path) and path.endswith(".rt"):
            code = design_places.code_of(text)
            for m in re.finditer(r"^pub (struct|enum|type|const) (\w+)", code, re.M):
                ends = [code.find(c, m.end()) for c in ("{", ";") if code.find(c, m.end()) >= 0]
                if m.group(1) in ("type", "const"):
                    end = re.compile(r";\s*$", re.M).search(code, m.end()).end()
                else:
                    end = design_places.closing(code, min(ends)) if code[min(ends)] == "{" else min(ends)
                derive = re.search(r"#\[derive\(([^)]*)\)\]\s*$", code[: m.start()])
                out[path.split("/")[1], m.group(2)] = " ".join(((f"#[derive({derive.group(1)})] " if derive else "") + code[m.start() : end]).split())
    return out


def lemmas(root, contracts):
    out = {}
    for path, text in design_places.tree(root):
        if "/proofs/" in path and path.endswith(".antt") and not re.search(r"/(Answers|Invariants|Goals)\.antt$", path):
            for name, texts in contracts.definitions(text).items():
                head = texts[0].index(name) + len(name)
                statement = texts[0][:head] + re.split(rf"\s{re.escape(name)}(?:\s[^=]*)? = ", texts[0][head:])[0]
                out.setdefault((path.split("/")[1], name), (os.path.splitext(os.path.basename(path))[0], statement))
    return out


def public(root, contracts):
    _, found, _, specs, _, _ = contracts.read(root)
    out = collections.defaultdict(list)
    for (crate, path, place, name), fs in found.items():
        with open(os.path.join(root, "crates", crate, path), encoding="utf-8") as f:
            inner = re.search(rf"pub\(crate\) (?:extern \"C\" )?fn {name}\b", f.read())
        for f in fs:
            if f["pub"] and not inner:
                module = os.path.splitext(path)[0].removeprefix("src/").replace("/", "::")
                type_of = re.sub(r"^\s*(?:<[^>]*>)?\s*|<.*$", "", place)
                sign = re.sub(r",? \)( ->|$)", r")\1", re.sub(r"\( (?=\w|&)", "(", f["sign"]))
                lines = [f"fn {name}{sign}"] + [f"    {k} {n + ' ' if n else ''}{{ {t} }}" for k, n, t in f["requires"] + f["ensures"]]
                out[crate, name].append(("::".join(p for p in (crate, "" if module in ("lib", "main") else module, type_of, name) if p), lines))
    return out, specs


def beside(title, old, new):
    """What the two texts do not have in common, old before new."""
    gone, come = [x for x in old if x not in new], [x for x in new if x not in old]
    if gone or come:
        yield title
        yield from ("- " + x for x in gone)
        yield from ("+ " + x for x in come)


def items(old, new, contracts):
    """Each changed thing: its crate, what it is, its name, its lines."""
    (of, os_), (nf, ns) = public(old, contracts), public(new, contracts)
    for k in sorted(set(of) | set(nf)):
        a, b = list(of.get(k, [])), list(nf.get(k, []))
        for x in list(a):
            same = next((y for y in b if y == x), None) or next((y for y in b if y[0] == x[0]), None)
            if same:
                yield k[0], "functions", x[0], list(beside(x[0], x[1], same[1]))
                a.remove(x), b.remove(same)
        for x, y in zip(list(a), list(b)):
            yield k[0], "functions", x[0], list(beside(f"{x[0]} -> {y[0]}", x[1], y[1])) or [f"{x[0]} -> {y[0]}: the same contract"]
        for x in a[len(b) :]:
            yield k[0], "functions gone", x[0], list(beside(x[0], x[1], []))
        for y in b[len(a) :]:
            yield k[0], "functions new", y[0], list(beside(y[0], [], y[1]))
    for what, a, b in (("types and constants", types(old), types(new)), ("definitions", os_, ns)):
        for k in sorted(set(a) | set(b)):
            x, y = a.get(k, []), b.get(k, [])
            x, y = ([x] if isinstance(x, str) else x), ([y] if isinstance(y, str) else y)
            yield k[0], what if x and y else what + (" gone" if x else " new"), k[1], list(beside("::".join(k), x, y))
    a, b = lemmas(old, contracts), lemmas(new, contracts)
    pages = "".join(open(os.path.join(old, p), encoding="utf-8").read() for p in ["README.md"] + [os.path.join("docs", f) for f in os.listdir(os.path.join(old, "docs")) if f.endswith(".md")])
    named = set(re.findall(r"`([\w'.]+)`", pages))
    for k in sorted(a):
        shown = re.match(r"(\w+ )*pub ", a[k][1])
        if k not in b and shown and k[1] in named:
            yield k[0], "theorems gone", k[1], list(beside("::".join(k), [a[k][1]], []))
        elif k not in b:
            yield k[0], "lemmas gone", k[1], [k[1]]
        elif shown:
            yield k[0], "theorems", k[1], list(beside("::".join(k), [a[k][1]], [b[k][1]]))


def changes(found, compared):
    for label in ("ensures all gone", "fewer ensures", "more requires", "no longer pub"):
        yield f"- {label}: {', '.join(f'`{name}`' for name in compared[label]) or 'none'}"
    by = collections.defaultdict(lambda: collections.defaultdict(list))
    for crate, what, _, lines in found:
        if lines:
            by[crate][what].append(lines)
    for crate in sorted(by):
        yield f"\n### {crate}"
        for what, all_lines in sorted(by[crate].items(), key=lambda x: ORDER.index(x[0])):
            if what == "lemmas gone":
                yield f"\nLemmas gone: {', '.join(f'`{lines[0]}`' for lines in all_lines)}"
                continue
            yield f"\n{what.capitalize()}:\n\n```diff"
            for lines in all_lines:
                yield "\n".join(lines)
            yield "```"


def main(argv):
    with open(PAGE, encoding="utf-8") as f:
        page = f.read()
    start = page.split("\n", 1)[0].strip()
    import contracts

    old, new = sorted(design_places.places(start)), sorted(design_places.places("."))
    with tempfile.TemporaryDirectory() as folder:
        extract(start, folder)
        found, compared = list(items(folder, ".", contracts)), contracts.compare(folder, ".")
    if argv[:1] == ["--check"]:
        kept = list(kept_items(page))
        for p in new:
            if p[1] != "answer in proofs" and p[0] != "8" and not is_kept(p, kept):
                print(f"no reason: {p[0]} {p[1]} {key(p)[2]}::{p[4]} {p[5]}")
        by_hand = re.sub(r"<!-- \w+.*?<!-- end -->", "", page, flags=re.S)
        for crate, what, name, _ in found:
            if what.endswith("gone") and what != "lemmas gone" and not re.search(rf"`[^`]*\b{re.escape(name.split('::')[-1])}\b[^`]*`", by_hand):
                print(f"no word of what is gone: {what} {crate} {name}")
        return 0
    for name, part in (("counts", counts(start, old, new)), ("places", listed(old, new)), ("table", table(old, new, page)), ("changes", changes(found, compared))):
        text = "\n".join(part)
        page = re.sub(rf"(<!-- {name}\b[^\n]*-->\n).*?(?=<!-- end -->)", lambda m: m.group(1) + text + "\n", page, flags=re.S)
    with open(PAGE, "w", encoding="utf-8") as f:
        f.write(page)
    return 0


if __name__ == "__main__":
    raise SystemExit(main(sys.argv[1:]))
