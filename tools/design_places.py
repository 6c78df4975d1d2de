#!/usr/bin/env python3
"""Lists the places of docs/DESIGN-PASS.md that are written as an older Rattle asked, and counts them.

usage: python3 tools/design_places.py [DIR | COMMIT]            each place, then the counts; the top of the repository if nothing is given
       python3 tools/design_places.py --counts [DIR | COMMIT]   the counts alone

What is a place, in crates/*/src/*.rt (comments do not count but where they are named):
1 answer      an enum of two variants, one without values or called Refused; one of whose variants half, not all, are named as refusals; one called Answer
  flag        a struct with a field that is a flag (a bool) or a number for a kind or a refusal (called kind or number) beside values,
              or of which a comment says that 0 in a field means none
  none        a function whose comment says what number it answers where there is none, or where a thing does not fit
  number      a function that answers a number for a kind or a fault: its name has the word kind, fault or run_of, or its clause uses one of these definitions
2 twin        each of two or more functions whose bodies (12 tokens at least) are equal when names, types and numbers are replaced, in their order
  library     a body or a line that is one method of the library: min, max, saturating_sub, get, fill, copy, `as`, from, div_ceil, MAX
3 while       a while loop that adds 1 to an index in its condition; other loop: every other while and loop, but while let
4 bytes       arithmetic by 256 that takes a number apart or puts it together
  print       a function print_* or *_line of at most one number or text, whose body is one print
  convert     a function whose body is one match, or one value, that only takes over fields
  compare     a function that answers bool by a chain of if and return
5 many        a function with six parameters or more
  group       four or more parameters that stand together, by name, in three functions or more
  fact        a fact (a requires, or a part of it between the crosses) that stands in the contracts of three functions or more
6 words       a type that is an array of numbers and whose places are told by constants; arithmetic: an index computed as a * b + c
  parallel    a function with three or more parameters that are arrays or slices of one type
  links       a function with an array of chains: heads and links
7 kind        a test or a match of a number that is a kind, a fault or a mode
8 (proofs/)   answer: an answer in proofs/F/Answers.antt; repeated: one whose text stands in three or more files
"""
import collections
import io
import os
import re
import subprocess
import sys
import tarfile

WORD = re.compile(r"[A-Za-z_]\w*|\d[\w]*|[^\s\w]")
KEEP = set("if else while for in let mut return match loop break continue true false as fn usize u8 u32 u64 i32 bool None Some Ok Err self".split())
POINTS = {"1": ("answer", "flag", "none", "number"), "2": ("twin", "library"), "3": ("while", "other loop"), "4": ("bytes", "print", "convert", "compare"),
          "5": ("many", "group", "fact"), "6": ("words", "arithmetic", "parallel", "links"), "7": ("kind",), "8": ("answer in proofs", "repeated in proofs")}
Function = collections.namedtuple("Function", "path line name comment params result clauses body at")


def tree(where):
    """The files of crates/ in a folder or in a commit, by their path."""
    if os.path.isdir(where):
        for folder, dirs, names in os.walk(os.path.join(where, "crates")):
            dirs[:] = sorted(d for d in dirs if d not in ("out", "target"))
            for name in sorted(names):
                path = os.path.join(folder, name)
                if name.endswith((".rt", ".antt")):
                    with open(path, encoding="utf-8") as f:
                        yield os.path.relpath(path, where), f.read()
        return
    archive = subprocess.run(["git", "archive", where, "crates"], stdout=subprocess.PIPE, check=True).stdout
    with tarfile.open(fileobj=io.BytesIO(archive)) as tar:
        for member in tar.getmembers():
            if member.isfile() and member.name.endswith((".rt", ".antt")):
                yield member.name, tar.extractfile(member).read().decode()


def code_of(text):
    """The text with comments and strings blanked, line by line."""
    return re.sub(r'//[^\n]*|b?"(?:\\.|[^"\\])*"', lambda m: " " * len(m.group(0)), text)


def closing(text, at):
    depth = 0
    for i in range(at, len(text)):
        depth += (text[i] in "{([") - (text[i] in "})]")
        if depth == 0:
            return i + 1
    return len(text)


def split(text):
    parts, depth, last = [], 0, 0
    for i, c in enumerate(text):
        depth += (c in "([{<") - (c in ")]}" or (c == ">" and text[i - 1] != "-"))
        if c == "," and depth == 0:
            parts, last = parts + [text[last:i]], i + 1
    return [p.strip() for p in parts + [text[last:]] if p.strip()]


def comment_before(text, at):
    lines, out = text[:at].split("\n")[:-1], []
    while lines and re.match(r"\s*(//|#\[)", lines[-1]):
        out.append(lines.pop().strip())
    return " ".join(l[2:].strip() for l in reversed(out) if l.startswith("//"))


def functions(path, text):
    code = code_of(text)
    for m in re.finditer(r"^[ \t]*((?:pub(?:\(crate\))? )?(?:extern\s+fn|fn)|pub extern \s*\S* fn|pub extern +fn) (\w+)", code, re.M):
        open_at = code.index("(", m.end())
        end = closing(code, open_at)
        params = split(text[open_at + 1 : end - 1])
        clauses, i = [], end
        while True:
            clause = re.compile(r"\s*(?:->[^{]*?(?=\s+(?:requires|ensures)|\s*\{))?\s*(requires|ensures)\*?\s*(\w*)\s*\{").match(code, i)
            if not clause:
                break
            i = closing(code, clause.end() - 1)
            clauses.append((clause.group(1), " ".join(text[clause.end() : i - 1].split())))
        body_at = code.find("{", i)
        result = re.match(r"\s*->\s*([^{]*?)\s*(?:requires|ensures|\{)", code[end:])
        yield Function(path, code.count("\n", 0, m.start(2)) + 1, m.group(2), comment_before(text, m.start()), params, result.group(1) if result else "", clauses,
                       code[body_at : closing(code, body_at)] if body_at >= 0 else "", code.count("\n", 0, max(body_at, 0)) + 1)


def normal(body):
    """The body's tokens, names and numbers replaced in the order in which they come."""
    names, out = {}, []
    for token in WORD.findall(body):
        known = token in KEEP and not re.match(r"[ui]\d|usize", token)
        out.append(token if known or not re.match(r"\w", token) else names.setdefault(token, f"x{len(names)}"))
    return out


NUMBERED = re.compile(r"(^|_)(kind|fault)(_|$)")
NONE = re.compile(r"\bor (`?\w+`?)( itself)?,? (?:where|if) (?:there is )?none|0 (?:where there is|for|if) none|\bor k(?:$|[.,])|(?:answer|place)[^.]*\bas (?:given|it was)\b[^.]*fit|fit[^.]*\banswers? `?at`?|, or `last` where none|; none without", re.I)
E = r"[\w.\[\]]+(?:\([^()]*\))?"
LIBRARY = [(re.compile(p), n) for p, n in (
    (rf"if ({E}) <=? ({E}) \{{\s*\1\s*\}} else \{{\s*\2\s*\}}", "min"), (rf"if ({E}) <=? ({E}) \{{\s*\2\s*\}} else \{{\s*\1\s*\}}", "max"),
    (rf"if ({E}) <=? ({E}) \{{\s*return \1;\s*\}}\s*\2\s*\}}", "min"), (rf"if ({E}) <=? ({E}) \{{\s*return \2;\s*\}}\s*\1\s*\}}", "max"),
    (rf"if ({E}) <=? ({E}) \{{\s*(?:\2 - \1\s*\}} else \{{\s*0|0\s*\}} else \{{\s*\1 - \2)\s*\}}", "saturating_sub"),
    (rf"if ({E}) <=? ({E}) \{{\s*return 0;\s*\}}\s*\1 - \2", "saturating_sub"),
    (rf"^\{{\s*(?:{E} as \w+|\w+::from\({E}\))\s*\}}$", "as or from"), (rf"^\{{\s*{E}\[{E}( as usize)?\](?: as \w+)?\s*\}}$", "an element"),
    (rf"\({E} - 1\) / {E} \+ 1", "div_ceil"), (r"4_?294_?967_?295", "MAX"), (r"18_?446_?744_?073_?709_?551_?615", "MAX"),
    (rf"if {E} < {E}\.len\(\) \{{\s*{E}\[[^\]]*\](?: as \w+)?\s*\}} else \{{\s*0\s*\}}", "get"),
    (rf"while (\w+) < {E} \{{\s*\w+\[\1\] = 0;\s*\1 \+= 1;", "fill"), (rf"while (\w+) < {E} \{{\s*\w+\[[^\]]*\1[^\]]*\] = \w+\[\1\];\s*\1 \+= 1;", "copy"),
    (rf"^\{{\s*if {E} < 0 \{{ {E}\.unsigned_abs\(\)", "unsigned_abs"), (rf"^\{{\s*for \w+ in [^{{]*\{{\s*\*\w+ = 0;\s*\}}\s*\}}$", "fill"))]


def loops(f):
    for m in re.finditer(r"\b(while|loop)\b(?! let\b)([^{]*)\{", f.body):
        counted = [x for x in re.findall(r"\b(\w+) \+= 1;", f.body[m.end() : closing(f.body, m.end() - 1)]) if re.search(rf"\b{x}\b", m.group(2))]
        yield ("while" if counted else "other loop"), f.at + f.body.count("\n", 0, m.start()), " ".join((m.group(1) + m.group(2)).split())


def facts(f):
    for kind, clause in f.clauses:
        if kind == "requires":
            for part in re.split(r" × ", clause):
                fact = re.sub(r"^\((.*)\)$", r"\1", re.sub(r"\.(now|old|entry)\b", "", part).strip())
                if not re.match(r"[\w ]+ : [^→]*$", fact):
                    yield fact


def places(where):
    files = dict(tree(where))
    sources = {p: t for p, t in files.items() if re.match(r"crates/\w+/src/.*\.rt$", p)}
    every = [f for p, t in sources.items() for f in functions(p, t)]
    variants = {}
    for path, text in sources.items():
        for m in re.finditer(r"\b(enum|struct) (\w+)[^{;]*\{", code_of(text)):
            at, parts = (path, text.count("\n", 0, m.start()) + 1, m.group(2)), split(code_of(text)[m.end() : closing(code_of(text), m.end() - 1) - 1])
            if m.group(1) == "enum":
                variants[at] = parts
            if m.group(1) == "struct" and "0 says that there is none" in comment_before(text, m.start()):
                yield "1", "flag", *at, "0 for none"
            for field in [p for p in parts if m.group(1) == "struct" and re.search(r"\b(?:(?:kind|number): (?:[ui]\d+|\[u)|\w+: bool)", p)]:
                yield "1", "flag", *at, field.split(":")[0].split()[-1]
    name = lambda v: re.match(r"(?:#\[[^\]]*\]\s*)*(\w+)", v).group(1)  # noqa: E731
    refusals = {name(v) for (p, _, n), vs in variants.items() if n == "Refusal" for v in vs}
    for (path, line, enum), vs in variants.items():
        bare, known = [v for v in vs if name(v) == v], [name(v) in refusals | {"Refused"} for v in vs]
        if (len(vs) == 2 and (len(bare) == 1 or name(vs[1]) == "Refused")) or enum == "Answer" or len(vs) <= 2 * sum(known) < 2 * len(vs):
            yield "1", "answer", path, line, enum, " | ".join(name(v) for v in vs)
    bodies, groups, common, spots = collections.defaultdict(list), collections.defaultdict(set), collections.defaultdict(set), collections.Counter()
    for f in every:
        flat = " ".join(f.body.split())
        if NONE.search(f.comment) and not f.result.startswith(("Option", "bool", "Result")):
            yield "1", "none", f.path, f.line, f.name, NONE.search(f.comment).group(0)
        if f.result in ("u8", "u32", "usize") and (NUMBERED.search(f.name) or any(NUMBERED.search(w) for k, c in f.clauses if k == "ensures" for w in re.findall(r"result ≡ (\w+)", c))):
            yield "1", "number", f.path, f.line, f.name, f.result
        tokens = normal(f.body)
        if len(tokens) >= 12:
            bodies[" ".join(tokens)].append(f)
        for method in [n for pattern, n in LIBRARY if pattern.search(flat)][:1]:
            yield "2", "library", f.path, f.line, f.name, method
        for what, line, text in loops(f):
            yield "3", what, f.path, line, f.name, text
        if re.search(r"\b256 ?\*|\* ?256\b|[/%] ?256\b|BYTE\b", f.body):
            yield "4", "bytes", f.path, f.line, f.name, "256"
        if re.search(r"print|end_line", f.name) and len(f.params) <= 2 and re.match(r"^\{ *(print\w*!?\([^{}]*(\{\w*\}[^{}]*)*\)) *\}$", flat):
            yield "4", "print", f.path, f.line, f.name, flat
        if re.match(r"^\{ match [^{]*\{( [\w:]+( \{[^{}]*\}|\([^()]*\))? => [\w:]+( \{[^{}]*\}|\((?:[^()]|\([^()]*\))*\))?,?)+ \} \}$", flat):
            yield "4", "convert", f.path, f.line, f.name, "one match"
        if f.result == "bool" and len(re.findall(r"return (?:true|false);", flat)) >= 2:
            yield "4", "compare", f.path, f.line, f.name, "if and return"
        params = [p for p in f.params if not re.match(r"(&(mut )?)?(mut )?self$", p) and not p.startswith("rt:")]
        names = frozenset(re.sub(r"^mut ", "", p).split(":")[0] for p in params)
        if len(params) >= 6:
            yield "5", "many", f.path, f.line, f.name, str(len(params))
        groups[names].add((f.path, f.line, f.name))
        for fact in set(facts(f)):
            common[fact].add((f.path, f.line, f.name))
        arrays = collections.Counter(re.sub(r"^&(mut )?", "", p.split(":", 1)[1].strip()) for p in params if re.search(r":\s*&(mut )?(\[|\w+(Numbers|Words)$)", p))
        for kind, count in arrays.items():
            if count >= 3:
                yield "6", "parallel", f.path, f.line, f.name, f"{count} of {kind}"
        if {"heads", "links"} <= names:
            yield "6", "links", f.path, f.line, f.name, "heads, links"
        for m in re.findall(r"\[[^\[\]]*\w \* \w[^\[\]]*\+[^\[\]]*\]|\[[^\[\]]*\+ \w+ \* \w[^\[\]]*\]", f.body):
            yield "6", "arithmetic", f.path, f.line, f.name, m
        for m in re.findall(r"(?:if|while|match) [^{;]*?\b(?:(?:kind|fault|shape|mode)\w*(?:\([^()]*\)|\[\w+\])? ?(?:[!=]= \w+|\{ \d))", flat):
            yield "7", "kind", f.path, f.line, f.name, m
    for same in bodies.values():
        if len(same) > 1:
            for f in same:
                yield "2", "twin", f.path, f.line, f.name, "as " + ", ".join(g.path.split("/")[1] + "::" + g.name for g in same if g is not f)
    sets = {a & b for a in groups for b in groups if len(a & b) >= 4}
    having = lambda s: sorted(x for names, fs in groups.items() if s <= names for x in fs)  # noqa: E731
    often = [s for s in sets if len(having(s)) >= 3]
    for s in sorted((s for s in often if not any(s < t for t in often)), key=lambda s: (having(s), sorted(s))):
        fs = having(s)
        yield "5", "group", fs[0][0], fs[0][1], fs[0][2], f"{', '.join(sorted(s))} in {len(fs)} functions"
    for fact, fs in sorted(common.items()):
        if len(fs) >= 3:
            yield "5", "fact", *sorted(fs)[0], f"{fact} in {len(fs)} functions"
    for path, text in sources.items():
        for m in re.finditer(r"^(?:pub )?type (\w+) = \[u\d+; (\w*WORDS|\w*HEADS)\]", text, re.M):
            yield "6", "words", path, text.count("\n", 0, m.start()) + 1, m.group(1), m.group(0)
    answers = collections.defaultdict(list)
    for path, text in files.items():
        if path.endswith("/Answers.antt"):
            for m in re.finditer(r"^pub ([^\s:]+) : goal[^\n]*\n(.*?)(?=^pub |^\S+ : |\Z)", text, re.M | re.S):
                answers[" ".join(m.group(2).split("=", 1)[-1].split())].append((path, text.count("\n", 0, m.start()) + 1, m.group(1)))
    for text, at in answers.items():
        for path, line, goal in at:
            yield "8", "answer in proofs", path, line, goal, ""
        if len({path for path, _, _ in at}) >= 3:
            yield "8", "repeated in proofs", *at[0], f"{text[:60]} in {len({path for path, _, _ in at})}"


def main(argv):
    found = sorted(places(([a for a in argv if a != "--counts"] or ["."])[0]))
    for point, what, path, line, at, text in found:
        if what != "answer in proofs" and "--counts" not in argv:
            print(f"{point} {what}: {path}:{line} {at}: {text}")
    for point, kinds in POINTS.items():
        counts = [(kind, sum(p[0] == point and p[1] == kind for p in found)) for kind in kinds]
        print(f"point {point}: {sum(n for _, n in counts if point != '8') or counts[0][1]} ({', '.join(f'{kind} {n}' for kind, n in counts)})")
    return 0


if __name__ == "__main__":
    raise SystemExit(main(sys.argv[1:]))
