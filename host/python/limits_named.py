"""Looks for limits (K10 in document 02) that stand as a number where they should stand by name.

limits_named.py looks at the sources of crates/ and host/ and at the documents. It fails, with file and line, where a number
occurs that is a limit, follows from one, or was one before K10, unless the number means something else there: ALLOWED says where,
and what it means. An entry of it that no number needs is a fault too. The documents may say the limits of today. It also fails
where two of the places that define a limit disagree. Besides it puts limits into the texts, and fails if one of them is not found.
Must-fail edits, which are mistakes, and the tests of tool/, which are answers by hand, are left out.
"""

import re
import sys
from pathlib import Path

ROOT = Path(__file__).resolve().parents[2]
SOURCES = ["crates/*/src/**/*.rt", "crates/*/specs/**/*.antt", "crates/*/proofs/**/*.antt", "host/src/**/*.rs", "host/c/*",
           "host/include/*", "host/run", "host/python/*.py", "host/tool/*.py", "host/tool/start"]
DOCUMENTS = ["README.md", "docs/ARCHITECTURE.md", "docs/FORMAT.md", "docs/PROMISES.md", "host/README.md", "host/CASES.md"]

# where each limit is defined: a line with its number
DEFINED = {
    "gates": [("crates/model/specs/Limits.antt", r"max_gates = (\d+)"),
              ("crates/model/src/limits.rt", r"pub const MAX_GATES: usize = (\d+);"),
              ("host/src/block.rs", r"pub const MAX_GATES: usize = (\d+);"),
              ("host/include/honduvi.h", r"#define HONDUVI_MAX_GATES (\d+)"),
              ("host/python/limits.py", r"MAX_GATES = (\d+)"),
              ("host/python/honduvi.py", r"MAX_GATES = (\d+)"),
              ("host/tool/netlist.py", r"MAX_GATES = (\d+)")],
    "wires": [("crates/model/specs/Limits.antt", r"max_wires = (\d+)"),
              ("crates/model/src/limits.rt", r"pub const MAX_WIRES: usize = (\d+);"),
              ("host/src/block.rs", r"pub const MAX_WIRES: usize = (\d+);"),
              ("host/include/honduvi.h", r"#define HONDUVI_MAX_WIRES (\d+)"),
              ("host/python/limits.py", r"MAX_WIRES = (\d+)"),
              ("host/tool/netlist.py", r"MAX_WIRES = (\d+)")],
    "pairs": [("host/include/honduvi.h", r"#define HONDUVI_MAX_PAIRS (\d+)")],
    "bytes": [("crates/model/specs/Limits.antt", r"max_bytes = (\d+)"),
              ("crates/model/src/limits.rt", r"pub const MAX_BYTES: usize = (\d+);"),
              ("host/src/block.rs", r"pub const MAX_BYTES: usize = ([\d_]+);"),
              ("host/include/honduvi.h", r"#define HONDUVI_MAX_BYTES (\d+)"),
              ("host/tool/netlist.py", r"MAX_BYTES = ([\d_]+)")],
}
STEPS = 8
# limits before K10, and what followed from them: gates, wires, pairs, pairs of gates, bytes of a file and of the program's input
BEFORE = {63, 64, 65, 256, 257, 511, 512, 513, 4_096, 4_298, 4_299, 4_300, 5_521, 8_192}

NUMBER = re.compile(r"(?<![\w.])(?:\d{1,3}(?:,\d{3})+|\d[\d_]*)(?!,?\d|\w)")

# files, what stands there around the number or is the number, and what it means
ALLOWED = [
    (r".*", r"64[- ]bits?\b|2 ?(\^|\*\*) ?64\b|1 << 64\b|x86-64", "numbers of 64 bits"),
    (r".*", r"\b2 ?\*? ?\w* ?\*? ?\(256 [-−] \w+\)|p 64\b|p 256\b|p 257\b", "p in 256ths"),
    (r".*\.(rs|py|rt)", r"256 \* |% 256\b|// ?256\b|/ 256\b|\* 256 \+", "values of a byte"),
    (r"crates/.*\.antt", r'"[^"]*"', "documents 01 and 02, quoted"),
    (r"crates/(bigendian|decimal_cases|fields)/.*", r"256", "values of a byte"),
    (r"crates/model/(specs/Field|proofs/(Bodies|Encoded|Fields))\.antt", r"256", "values of a byte"),
    (r"crates/model/(specs/Activity\.antt|src/activity\.rt|proofs/activity/.*)", r"256|257", "p in 256ths, a table with every p"),
    (r"crates/model/proofs/Limited\.antt", r"256|16384", "p in 256ths, and 128 x 128"),
    (r"crates/(model/specs/Limits\.antt|ranges/src/edition\.rt)", r"(max_probability|MAX_PROBABILITY: u32) = 256", "p in 256ths"),
    (r"crates/ties/(specs/Code\.antt|src/lib\.rt)", r"(ranks|RANKS: u64) = 256", "ranks in a key, as many as a byte has values"),
    (r"crates/worked/specs/Table\.antt", r"257", "an activity that is no probability"),
    (r"crates/decimal_cases/src/main\.rt|host/python/decimal_cases\.py", r"_BYTES(: usize)? = 8192", "what the program reads"),
    (r"host/src/generate\.rs", r"MIDDLE_GATES: usize = 64", "blocks drawn before K10"),
    (r"host/src/(edition|generate)\.rs", r"64, 24_576|64, 192|256, 200|256|257", "p in 256ths"),
    (r"host/src/(merging/lists|compare/best/tests)\.rs", r"256", "values of a byte, p in 256ths"),
    (r"host/src/(boundaries|boundaries/edition_[23]|worked/edition_3|cases/groups|bin/check_reference/networks)\.rs",
     r"256|257|512|513", "p in 256ths, activities and delays about as large"),
    (r"host/src/boundaries(/edition_[23])?\.rs", r"4[,_]096", "a delay or width beyond 4,095"),
    (r"host/src/boundaries(/edition_2)?\.rs", r"with2?\(6[35],|60, 65 and 70", "offsets of the diamond's fields"),
    (r"host/src/worked/(edition_3|finer)\.rs", r"16[,_]384|8[,_]192|4[,_]096", "activities"),
    (r"host/src/worked/ticks\.rs", r"64 \* U", "a saving"),
    (r"host/src/boundaries/large\.rs", r"257", "wires that were one too many before K10"),
    (r"host/src/worked/(large|ticks)\.rs", r"65|199|200|201", "gates and savings of the blocks at the limits, by hand"),
    (r"host/src/bin/check_reference/by_hand\.rs", r"199|200|600|1_600|16_384|12_011", "the limits by hand, which hold the names"),
    (r"host/src/cases/groups\.rs", r"MOST_TRIES: usize = 200", "tries"),
    (r"host/src/measure\.rs", r"from_millis\(200\)", "milliseconds"),
    (r"host/src/pages\.rs", r"PAGE: usize = 4_096", "bytes of a page of memory"),
    (r"host/c/header_test\.c", r"257|which are 600", "an activity; wires counted by hand"),
    (r"host/run", r"'1 2 3 4096'", "a delay beyond 4,095"),
    (r"host/python/limits_named\.py", r".*", "what this program looks for and puts into texts"),
    (r"host/python/limit_files\.py", r"= 64, 256|12_011", "gates and wires before K10; the longest file by hand"),
    (r"host/python/(editions|mistakes)\.py|host/tool/netlist\.py", r"\b[12]: 256|else 256|cut at 256|min\(number, 256\)",
     "p in 256ths"),
    (r"host/python/(blockfile|calls)_cases\.py", r"256|257|511|512|513|16384|8192|4096", "delays and activities"),
    (r"host/python/blockfile_cases\.py", r"65 among them, which were too many before K10", "gates before K10"),
    (r"host/python/small_files\.py", r"#.*", "what the bytes below say"),
    (r"host/tool/(description|naming)\.py", r"MAX_NAME = 64|at most 64 characters", "characters of a name"),
    (r"host/tool/(commands|inputs|importing|text)\.py", r", 200\)|(MAX_SHOWN|LINE) = 200", "characters of a line"),
    (r"host/tool/resize\.py", r"MAX_PATH = 4_096", "characters of a path"),
    (r"docs/(FORMAT|PROMISES)\.md", r"0 to 256|up to 256|above 256|table of 257", "p in 256ths"),
    (r"docs/FORMAT\.md", r"p/256 × \(256 − p\)/256", "p in 256ths"),
    (r"docs/FORMAT\.md", r"1 to 64 printable|\| 6[35] \| `0|64 MiB",
     "characters of a name; offsets of the diamond's fields; a netlist of yosys"),
    (r"docs/PROMISES\.md", r"a delay of 4,096|a probability of 257", "a delay beyond 4,095; p in 256ths"),
    (r"README\.md|host/README\.md", r"\| 64 \||to 64 gates|from 64 to 200", "sizes of the blocks measured"),
    (r"README\.md|host/README\.md", r"`large` (with|has) 64 gates", "an example"),
    (r"host/CASES\.md", r"to 64 gates|of 64 equal gates", "blocks drawn before K10"),
    (r"host/CASES\.md", r"from 65, 66|and 64 elements|than 256 wires|gate 64 or above", "what a stored block presses on"),
    (r"host/CASES\.md", r"a cut at 256", "p in 256ths"),
]


def texts(root, patterns):
    """The texts of these files by their path."""
    paths = sorted({path for pattern in patterns for path in root.glob(pattern) if path.is_file()})
    return {str(path.relative_to(root)): path.read_text(encoding="utf-8") for path in paths}


def limits(sources):
    """The limits of today by their name, and what is wrong with their definitions."""
    values, faults = {}, []
    for name, places in DEFINED.items():
        for path, pattern in places:
            found = re.findall(f"(?m)^{pattern}$", sources[path])
            if len(found) != 1:
                faults.append(f"{path}: {len(found)} definitions of the most {name}")
                continue
            value = int(found[0].replace("_", ""))
            if values.setdefault(name, value) != value:
                faults.append(f"{path}: {value} are the most {name}, elsewhere {values[name]}")
    if values["pairs"] != values["gates"] * STEPS:
        faults.append(f"{values['pairs']} pairs are not {STEPS} for each gate")
    return values, faults


def of_today(values):
    """The limits of today, and numbers that follow from them."""
    around = {number + more for number in (values["gates"], values["wires"], values["pairs"]) for more in (-1, 0, 1)}
    longest = 11 + values["gates"] * (7 + 4 * STEPS) + 7 * values["wires"]
    return around | {longest - 1, longest, longest + 1, values["bytes"], values["gates"] ** 2}


def is_defining(path, line):
    """Whether this line is one of those that define a limit."""
    return any(path == place and re.fullmatch(pattern, line) for places in DEFINED.values() for place, pattern in places)


def allowing(path, line, start, end, allowed):
    """The places of the entries that allow the number between these columns."""
    def covers(pattern):
        return any(match.start() <= start and end <= match.end() for match in re.finditer(pattern, line))

    return [at for at, (paths, pattern, _) in enumerate(allowed) if re.fullmatch(paths, path) and covers(pattern)]


def unnamed(sources, numbers, allowed):
    """File, line number and line of each number that is one of these and not allowed; then the places of the entries used."""
    found, used = [], set()
    for path, text in sources.items():
        for at, line in enumerate(text.splitlines(), 1):
            for match in NUMBER.finditer(line):
                if int(re.sub("[_,]", "", match.group())) not in numbers or is_defining(path, line):
                    continue
                entries = allowing(path, line, match.start(), match.end(), allowed)
                used.update(entries)
                if not entries:
                    found.append((path, at, match.group(), line.strip()))
    return found, used


def check(sources, documents):
    """What is wrong with these texts, a line each."""
    values, faults = limits(sources)
    in_sources, used = unnamed(sources, of_today(values) | BEFORE, ALLOWED)
    in_documents, used_there = unnamed(documents, BEFORE, ALLOWED)
    faults += [f"{path}:{at}: {number}: {line[:160]}" for path, at, number, line in in_sources + in_documents]
    needless = set(range(len(ALLOWED))) - used - used_there
    return faults + [f"nothing needs the entry {ALLOWED[at]}" for at in sorted(needless)]


# a file, a line that is put behind its others, and the number that is found there
PLANTED = [
    ("crates/model/src/limits.rt", "pub type Marks = [u8; 64];", "64"),
    ("crates/model/specs/Limits.antt", "-- at most 600 wires", "600"),
    ("crates/slots/proofs/ChainLaws.antt", "few : (k : ℕ) → k < 512 → k < 1600", "512"),
    ("crates/slots/proofs/ChainLaws.antt", "few : (k : ℕ) → k < 1600", "1600"),
    ("host/src/block.rs", "const ROOM: usize = 4 * 200;", "200"),
    ("host/src/exact.rs", "// a file has at most 4,299 bytes", "4,299"),
    ("host/src/exact.rs", "let wires = [0; 2_57];", "2_57"),
    ("host/include/honduvi.h", "/* 256 bytes are enough */", "256"),
    ("README.md", "A block has at most 64 gates.", "64"),
    ("README.md", "It reads 8,192 bytes.", "8,192"),
]
# a definition, and what it is replaced with
CHANGED = [
    ("host/src/block.rs", "pub const MAX_GATES: usize = 200;", "pub const MAX_GATES: usize = 64;"),
    ("host/include/honduvi.h", "#define HONDUVI_MAX_PAIRS 1600", "#define HONDUVI_MAX_PAIRS 512"),
    ("crates/model/src/limits.rt", "pub const MAX_BYTES: usize = 16384;", ""),
]


def missed(sources, documents):
    """What is put into the texts and not found, a line each."""
    before, faults = check(sources, documents), []
    for path, planted, number in PLANTED:
        texts_of = documents if path in documents else sources
        text = texts_of[path].rstrip("\n") + "\n" + planted + "\n"
        found = check(*({**group, path: text} if group is texts_of else group for group in (sources, documents)))
        place = f"{path}:{text.count(chr(10))}: {number}: "
        if not any(fault.startswith(place) for fault in set(found) - set(before)):
            faults.append(f"not noticed: {planted} in {path}")
    for path, line, other in CHANGED:
        changed = {**sources, path: sources[path].replace(line, other)}
        if changed == sources or not set(check(changed, documents)) - set(before):
            faults.append(f"not noticed: {other or 'nothing'} in place of {line} in {path}")
    return faults


def main():
    sources, documents = texts(ROOT, SOURCES), texts(ROOT, DOCUMENTS)
    faults = missed(sources, documents) + check(sources, documents)
    for fault in faults:
        print(f"limits: {fault}")
    if not faults:
        planted = len(PLANTED) + len(CHANGED)
        print(f"limits: by name in {len(sources)} sources and {len(documents)} documents; {planted} put there by number noticed")
    sys.exit(1 if faults else 0)


if __name__ == "__main__":
    main()
