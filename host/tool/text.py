"""Text for a person: words that are safe to show, counts, lists and paths that fit a line, and numbers read from words."""

# the most characters of a line, and of a gate's label; the short one is for lines that say much besides
LINE = 200
LABEL = 80
SHORT_LABEL = 40


def shown(text, most=60) -> str:
    """Text for a terminal: what is not printable as escapes, and at most so many characters (3 or more)."""
    pieces = [piece if piece.isprintable() else escape(piece) for piece in text[: most + 1]]
    if sum(map(len, pieces)) <= most:
        return "".join(pieces)
    while pieces and sum(map(len, pieces)) > most - 3:
        pieces.pop()
    return "".join(pieces) + "..."


def escape(character):
    """The escape of one character; a byte that could not be decoded in a file's name is shown as that byte."""
    code = ord(character)
    if 0xDC80 <= code <= 0xDCFF:
        code -= 0xDC00
    return f"\\x{code:02x}" if code < 0x100 else f"\\u{code:04x}" if code < 0x10000 else f"\\U{code:08x}"


def counted(count, word):
    return f"{count} {word}" if count == 1 else f"{count} {word}s"


def ordinal(count):
    ending = "th" if count % 100 in (11, 12, 13) else {1: "st", 2: "nd", 3: "rd"}.get(count % 10, "th")
    return f"{count}{ending}"


def label(netlist, gate, most=LABEL):
    """A gate by number and name. A long name is cut in its middle: names that one tool made begin alike and differ at their
    ends."""
    known = netlist is not None and 0 <= gate < len(netlist.gates)
    whole = netlist.label(gate) if known else f"gate {gate}"
    if len(whole) <= most:
        return shown(whole, most)
    name = netlist.gates[gate].name
    kept = len(name) - (len(whole) - most) - 3
    return shown(f"gate {gate} ({name[: kept // 3]}...{name[kept // 3 - kept :]})", most)


def with_list(front, words, last="and"):
    """A line that ends in a list of one or more words."""
    return front + listed(words, LINE - len(front), last)


def listed(words, room, last="and"):
    """Words in a list; those for which there is no room are counted."""
    kept = len(words)
    whole = f"{', '.join(words[:-1])} {last} {words[-1]}" if kept > 1 else words[0]
    while len(whole) > room and kept > 1:
        kept -= 1
        whole = f"{', '.join(words[:kept])} {last} {len(words) - kept} more"
    return whole


def chain(words, room):
    """Words joined by arrows; those in front of the last for which there is no room are counted."""
    whole = " -> ".join(words)
    kept = len(words) - 1
    while len(whole) > room and kept > 1:
        kept -= 1
        whole = " -> ".join(words[:kept] + [f"{len(words) - 1 - kept} more"] + words[-1:])
    return whole


def is_number(word):
    """Whether a word has ASCII digits alone."""
    return word.isascii() and word.isdigit()


def value_up_to(word, most):
    """The value of a word of digits, or most + 1 where it is larger; a very long word is not converted."""
    digits = word.lstrip("0") or "0"
    return min(int(digits), most + 1) if len(digits) <= len(str(most)) else most + 1
