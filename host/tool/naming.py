"""What all parts of the import from yosys share: the reason why there is no block, and names as they stand in reasons, in
notes and in the block."""

from description import MAX_NAME

# so many names stand in a line at most
MAX_LISTED = 32


class CannotImport(Exception):
    """Why there is no block, in one line."""


def clean(name):
    """A name as one word: blanks, '#' and what cannot be printed become '_'."""
    if name and name.isprintable() and " " not in name and "#" not in name:
        return name
    return "".join(c if c.isprintable() and c not in " #" else "_" for c in name) or "_"


def short(name):
    """A name as one word of at most 64 characters. Of a longer one the end is kept: there the names in a hierarchy differ."""
    word = clean(name)
    return word if len(word) <= MAX_NAME else "..." + word[-(MAX_NAME - 3) :]


def listed(words):
    """Words behind each other, the first 32 of them; the others are counted."""
    words = list(words)
    more = f" and {len(words) - MAX_LISTED} more" if len(words) > MAX_LISTED else ""
    return ", ".join(words[:MAX_LISTED]) + more
