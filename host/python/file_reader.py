"""A reader of block files, refusals 1 to 7 (document 01; K2, K3 and K10 in document 02)."""

from editions import MOST_SWITCHING, WIRE_LENGTH, activity
from limits import MAX_DELAY, MAX_DROP, MAX_GATES, MAX_STEPS, MAX_WIDTH, MAX_WIRES


class Refused(Exception):
    pass


def numbers(body):
    return [256 * body[i] + body[i + 1] for i in range(0, len(body), 2)]


def take(file, at, due, lengths):
    """The body of the field due at an offset, and the offset behind it."""
    if len(file) - at < 3:
        raise Refused(1, at)
    if file[at] != due:
        raise Refused(2, at)
    size = 256 * file[at + 1] + file[at + 2]
    if size not in lengths:
        raise Refused(3, at)
    body = file[at + 3 : at + 3 + size]
    if len(body) < size:
        raise Refused(1, at)
    return body, at + 3 + size


def read_gates(file, edition, gates):
    """The offset behind the gate fields."""
    at = 11
    for _ in range(gates):
        tag_at = at
        body, at = take(file, at, 2, {4 + 4 * k for k in range(MAX_STEPS + 1)})
        delay, switching, *steps = numbers(body)
        widths, drops = steps[0::2], steps[1::2]
        in_range = delay <= MAX_DELAY and switching <= MOST_SWITCHING[edition]
        if not in_range or not all(1 <= w <= MAX_WIDTH for w in widths) or not all(1 <= d <= MAX_DROP for d in drops):
            raise Refused(4, tag_at)
        if any(drops[i] <= drops[i + 1] for i in range(len(drops) - 1)):
            raise Refused(5, tag_at)
    return at


def read_wires(file, at, edition, gates):
    """The delay of each wire, in file order."""
    delays = {}
    while at < len(file):
        if len(delays) == MAX_WIRES:
            raise Refused(7, at)
        tag_at = at
        (source, target, *delay), at = take(file, at, 3, {WIRE_LENGTH[edition]})
        ticks = numbers(delay)[0] if delay else 0
        if source >= gates or target >= gates or ticks > MAX_DELAY:
            raise Refused(4, tag_at)
        if source == target or (source, target) in delays:
            raise Refused(6, tag_at)
        delays[source, target] = ticks
    return list(delays.values())


def read(file):
    (edition, gates, *times), _ = take(file, 0, 1, {8})
    arrival, deadline, switching = numbers(times)
    if edition not in MOST_SWITCHING or not 1 <= gates <= MAX_GATES or switching > MOST_SWITCHING[edition]:
        raise Refused(4, 0)
    delays = read_wires(file, read_gates(file, edition, gates), edition, gates)
    return gates, len(delays), arrival, deadline, activity(edition, switching), *delays[:1]
