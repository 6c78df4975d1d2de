"""What differs between the editions of the block file (document 01; document 02, K2 and K3)."""

# the length of a wire's body: from edition 2 on the wire's delay stands behind its two gates
WIRE_LENGTH = {1: 2, 2: 4, 3: 4}
# the greatest number that the file can give for the switching of a net
MOST_SWITCHING = {1: 256, 2: 256, 3: 65_535}
# the greatest activity that a net can have
MOST_ACTIVITY = {1: 32_768, 2: 32_768, 3: 65_535}


def is_measured(edition):
    """Whether the file gives the measured activities of nets; the editions before give the probabilities of a 1 in 256ths."""
    return edition >= 3


def activity(edition, switching):
    """The activity of a net by the number that the file gives for its switching: a measured activity as it is, a probability by
    the formula."""
    return switching if is_measured(edition) else 2 * switching * (256 - switching)
