# Writes network files record by record, for the examples and the corpus (paper 01, "The network file").

END = b"\x7f"
FORWARD, DROP, DELIVER = 0x03, 0x04, 0x05
FREEING = 0x10  # added to a rule's kind: the mask's ones are the free bits


def network(width, nodes):
    return bytes([0x01, width, nodes])


def table(node):
    return bytes([0x02, node])


def rule(kind, mask, value, to=None):
    """A rule record with mask and value as they stand; `to` is the next node of a forward."""
    fields = mask.to_bytes(4, "big") + value.to_bytes(4, "big")
    return bytes([kind]) + fields + (b"" if to is None else bytes([to]))


def noted(kind, letters, to=None, freeing=False):
    """A rule for a pattern in letters, highest bit left, in either notation."""
    value = int(letters.replace("*", "0"), 2)
    cared = int("".join("0" if c == "*" else "1" for c in letters), 2)
    if freeing:
        return rule(kind + FREEING, cared ^ ((1 << len(letters)) - 1), value, to)
    return rule(kind, cared, value, to)


def forward(letters, to):
    return noted(FORWARD, letters, to)


def drop(letters):
    return noted(DROP, letters)


def deliver(letters):
    return noted(DELIVER, letters)


def one_bit(width, bit):
    """The letters of the filter that asks for a one at one bit."""
    return "*" * (width - 1 - bit) + "1" + "*" * bit
