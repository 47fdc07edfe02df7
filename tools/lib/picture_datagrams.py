"""What a datagram holds, from its digits."""

KINDS = {"01": "ping", "02": "pong", "03": "summary", "04": "records", "05": "summary"}

# How many bytes a body has, by its kind: a certificate with a key of one level and of two, a note with a mask of four bytes
# and of eight, and an accusation.
SIZES = {1: 61, 5: 65, 2: 15, 4: 19, 3: 14}


def datagram_kind(digits):
    """`ping`, `pong`, `summary`, `records`, or `other` for what is no datagram."""
    if digits[:6] != "464601":
        return "other"
    return KINDS.get(digits[6:8], "other")


def records_in(data):
    """The bodies of a records datagram, each with its signature, as far as they can be read."""
    place = 8
    while place < len(data) and place + SIZES.get(data[place], len(data)) <= len(data):
        signature = place + SIZES[data[place]] + 2
        end = signature + word(data, signature - 2, 2)
        yield data[place : signature - 2], data[signature:end]
        place = end


def text_of(body):
    if body[0] in (1, 5):
        return f"cert {word(body, 1, 2)} {word(body, 3, 2)}"
    if body[0] == 3:
        return f"accuse {word(body, 1, 2)} {word(body, 3, 2)} {word(body, 5, 8)} {body[13]}"
    return f"note {word(body, 1, 2)} {word(body, 3, 8)} {word(body, 11, len(body) - 11)}"


def word(data, place, size):
    return int.from_bytes(data[place : place + size], "big")


def describe_datagram(digits):
    """The kind, and of records what they say."""
    kind = datagram_kind(digits)
    if kind != "records":
        return kind
    found = [text_of(body) for body, _ in records_in(bytes.fromhex(digits))]
    return "records: " + ", ".join(found[:8]) + (", .." if len(found) > 8 else "")
