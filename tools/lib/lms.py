"""Verifies signatures of LMS (RFC 8554, SHA-256), so that a certificate can be told from another group's or a damaged one."""

import hashlib

# by the types in a key: the width of a digit, the number of chains and the shift of the checksum; the height of a tree
OTS = {1: (1, 265, 7), 2: (2, 133, 6), 3: (4, 67, 4), 4: (8, 34, 0)}
TREE = {5: 5, 6: 10, 7: 15}


def sha(*parts):
    return hashlib.sha256(b"".join(parts)).digest()


def u16(number):
    return number.to_bytes(2, "big")


def u32(number):
    return number.to_bytes(4, "big")


def digits(data, width):
    return [(byte >> shift) & (2**width - 1) for byte in data for shift in range(8 - width, -1, -width)]


def candidate(ots, identity, index, message, signature):
    """The public value to which the one-time signature leads."""
    width, chains, shift = OTS[ots]
    head = identity + u32(index)
    value = sha(head, u16(0x8181), signature[4:36], message)
    checksum = sum(2**width - 1 - digit for digit in digits(value, width)) << shift
    ends = []
    for chain, digit in enumerate(digits(value + u16(checksum), width)[:chains]):
        link = signature[36 + 32 * chain : 68 + 32 * chain]
        for step in range(digit, 2**width - 1):
            link = sha(head, u16(chain), bytes([step]), link)
        ends.append(link)
    return sha(head, u16(0x8080), *ends)


def types_in(key):
    """The types of the tree and of the one-time signatures of a key of 56 bytes."""
    return int.from_bytes(key[:4], "big"), int.from_bytes(key[4:8], "big")


def signature_length(key):
    tree, ots = types_in(key)
    return 44 + 32 * OTS[ots][1] + 32 * TREE[tree]


def verifies(key, message, signature):
    """Whether this is a signature of the message under the key of 56 bytes."""
    tree, ots = types_in(key)
    identity, root = key[8:24], key[24:]
    height, ots_length = TREE[tree], 36 + 32 * OTS[ots][1]
    if len(signature) != signature_length(key):
        return False
    index = int.from_bytes(signature[:4], "big")
    one_time, kind, path = signature[4 : 4 + ots_length], signature[4 + ots_length :][:4], signature[8 + ots_length :]
    if index >= 2**height or one_time[:4] != u32(ots) or kind != u32(tree):
        return False
    node = 2**height + index
    value = sha(identity, u32(node), u16(0x8282), candidate(ots, identity, index, message, one_time))
    for level in range(height):
        sibling = path[32 * level : 32 * level + 32]
        pair = (sibling, value) if node % 2 else (value, sibling)
        node //= 2
        value = sha(identity, u32(node), u16(0x8383), *pair)
    return value == root


def certificate_body(one):
    """The bytes of a certificate in a record: its kind tells whether the key has one level or two."""
    kind = b"\x01" if len(one.key) == 56 else b"\x05"
    return kind + u16(one.member) + u16(one.port) + one.key


def is_certified(group, authority, one):
    """Whether the certificate is one of the authority's, whose key has one level, in this group."""
    signed = b"FFSIGN" + group.tag + bytes([group.t]) + certificate_body(one)
    return verifies(authority, signed, one.signature)
