"""The sums that the base and the entries of a journal of layout 4 carry, for the independent models.

A seal is a sum and a place. Each text ends with a sum of the seal before it, which says where it stands and what stands before
it, and of its own length and bytes. docs/FORMATS.md has the rule.
"""
import hashlib

LENGTH = 8    # the bytes of a sum


def first(layout, generation):
    """The seal before a base."""
    return (layout << 32 | generation).to_bytes(8, "big"), 0


def after(seal, body):
    """The seal behind a text with this body: its sum is the text's."""
    before, place = seal
    told = before + place.to_bytes(8, "big") + len(body).to_bytes(8, "big") + body
    return hashlib.sha256(told).digest()[:LENGTH], (place + 1) % (1 << 64)


def sealed(seal, body):
    """The body with its sum, and the seal behind it."""
    behind = after(seal, body)
    return body + behind[0], behind


def opened(seal, text):
    """The body of a text that ends with its sum, and the seal behind it; no body if it does not."""
    body = text[:-LENGTH]
    behind = after(seal, body)
    return (body if len(text) >= LENGTH and text[-LENGTH:] == behind[0] else None), behind
