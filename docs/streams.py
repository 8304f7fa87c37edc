#!/usr/bin/env python3
"""The draws of a seed, written apart from the crates that they are compared with.

ChaCha20 is written out from RFC 8439, sections 2.1 to 2.3, with Bernstein's layout: a 64-bit block
counter in words 12 and 13, and a 64-bit stream number, here 0, in words 14 and 15. SHA-256 is the
standard library's. Run `python3 docs/streams.py`: it checks the cipher against the first bytes of
the key stream of the all-zero key, then prints draws that the tests of `seed_stream` compare.
"""

import hashlib
import struct

MASK = 0xFFFFFFFF


def rotated(x, k):
    return (x << k | x >> (32 - k)) & MASK


def quarter_round(s, a, b, c, d):
    for p, q, r, k in ((a, b, d, 16), (c, d, b, 12), (a, b, d, 8), (c, d, b, 7)):
        s[p] = (s[p] + s[q]) & MASK
        s[r] = rotated(s[r] ^ s[p], k)


def block(key, counter, stream=0):
    """The 64 bytes of one block of the key stream."""
    start = list(struct.unpack("<4I", b"expand 32-byte k"))
    start += struct.unpack("<8I", key)
    start += struct.unpack("<4I", struct.pack("<QQ", counter, stream))
    s = list(start)
    for _ in range(10):
        for i in range(4):
            quarter_round(s, i, 4 + i, 8 + i, 12 + i)
        for i in range(4):
            quarter_round(s, i, 4 + (i + 1) % 4, 8 + (i + 2) % 4, 12 + (i + 3) % 4)
    return struct.pack("<16I", *((x + y) & MASK for x, y in zip(s, start)))


def draw(key, i):
    """Draw i: word 2i of the key stream, plus 2^32 times the word after it."""
    words = struct.unpack("<16I", block(key, i // 8))
    j = 2 * (i % 8)
    return words[j] + (words[j + 1] << 32)


def stream_key(seed, label):
    return hashlib.sha256(seed + label.encode()).digest()


def error(w, bound):
    return w % (2 * bound + 1) - bound


def main():
    zero = bytes(32)
    first = block(zero, 0)
    assert first[:8].hex() == "76b8e0ada0f13d90", first[:8].hex()
    # RFC 8439, appendix A.1, vectors 1 and 2: blocks 0 and 1 of that key.
    assert first[-8:].hex() == "c387b669b2ee6586", first[-8:].hex()
    assert block(zero, 1)[:4].hex() == "9f07e7be"
    assert hashlib.sha256(b"abc").hexdigest().startswith("ba7816bf8f01cfea")
    print("draw 0 of the all-zero key:", draw(zero, 0))
    for label in ("fhec big", "fhec switch"):
        key = stream_key(zero, label)
        print(label, "key:", key.hex())
        for i in (0, 1, 2, 3, 31, 32, 33, 1000):
            w = draw(key, i)
            print(f"  draw {i}: {w} = {w:#018x}, error 3: {error(w, 3)}, below 1024: {w % 1024}")


if __name__ == "__main__":
    main()
