#!/usr/bin/env python3
"""The files of the worked sum, written apart from the crate `key_commands` that they are compared with.

Run `python3 docs/worked_files.py`: it prints, for the seed of 32 zero bytes and the parameters of the sum of two inputs
(k 1, log_n 1, ones 1, error 3; n 1, ones 0, error 0; 1 digit of 1 bit), the bytes of the secret file with the big key
(1, 0) and the small key (0), of the file of inputs for the values 1 and 2, and of the output for the ranges 0 to 3 and
0 to 2. Then, of the same seed, how long the key files of both circuits are, and their seals: that of the sum, and a
look-up with the parameters (k 1, log_n 3, ones 1, error 3; n 2, ones 1, error 3; 2 digits of 8 bits for both); and for
each value of its input the files of the input and of the output, which is bootstrapped with a table of 1 and 0.
"""

from hashlib import sha256

from keys import boot_row, row, secret_bits, switch_rows
from runs import bootstrapped, switched, test_polynomial
from streams import stream_key

LINES = b"glwe 1 1 1 3\nlwe 1 0 0\nboot 1 1\nswitch 1 1\n"
LOOK_LINES = b"glwe 1 3 1 3\nlwe 2 1 3\nboot 8 2\nswitch 8 2\n"
BIG, SMALL = [1, 0], [0]
WORDS = 1 << 64


def field(number):
    return (number % (1 << 64)).to_bytes(8, "little")


def sealed(magic, numbers, lines=LINES):
    body = magic + sha256(lines).digest() + b"".join(map(field, numbers))
    return body + sha256(body).digest()


def shown(name, data):
    print(name, len(data))
    print(", ".join(map(str, data)))


def told(name, data):
    print(name, len(data), list(data[-32:]))


def ciphertexts(ranges, rows, head=(2, 2), lines=LINES):
    ends = [end for pair in ranges for end in pair]
    words = [word for words in rows for word in words]
    return sealed(b"FHECCIP1", list(head) + [len(ranges)] + ends + words, lines)


def main():
    shown("secret", sealed(b"FHECSEC1", [len(SMALL), len(BIG)] + SMALL + BIG))
    key = stream_key(bytes(32), "fhec input")
    rows = [row(key, 3 * i, BIG, value << 61, 3) for i, value in enumerate((1, 2))]
    print(rows)
    shown("inputs", ciphertexts([(0, 1), (0, 2)], rows))
    shown("output", ciphertexts([(0, 3)], [(4, 7, 6917529027641081861)]))
    seed = bytes(32)
    keys = [secret_bits(seed, "fhec small", 1, 0), secret_bits(seed, "fhec big", 2, 1)]
    told("secret keys of the sum", sealed(b"FHECSEC1", [1, 2] + keys[0] + keys[1]))
    small, big = secret_bits(seed, "fhec small", 2, 1), secret_bits(seed, "fhec big", 8, 1)
    told("secret keys of the look-up", sealed(b"FHECSEC1", [2, 8] + small + big, LOOK_LINES))
    switch = switch_rows(seed, big, small, 8, 2, 3)
    boot = [boot_row(seed, big, small, 1, 8, 2, 3, r) for r in range(8)]
    words = [word for one in switch for word in one] + [word for parts in boot for part in parts for word in part]
    told("evaluation keys of the look-up", sealed(b"FHECEVL1", [1, 3, 2, 2, 2] + words, LOOK_LINES))
    for value in (0, 1):
        given = row(key, 0, big, value << 62, 3)
        small_one = switched(switch, given, 2, 8, 2)
        found = bootstrapped([boot[:4], boot[4:]], test_polynomial([1, 0], 8, 1), small_one, 1, 3, 8, 2)
        told("input %d of the look-up" % value, ciphertexts([(0, 1)], [given], (8, 1), LOOK_LINES))
        told("output of it", ciphertexts([(0, 1)], [found], (8, 1), LOOK_LINES))
        phase = (found[-1] - sum(a for a, bit in zip(found, big) if bit)) % WORDS
        print("its phase in steps", phase / (1 << 62))
    shown("narrow output", ciphertexts([(0, 2)], [(4, 7, 6917529027641081861)]))


if __name__ == "__main__":
    main()
