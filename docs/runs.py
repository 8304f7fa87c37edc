#!/usr/bin/env python3
"""Key switches and bootstraps by their definitions, written apart from the crates that they are compared with.

`worked_files.py` computes the output of the look-up of one bit with them. Run `python3 docs/runs.py`: it prints the digits
of three words and a rotation that are worked out by hand in the documents.
"""

from keys import product

WORDS = 1 << 64


def digits(word, base, level):
    """The digits of a word, the highest first, in [-2^(base-1), 2^(base-1)), of the nearest multiple, ties up."""
    unit = 64 - base * level
    rest = (word + (1 << (unit - 1))) >> unit
    found = []
    for _ in range(level):
        digit = rest % (1 << base)
        if digit >= 1 << (base - 1):
            digit -= 1 << base
        found.append(digit)
        rest = (rest - digit) >> base
    return found[::-1]


def switched(rows, words, n, base, level):
    """(0, .., 0, b) minus the sum of the rows, each times its digit of the mask."""
    out = [0] * n + [words[-1]]
    row = iter(rows)
    for word in words[:-1]:
        for digit in digits(word, base, level):
            out = [(o - digit * w) % WORDS for o, w in zip(out, next(row))]
    return out


def mod_switched(word, log_n):
    return ((word + (1 << (62 - log_n))) >> (63 - log_n)) % (2 << log_n)


def rotated(by, poly):
    """X^by times a polynomial, where X^N is -1."""
    n = len(poly)
    power = [0] * n
    power[by % n] = 1 if by % (2 * n) < n else -1
    return product(power, poly)


def test_polynomial(entries, n, width):
    box = n >> width
    step = 1 << (63 - width)
    cells = []
    for j in range(n):
        place = (j + box // 2) // box
        late = j >= n - box // 2
        entry = entries[0] if late else (entries[place] if place < len(entries) else 0)
        cells.append((-entry if late else entry) * step % WORDS)
    return cells


def external(rows, parts, base, level):
    """The sum over parts and places of the digit polynomial times the row of that part and place."""
    n = len(parts[0])
    out = [[0] * n for _ in parts]
    for j, part in enumerate(parts):
        cells = [digits(word, base, level) for word in part]
        for t in range(level):
            poly = [cell[t] for cell in cells]
            for a, source in enumerate(rows[j * level + t]):
                out[a] = [(o + w) % WORDS for o, w in zip(out[a], product(poly, source))]
    return out


def bootstrapped(ggsws, test, words, k, log_n, base, level):
    """The blind rotation of the test polynomial by the phase of a small ciphertext, and the extraction."""
    n = 1 << log_n
    parts = [[0] * n for _ in range(k)] + [rotated(2 * n - mod_switched(words[-1], log_n), test)]
    for rows, word in zip(ggsws, words):
        other = [rotated(mod_switched(word, log_n), part) for part in parts]
        gap = [[(b - a) % WORDS for a, b in zip(part, turned)] for part, turned in zip(parts, other)]
        parts = [[(a + b) % WORDS for a, b in zip(part, more)] for part, more in zip(parts, external(rows, gap, base, level))]
    mask = [word for part in parts[:k] for word in [part[0]] + [(-w) % WORDS for w in part[:0:-1]]]
    return mask + [parts[k][0]]


def main():
    print(digits(9223372036854775808, 4, 1), digits(576460752303423488, 4, 1), digits(1729382256910270464, 4, 2))
    print(product([1, 2], [3, 4]), rotated(3, [1, 2]))


if __name__ == "__main__":
    main()
