#!/usr/bin/env python3
"""The keys of a seed, written apart from the crate `key_gen` that they are compared with.

Run `python3 docs/keys.py`: it prints, for the seed of 32 zero bytes and the parameters of the example table (k 1, log_n 8,
ones 4, error 1024; n 8, ones 2, error 1048576; 6 digits of 4 bits for the switch, 4 of 8 bits for the boot), what the tests
of `key_gen` compare; and of a boot key with two mask polynomials (k 2, log_n 3, ones 5; n 3, ones 2; 2 digits of 8 bits).
"""

from streams import draw, error, stream_key

WORDS = 1 << 64


def secret_bits(seed, label, dimension, ones):
    bits = [0] * dimension
    key = stream_key(seed, label)
    for i in range(ones):
        bits[draw(key, i) % dimension] = 1
    return bits


def row(key, place, bits, message, bound):
    """Mask words from the place on, then the error; the body is what gives message plus error as phase."""
    mask = [draw(key, place + i) for i in range(len(bits))]
    masked = sum(a for a, bit in zip(mask, bits) if bit)
    return mask + [(message + error(draw(key, place + len(bits)), bound) + masked) % WORDS]


def switch_rows(seed, big, small, base, level, bound):
    key = stream_key(seed, "fhec switch")
    rows = []
    for bit in big:
        for t in range(1, level + 1):
            rows.append(row(key, len(rows) * (len(small) + 1), small, bit << (64 - base * t), bound))
    return rows


def product(p, q):
    """p times q modulo X^N + 1, by the sums of the definition."""
    n = len(p)
    words = []
    for c in range(n):
        plus = sum(p[i] * q[c - i] for i in range(c + 1))
        minus = sum(p[i] * q[c + n - i] for i in range(c + 1, n))
        words.append((plus - minus) % WORDS)
    return words


def boot_row(seed, big, small, k, base, level, bound, r):
    """Row r: its parts, the mask polynomials and then the body."""
    n = len(big) // k
    polys = [big[j * n : (j + 1) * n] for j in range(k)]
    i, j, t = r // ((k + 1) * level), r // level % (k + 1), r % level + 1
    counts = [-bit for bit in polys[j]] if j < k else [1] + [0] * (n - 1)
    key = stream_key(seed, "fhec boot")
    words = [draw(key, r * (k + 1) * n + at) for at in range((k + 1) * n)]
    masks = [words[a * n : (a + 1) * n] for a in range(k)]
    body = [small[i] * (count << (64 - base * t)) + error(w, bound) for count, w in zip(counts, words[k * n :])]
    for mask, poly in zip(masks, polys):
        body = [b + m for b, m in zip(body, product(mask, poly))]
    return masks + [[b % WORDS for b in body]]


def main():
    seed = bytes(32)
    big = secret_bits(seed, "fhec big", 256, 4)
    small = secret_bits(seed, "fhec small", 8, 2)
    print("big ones at", [i for i, bit in enumerate(big) if bit])
    print("small ones at", [i for i, bit in enumerate(small) if bit])
    rows = switch_rows(seed, big, small, 4, 6, 1048576)
    one = big.index(1)
    for r in (0, 6 * one + 2, len(rows) - 1):
        print("switch row", r, rows[r])
    print("sum of all switch words", sum(map(sum, rows)) % WORDS)
    for r in (25, 30, 63):
        parts = boot_row(seed, big, small, 1, 8, 4, 1024, r)
        print("boot row", r, parts[0][0], parts[0][255], parts[1][0], parts[1][255])
    two = secret_bits(seed, "fhec big", 16, 5)
    bits = secret_bits(seed, "fhec small", 3, 2)
    print("big ones at", [i for i, bit in enumerate(two) if bit], "small", bits)
    rows = [boot_row(seed, two, bits, 2, 8, 2, 1024, r) for r in range(18)]
    print("boot row of two masks", 9, [part[7] for part in rows[9]])
    print("sum of its boot words", sum(word for parts in rows for part in parts for word in part) % WORDS)
    step = 1 << 61
    key = stream_key(seed, "fhec input")
    for c, value in enumerate((3, -1)):
        words = row(key, c * 257, big, value * step % WORDS, 1024)
        print("input", c, "of", value, words[0], words[255], words[256], sum(words) % WORDS)


if __name__ == "__main__":
    main()
