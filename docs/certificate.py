#!/usr/bin/env python3
"""Checks a certificate apart from the program: python3 docs/certificate.py TABLE CIRCUIT CERTIFICATE

Without CERTIFICATE it prints the one that it worked out.

It reads the table (TOML), the nodes of the circuit, and the certificate, works out the cost and the bounds of every choice
by the rules in docs/FORMATS.md, and compares the certificate with what it worked out, line by line. Where the certificate
has a chosen choice, the circuit's parameters must be that choice's. It needs nothing but the standard library."""
import sys
import tomllib

CAP = 2**64
MOST_KEY_WORDS = 2**25


def read_circuit(text):
    """The width, the four parameter lines, and the operations of a circuit text."""
    lines = text.splitlines()
    width = int(lines[1].split()[1])
    params = [[int(word) for word in line.split()[1:]] for line in lines[2:6]]
    operations = []
    for line in lines[6:-1]:
        words = line.split()
        if words[0] == "out":
            operations.append(("out", int(words[1][1:])))
        elif words[2] == "input":
            operations.append(("input",))
        elif words[2] == "lin":
            rest = words[4:]
            terms = [(int(rest[at + 1][1:]), int(rest[at])) for at in range(0, len(rest), 2)]
            operations.append(("lin", terms))
        elif words[2] == "switch":
            operations.append(("switch", int(words[3][1:])))
        elif words[2] == "boot":
            operations.append(("boot", int(words[3][1:])))
    return width, params, operations


def read_table(data):
    """The weights of a cost and the four lists of a table."""
    table = tomllib.loads(data)
    weights = [table["cost"][name] for name in ("switch", "boot", "lin")]
    fields = {
        "glwe": ("k", "log_n", "ones", "error"),
        "lwe": ("n", "ones", "error"),
        "boot": ("base", "level"),
        "switch": ("base", "level"),
    }
    lists = [[[entry[field] for field in names] for entry in table[name]] for name, names in fields.items()]
    return weights, lists


def counts_of(operations):
    """The key switches, the bootstraps, and the weights that are not 0."""
    switches = sum(op[0] == "switch" for op in operations)
    boots = sum(op[0] == "boot" for op in operations)
    weights = sum(weight != 0 for op in operations if op[0] == "lin" for _, weight in op[1])
    return switches, boots, weights


def key_words(glwe, lwe, boot, switch):
    """The words of the switch key and of the boot key."""
    k, log_n, _, _ = glwe
    dimension = k * 2**log_n
    return dimension * switch[1] * (lwe[0] + 1), lwe[0] * (k + 1) ** 2 * boot[1] * 2**log_n


def cost_of(params, weights, counts):
    """A switch passes over its key, a boot log_n times over its own, a weight over a big ciphertext."""
    glwe, _, _, _ = params
    switch_words, boot_words = key_words(*params)
    per_unit = (switch_words, boot_words * glwe[1], glwe[0] * 2 ** glwe[1] + 1)
    return sum(weight * count * words for weight, count, words in zip(weights, counts, per_unit))


def bounds_of(params, operations):
    """How far the ciphertext of each operation may be off, in parts of 2^64."""
    (k, log_n, ones, error), (n, small_ones, small_error), (base_b, level_b), (base_s, level_s) = params
    size = 2**log_n
    dimension = k * size
    switch_adds = dimension * level_s * 2 ** (base_s - 1) * small_error + ones * 2 ** (63 - base_s * level_s)
    product = (k + 1) * level_b * size * 2 ** (base_b - 1) * error
    boot_gives = n * product + small_ones * (1 + ones) * 2 ** (63 - base_b * level_b)
    bounds = []
    for op in operations:
        if op[0] == "input":
            bounds.append(error)
        elif op[0] == "lin":
            bounds.append(sum(abs(weight) * bounds[source] for source, weight in op[1]))
        elif op[0] == "switch":
            bounds.append(bounds[op[1]] + switch_adds)
        elif op[0] == "boot":
            bounds.append(boot_gives)
        else:
            bounds.append(bounds[op[1]])
    return bounds


def constraints_of(params, width, operations, bounds):
    """Each constraint: its place, its bound, its limit, and whether it is met."""
    limit = 2 ** (62 - width)
    found = []
    if any(op[0] == "boot" for op in operations):
        words = sum(key_words(*params))
        found.append(("size", words, MOST_KEY_WORDS, words <= MOST_KEY_WORDS))
    switched = (1 + params[1][1]) * 2 ** (62 - params[0][1])
    totals = [bounds[op[1]] + switched for op in operations if op[0] == "boot"]
    found += [(f"boot {at}", total, limit, total < limit) for at, total in enumerate(totals)]
    results = [bounds[op[1]] for op in operations if op[0] == "out"]
    found += [(f"result {at}", bound, limit, bound < limit) for at, bound in enumerate(results)]
    return found


def constraint_line(constraint):
    """A constraint as a certificate has it."""
    at, bound, limit, _ = constraint
    return f"{at} {min(bound, CAP)} {limit}"


def certificate_of(weights, lists, width, operations):
    """The lines of the certificate, and the chosen parameters if there are any."""
    counts = counts_of(operations)
    choices = []
    for g, glwe in enumerate(lists[0]):
        for l, lwe in enumerate(lists[1]):
            for b, boot in enumerate(lists[2]):
                for s, switch in enumerate(lists[3]):
                    params = (glwe, lwe, boot, switch)
                    choices.append((cost_of(params, weights, counts), (g, l, b, s), params))
    choices.sort(key=lambda choice: (choice[0], choice[1]))
    lines = [
        "fhec certificate 1",
        "weights {} {} {}".format(*weights),
        "shape {} {} {}".format(*counts),
        f"width {width}",
    ]
    for cost, places, params in choices:
        bounds = bounds_of(params, operations)
        constraints = constraints_of(params, width, operations, bounds)
        named = "{} {} {} {} cost {}".format(*places, cost)
        broken = next((constraint for constraint in constraints if not constraint[3]), None)
        if broken is not None:
            lines.append(f"refused {named} {constraint_line(broken)}")
            continue
        lines.append(f"chosen {named}")
        lines += [constraint_line(c) for c in constraints if c[0] == "size"]
        nodes = [(at, bound) for at, (op, bound) in enumerate(zip(operations, bounds)) if op[0] != "out"]
        lines += [f"node {at} {min(bound, CAP)}" for at, bound in nodes]
        lines += [constraint_line(c) for c in constraints if c[0] != "size"]
        return lines + ["end"], params
    return lines + ["none", "end"], None


def main():
    table, circuit = (open(name, encoding="utf-8").read() for name in sys.argv[1:3])
    weights, lists = read_table(table)
    width, params, operations = read_circuit(circuit)
    lines, chosen = certificate_of(weights, lists, width, operations)
    if chosen is not None and [list(part) for part in chosen] != params:
        sys.exit("the circuit has other parameters than the chosen choice")
    if len(sys.argv) < 4:
        print("\n".join(lines))
        return
    found = open(sys.argv[3], encoding="utf-8").read().split("\n")
    for at, (line, want) in enumerate(zip(found + [None], lines + [""]), start=1):
        if line != want:
            sys.exit(f"line {at}: {line!r}, and not {want!r}")
    if found != lines + [""]:
        sys.exit(f"line {len(lines) + 1}: more than a certificate")
    print(f"the certificate is right: {sum(line.startswith('refused') for line in lines)} refused, "
          + ("one chosen" if chosen is not None else "none chosen"))


main()
