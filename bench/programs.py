#!/usr/bin/env python3
"""Prints a program for the scripts that time: python3 bench/programs.py KIND NUMBER

`chain NUMBER` is a chain of so many look-ups, each on the sum of the two before it. `weights NUMBER` has 288 leaves, 32
arguments and 256 look-ups, which are summed, and NUMBER statements more, each of which has a weight on every leaf: 3495 of
them come to 2^20 weights less some. `table CHOICES` is a table of so many entries in each of its four lists."""
import sys

SMALL, LARGE = "!FHE.eint<3>", "!FHE.eint<16>"


def chain(number):
    def value(at):
        return f"%x{at}" if at > 0 else ("%b" if at == 0 else "%a")

    argument = f"{SMALL} {{fhec.range = [0, 3]}}"
    lines = [f"func.func @main(%a: {argument}, %b: {argument}) -> {SMALL} {{"]
    for turn in range(4):
        entries = [(place + turn) % 4 for place in range(8)]
        lines.append(f"  %t{turn} = arith.constant dense<{entries}> : tensor<8xi64>")
    for at in range(1, number + 1):
        lines.append(f'  %s{at} = "FHE.add_eint"({value(at - 1)}, {value(at - 2)}) : ({SMALL}, {SMALL}) -> {SMALL}')
        lines.append(f'  %x{at} = "FHE.apply_lookup_table"(%s{at}, %t{at % 4}) : ({SMALL}, tensor<8xi64>) -> {SMALL}')
    return lines + [f"  return %x{number} : {SMALL}", "}"]


def weights(number):
    bits = "!FHE.eint<2>"
    plain = [f"%p{at}: {LARGE} {{fhec.range = [0, 1]}}" for at in range(32)]
    looked = [f"%q{at}: {bits}" for at in range(32)]
    lines = [f"func.func @main({', '.join(plain + looked)}) -> {LARGE} {{"]
    for table in range(8):
        entries = [(place * (table + 1)) % 9 for place in range(4)]
        lines.append(f"  %t{table} = arith.constant dense<{entries}> : tensor<4xi64>")
    leaves = [f"%p{at}" for at in range(32)]
    for table in range(8):
        for at in range(32):
            leaves.append(f"%l{table * 32 + at}")
            lines.append(f'  {leaves[-1]} = "FHE.apply_lookup_table"(%q{at}, %t{table}) : ({bits}, tensor<4xi64>) -> {LARGE}')
    total = leaves[0]
    for at, leaf in enumerate(leaves[1:]):
        lines.append(f'  %s{at} = "FHE.add_eint"({total}, {leaf}) : ({LARGE}, {LARGE}) -> {LARGE}')
        total = f"%s{at}"
    lines.append("  %one = arith.constant 1 : i2")
    for at in range(number):
        lines.append(f'  %m{at} = "FHE.add_eint_int"({total}, %one) : ({LARGE}, i2) -> {LARGE}')
        total = f"%m{at}"
    return lines + [f"  return {total} : {LARGE}", "}"]


def table(entries):
    lines = ["[cost]", "switch = 1", "boot = 1", "lin = 1"]
    lists = {
        "glwe": [("k", 1), ("log_n", 4), ("ones", 4), ("error", 1024)],
        "lwe": [("n", 8), ("ones", 2), ("error", 1048576)],
        "boot": [("base", 8), ("level", 4)],
        "switch": [("base", 4), ("level", 6)],
    }
    for name, fields in lists.items():
        for at in range(entries):
            lines += ["", f"[[{name}]]"]
            last = at == entries - 1
            for field, value in fields:
                if field == "log_n" and last:
                    value = 7
                if field == "n":
                    value += at
                lines.append(f"{field} = {value}")
    return lines


print("\n".join({"chain": chain, "weights": weights, "table": table}[sys.argv[1]](int(sys.argv[2]))))
