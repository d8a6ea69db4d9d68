#!/usr/bin/env python3
"""expected.py STREAM: what the stream must have, worked out beside the tool, by whole numbers of any size."""
import sys

here = sys.path[0]


def wrapped(number, kind):
    """The number of the type that differs from this one by a multiple of 2 to the power of its width."""
    width = int(kind[3:])
    least = -2 ** (width - 1) if kind.startswith("Int") else 0
    return (number - least) % 2**width + least


def quotient(a, b):
    return abs(a) // abs(b) * (1 if (a < 0) == (b < 0) else -1)


EXACT = {
    "+": lambda a, b: a + b, "-": lambda a, b: a - b, "*": lambda a, b: a * b, "neg": lambda a, b: -a,
    "div": quotient, "mod": lambda a, b: a - quotient(a, b) * b,
}
TESTS = {
    "==": lambda a, b: a == b, "/=": lambda a, b: a != b, "<": lambda a, b: a < b, "<=": lambda a, b: a <= b,
    ">": lambda a, b: a > b, ">=": lambda a, b: a >= b, "not ==": lambda a, b: a != b,
}

# Worked by hand: the type, the left operand, the operation, the right operand, and what it gives.
BY_HAND = """
Int1 -1 + -1 = 0
Int8 -128 + -1 = 127
Int32 2147483647 + 1 = -2147483648
Int63 -4611686018427387904 + -1 = 4611686018427387903
Int64 9223372036854775807 + 1 = -9223372036854775808
Int8 127 - -1 = -128
Int64 -9223372036854775808 - 1 = 9223372036854775807
Int8 -128 * -1 = -128
Int32 65536 * 65536 = 0
Int64 -9223372036854775808 * -1 = -9223372036854775808
Int32 -7 div 4 = -1
Int32 7 div 4 = 1
Int8 127 div -1 = -127
Int8 -128 div -1 = -128
Int64 -9223372036854775808 div -1 = -9223372036854775808
Int32 -7 mod 4 = -3
Int32 7 mod -4 = 3
Int64 -9223372036854775808 mod -1 = 0
Int8 -1 == -1 = True
Int8 -1 /= -1 = False
Int64 -9223372036854775808 < 9223372036854775807 = True
Int8 -128 <= -128 = True
Int64 -9223372036854775808 > 9223372036854775807 = False
Int8 -1 >= 0 = False
Int8 127 neg -1 = -127
Int8 -128 neg -1 = -128
Int64 -9223372036854775808 neg -1 = -9223372036854775808
Nat1 1 + 1 = 0
Nat8 255 + 1 = 0
Nat64 18446744073709551615 + 1 = 0
Nat8 0 - 1 = 255
Nat64 0 - 1 = 18446744073709551615
Nat32 4294967295 * 4294967295 = 1
Nat64 18446744073709551615 * 18446744073709551615 = 1
Nat64 18446744073709551615 div 2 = 9223372036854775807
Nat64 18446744073709551615 mod 16 = 15
Nat64 0 < 18446744073709551615 = True
Nat64 18446744073709551615 <= 0 = False
Nat64 18446744073709551615 > 0 = True
Nat1 1 >= 1 = True
Nat8 1 neg 1 = 255
"""

pairs = [(kind, int(a), int(b)) for kind, a, b in (line.split() for line in open(f"{here}/pairs"))]
for row in BY_HAND.split("\n")[1:-1]:
    kind, a, name, b, _, given = row.split()
    a, b = int(a), int(b)
    found = TESTS[name](a, b) if name in TESTS else wrapped(EXACT[name](a, b), kind)
    assert str(found) == given and (kind, a, b) in pairs, row


def both(kind, a, b, first, second):
    """The pair of what two operations give."""
    return f"{kind} {wrapped(EXACT[first](a, b), kind)} {wrapped(EXACT[second](a, b), kind)}"


def divided(kind, a, b, name):
    """The pair of what the operation gives and the divisor."""
    return f"{kind} {wrapped(EXACT[name](a, b), kind)} {b}" if b else "ByZero"


streams = {
    "sums": [both(*pair, "+", "-") for pair in pairs],
    "products": [both(*pair, "*", "neg") for pair in pairs],
    "quotients": [divided(*pair, "div") for pair in pairs],
    "rests": [divided(*pair, "mod") for pair in pairs],
    "tests": [f"<<{', '.join(str(test(a, b)).lower() for test in TESTS.values())}>>" for _, a, b in pairs],
}
sys.stdout.writelines(f"{value}\n" for value in streams[sys.argv[1]])
