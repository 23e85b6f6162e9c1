#!/usr/bin/env python3
"""Values of the operators of SMT-LIB 2.6, worked out with unbounded integers from the equations of the standard.

The equations are those of the theories Core, Ints and FixedSizeBitVectors and of the logic QF_BV: division of whole
numbers by m = n * q + r and 0 <= r < |n|, signed division through unsigned division of magnitudes, shifts as products
and quotients, extraction, extension and concatenation bit by bit, rotation by one place many times over. Nothing here
was taken from the program. The output is the tables in crates/smt_values/src/apply/tests.rt:

    python3 bench/operator_values.py
"""

LIMIT = 2 ** 127 - 1

# first operand, second operand
FOUR = [(0x7, 0x3), (0x9, 0x3), (0x7, 0xD), (0x9, 0xD), (0x8, 0x3), (0x8, 0xF), (0x7, 0x0), (0x9, 0x0)]
# carries, the least number by -1, shifts by 15 and 16, division by zero
SIXTEEN = [(0xFFFF, 0x0001), (0x8000, 0xFFFF), (0x7FFF, 0x7FFF), (0x8001, 0x000F), (0x8001, 0x0010), (0x0005, 0x0000)]
# the same, and shifts by 127 and 128
WIDE = [(2 ** 127, 2 ** 128 - 1), (2 ** 128 - 1, 2 ** 128 - 1), (2 ** 127 - 1, 2), (2 ** 127 + 1, 127), (2 ** 127 + 1, 128), (2 ** 127, 0)]


def signed(w, x):
    return x - 2 ** w if x >= 2 ** (w - 1) else x


def bvneg(w, x):
    return (2 ** w - x) % 2 ** w


def bvudiv(w, s, t):
    return 2 ** w - 1 if t == 0 else s // t


def bvurem(w, s, t):
    return s if t == 0 else s % t


def negative(w, x):
    return x >= 2 ** (w - 1)


def magnitude(w, x):
    return bvneg(w, x) if negative(w, x) else x


def bvsdiv(w, s, t):
    quotient = bvudiv(w, magnitude(w, s), magnitude(w, t))
    return bvneg(w, quotient) if negative(w, s) != negative(w, t) else quotient


def bvsrem(w, s, t):
    rest = bvurem(w, magnitude(w, s), magnitude(w, t))
    return bvneg(w, rest) if negative(w, s) else rest


def bvsmod(w, s, t):
    rest = bvurem(w, magnitude(w, s), magnitude(w, t))
    if rest == 0:
        return 0
    if not negative(w, s) and not negative(w, t):
        return rest
    if negative(w, s) and not negative(w, t):
        return (bvneg(w, rest) + t) % 2 ** w
    if not negative(w, s) and negative(w, t):
        return (rest + t) % 2 ** w
    return bvneg(w, rest)


def bvlshr(w, s, t):
    return s // 2 ** t if t < w else 0


def bvashr(w, s, t):
    ones = 2 ** w - 1
    return ones - bvlshr(w, ones - s, t) if negative(w, s) else bvlshr(w, s, t)


PAIRS = [
    ("BvAnd", lambda w, s, t: s & t),
    ("BvOr", lambda w, s, t: s | t),
    ("BvXor", lambda w, s, t: s ^ t),
    ("BvAdd", lambda w, s, t: (s + t) % 2 ** w),
    ("BvMul", lambda w, s, t: (s * t) % 2 ** w),
    ("BvSub", lambda w, s, t: (s + bvneg(w, t)) % 2 ** w),
    ("BvUdiv", bvudiv),
    ("BvUrem", bvurem),
    ("BvSdiv", bvsdiv),
    ("BvSrem", bvsrem),
    ("BvSmod", bvsmod),
    ("BvShl", lambda w, s, t: (s * 2 ** t) % 2 ** w if t < w else 0),
    ("BvLshr", bvlshr),
    ("BvAshr", bvashr),
    ("BvComp", lambda w, s, t: int(s == t)),
    ("BvUlt", lambda w, s, t: int(s < t)),
    ("BvUle", lambda w, s, t: int(s <= t)),
    ("BvSlt", lambda w, s, t: int(signed(w, s) < signed(w, t))),
    ("BvSle", lambda w, s, t: int(signed(w, s) <= signed(w, t))),
]

# sums and products that leave the range and come back, or stay outside
SEVERAL = [
    ("Add", (LIMIT, 1, -1)), ("Add", (LIMIT, LIMIT, -LIMIT)), ("Add", (-LIMIT, -LIMIT, LIMIT)), ("Add", (LIMIT, 1, 0)), ("Add", (-LIMIT, -1, 0)),
    ("Add", (LIMIT, LIMIT, LIMIT)), ("Add", (2, 3, -7)),
    ("Mul", (LIMIT, 1, -1)), ("Mul", (2 ** 63, 2 ** 64, 0)), ("Mul", (2 ** 63, 2 ** 64, 1)), ("Mul", (2 ** 63, -(2 ** 64), 1)), ("Mul", (LIMIT, LIMIT, 0)),
    ("Mul", (0, LIMIT, LIMIT)), ("Mul", (-3, -5, -7)),
]

WHOLES = [(7, 2), (-7, 2), (7, -2), (-7, -2), (LIMIT, -1), (-LIMIT, -1), (-LIMIT, LIMIT), (LIMIT, -LIMIT), (0, 5), (-1, LIMIT)]


def quotient(m, n):
    for q in (m // n - 1, m // n, m // n + 1):
        if 0 <= m - n * q < abs(n):
            return q


def whole(name, m, n):
    q = quotient(m, n)
    return {"Sub": m - n, "Div": q, "Mod": m - n * q, "Le": int(m <= n), "Lt": int(m < n)}[name]


def number(n):
    return ("-" if n < 0 else "") + str(abs(n))


def answer(n):
    return f"Some({number(n)})" if abs(n) <= LIMIT else "None"


def operands(name, items):
    print(f"const {name}: [(u128, u128); {len(items)}] = [{', '.join(f'({m}, {n})' for m, n in items)}];")


def values(width, f, items):
    return "[" + ", ".join(str(f(width, s, t)) for s, t in items) + "]"


# all ones, the highest bit, all but the highest, zero, one
def edges(w):
    return list(dict.fromkeys([2 ** w - 1, 2 ** (w - 1), 2 ** (w - 1) - 1, 0, 1]))


# a bit vector as the function from its places to bits, and back
def places(w, x):
    return [x // 2 ** i % 2 for i in range(w)]


def number_of(bits):
    return sum(bit * 2 ** i for i, bit in enumerate(bits))


def bvnot(w, x):
    return number_of([1 - bit for bit in places(w, x)])


def extract(w, x, high, low):
    return number_of([places(w, x)[low + i] for i in range(high - low + 1)])


def concat(v, s, w, t):
    low, high = places(w, t), places(v, s)
    return number_of([low[i] if i < w else high[i - w] for i in range(v + w)])


# ((_ rotate_left i) t) is ((_ rotate_left i-1) (concat ((_ extract m-2 0) t) ((_ extract m-1 m-1) t)))
def rotate_left(w, x, i):
    for _ in range(i):
        x = concat(w - 1, extract(w, x, w - 2, 0), 1, extract(w, x, w - 1, w - 1))
    return x


# ((_ rotate_right i) t) is ((_ rotate_right i-1) (concat ((_ extract 0 0) t) ((_ extract m-1 1) t)))
def rotate_right(w, x, i):
    for _ in range(i):
        x = concat(1, extract(w, x, 0, 0), w - 1, extract(w, x, w - 1, 1))
    return x


def zero_extend(w, x, i):
    return concat(i, 0, w, x)


def sign_extend(w, x, i):
    return concat(i, number_of([places(w, x)[w - 1]] * i), w, x)


# high, low, width of the operand
EXTRACTIONS = [(3, 3, 4), (0, 0, 4), (3, 0, 4), (2, 1, 4), (15, 15, 16), (0, 0, 16), (15, 0, 16), (15, 8, 16), (127, 127, 128), (0, 0, 128), (127, 0, 128), (127, 64, 128), (126, 0, 128)]
# places more, width of the operand
EXTENSIONS = [(0, 4), (12, 4), (0, 16), (112, 16), (127, 1), (0, 128), (1, 127)]
CONCATENATIONS = [
    ((1, 1), (3, 0)), ((1, 0), (3, 7)), ((2, 1), (2, 2)), ((8, 0x12), (8, 0x34)), ((15, 0), (1, 1)),
    ((1, 1), (127, 0)), ((1, 0), (127, 2 ** 127 - 1)), ((127, 2 ** 126), (1, 1)), ((64, 2 ** 64 - 1), (64, 0)), ((64, 1), (64, 2 ** 63)),
]

TRUTHS = [(a, b) for a in (False, True) for b in (False, True)]
TRIPLES = [(a, b, c) for a in (False, True) for b in (False, True) for c in (False, True)]
TRUTH_PAIRS = [
    ("And", lambda a, b: a and b), ("Or", lambda a, b: a or b), ("Xor", lambda a, b: a != b), ("Implies", lambda a, b: not a or b),
    ("Equal", lambda a, b: a == b), ("Distinct", lambda a, b: a != b),
]
TRUTH_TRIPLES = [
    ("And", lambda a, b, c: a and b and c), ("Or", lambda a, b, c: a or b or c), ("Distinct", lambda a, b, c: a != b and b != c and a != c),
    ("Ite", lambda a, b, c: b if a else c),
]
MAGNITUDES = [LIMIT, -LIMIT, 7, -7, 0]
DISTINCT_WHOLES = [(1, 2, 3), (1, 1, 2), (1, 2, 1), (2, 1, 1), (0, LIMIT, -LIMIT), (-LIMIT, 0, -LIMIT)]
EQUATIONS = [(LIMIT, LIMIT), (-LIMIT, -LIMIT), (LIMIT, -LIMIT), (0, 0)]
DISTINCT_WORDS = [
    [(4, 15), (4, 7), (4, 8)], [(4, 8), (4, 7), (4, 8)], [(16, 1), (16, 1), (16, 0)],
    [(128, 2 ** 128 - 1), (128, 2 ** 127), (128, 2 ** 127 - 1)], [(128, 0), (128, 2 ** 127), (128, 2 ** 127)],
]
CHOICES = [(LIMIT, -LIMIT), ((4, 15), (4, 0)), ((16, 2 ** 15), (16, 1)), ((128, 2 ** 128 - 1), (128, 2 ** 127))]
CONSTANTS = [True, False, 0, LIMIT, -LIMIT, (1, 1), (4, 15), (16, 2 ** 15), (128, 0), (128, 2 ** 127), (128, 2 ** 128 - 1)]


# a truth value, a whole number, or a width and a number
def scalar(x):
    if isinstance(x, bool):
        return f"Truth({truth(x)})"
    if isinstance(x, tuple):
        return f"Bits {{ width: {x[0]}, bits: {x[1]} }}"
    return f"Whole({number(x)})"


def row(op, args, value):
    print(f"row(&rt, Op::{op}, &[{', '.join('Scalar::' + scalar(x) for x in args)}], Scalar::{scalar(value)});")


def words(op, width, out, f):
    rows = ", ".join(f"({x}, {f(x)})" for x in edges(width))
    print(f"words(&rt, Op::{op}, {width}, {out}, &[{rows}]);")


def truth(b):
    return "true" if b else "false"


def truths(bs):
    return "[" + ", ".join(truth(b) for b in bs) + "]"


def tuples(rows):
    return "[" + ", ".join(f"({', '.join(truth(b) for b in bs)})" for bs in rows) + "]"


def print_words():
    for w in (4, 16, 128):
        words("BvNot", w, w, lambda x: bvnot(w, x))
        words("BvNeg", w, w, lambda x: bvneg(w, x))
    print()
    for w in (4, 16, 128):
        for i in (0, 1, w - 1):
            words(f"RotL({i})", w, w, lambda x: rotate_left(w, x, i))
            words(f"RotR({i})", w, w, lambda x: rotate_right(w, x, i))
    print()
    for i, w in EXTENSIONS:
        words(f"ZeroExt({i})", w, w + i, lambda x: zero_extend(w, x, i))
        words(f"SignExt({i})", w, w + i, lambda x: sign_extend(w, x, i))
    print()
    for high, low, w in EXTRACTIONS:
        words(f"Extract {{ high: {high}, low: {low} }}", w, high - low + 1, lambda x: extract(w, x, high, low))
    print()
    for (v, s), (w, t) in CONCATENATIONS:
        print(f"concatenation(&rt, ({v}, {s}), ({w}, {t}), ({v + w}, {concat(v, s, w, t)}));")
    print()


def print_core():
    for a in (False, True):
        row("Not", [a], not a)
    for name, f in TRUTH_PAIRS:
        print(f"truth_pairs(&rt, Op::{name}, {truths(f(a, b) for a, b in TRUTHS)});")
    print()
    for name, f in TRUTH_TRIPLES:
        print(f"truth_triples(&rt, Op::{name}, {truths(f(a, b, c) for a, b, c in TRIPLES)});")
    print()
    for name, f in (("Equal", lambda w, s, t: int(s == t)), ("Distinct", lambda w, s, t: int(s != t))):
        print(f"pairs(&rt, Op::{name}, {values(4, f, FOUR)}, {values(16, f, SIXTEEN)}, {values(128, f, WIDE)});")
    for l, m, n in DISTINCT_WHOLES:
        print(f"several(&rt, Op::Distinct, [{number(l)}, {number(m)}, {number(n)}], Some({int(l != m and m != n and l != n)}));")
    print()
    for name, f in (("Neg", lambda n: -n), ("Abs", lambda n: n if n >= 0 else -n)):
        for n in MAGNITUDES:
            row(name, [n], f(n))
    print()
    for m, n in EQUATIONS:
        row("Equal", [m, n], m == n)
        row("Distinct", [m, n], m != n)
    print()
    for scalars in DISTINCT_WORDS:
        row("Distinct", scalars, len(set(scalars)) == len(scalars))
    print()
    for yes, no in CHOICES:
        row("Ite", [True, yes, no], yes)
        row("Ite", [False, yes, no], no)
    print()
    for constant in CONSTANTS:
        row(scalar(constant), [], constant)


def main():
    operands("FOUR", FOUR)
    operands("SIXTEEN", SIXTEEN)
    operands("WIDE", WIDE)
    print(f"const WHOLES: [(i128, i128); {len(WHOLES)}] = [{', '.join(f'({number(m)}, {number(n)})' for m, n in WHOLES)}];")
    print(f"const TRUTHS: [(bool, bool); {len(TRUTHS)}] = {tuples(TRUTHS)};")
    print(f"const TRIPLES: [(bool, bool, bool); {len(TRIPLES)}] = {tuples(TRIPLES)};\n")
    for name, f in PAIRS:
        print(f"pairs(&rt, Op::{name}, {values(4, f, FOUR)}, {values(16, f, SIXTEEN)}, {values(128, f, WIDE)});")
    print()
    for name, args in SEVERAL:
        value = sum(args) if name == "Add" else args[0] * args[1] * args[2]
        print(f"several(&rt, Op::{name}, [{', '.join(number(n) for n in args)}], {answer(value)});")
    print()
    for name in ("Sub", "Div", "Mod", "Le", "Lt"):
        print(f"wholes(&rt, Op::{name}, [{', '.join(answer(whole(name, m, n)) for m, n in WHOLES)}]);")
    print()
    print_words()
    print_core()


main()
