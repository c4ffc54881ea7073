#!/usr/bin/env python3
"""Derives the constants of the logarithm and the exponential of the crate `elementary`, and prints each by value and by bits.

    python3 tools/derive_elementary.py        (needs mpmath; takes some seconds)

ln (1 + f) = f - f^2 / 2 + f^3 * P (f)    for -1/3 <= f <= 1/3
e^r        = 1 + r + r^2 * Q (r)          for -ln 2 / 2 <= r <= ln 2 / 2

1. Remez' exchange, at 60 digits, gives the polynomial whose largest error, relative to the result, is least.
2. Its coefficients are rounded to f32.
3. A search around them: one or two coefficients at a time are moved by up to two units in the last place, as long as
   the largest relative error falls. (The rounding of one coefficient is made good by another's.)
4. The largest error of what is left is worked out anew at 60 digits, and printed beside that of the unrounded polynomial.

The routines work in f32, so these errors, a tenth of a unit in the last place, are the smaller part of theirs:
tools/sweep measures the whole."""
import struct
from mpmath import mp, mpf, log, exp, lu_solve, matrix, pi, cos

mp.dps = 60


def bits(x):
    return struct.unpack("<I", struct.pack("<f", x))[0]


def unbits(u):
    return struct.unpack("<f", struct.pack("<I", u))[0]


def nearest(x):
    """The f32 nearest to the mpf x."""
    near = struct.unpack("<f", struct.pack("<f", float(x)))[0]
    return min((unbits(bits(near) + k) for k in (-1, 0, 1)), key=lambda v: abs(mpf(v) - x))


def step(c, k):
    """c moved by k units in the last place."""
    return unbits(bits(c) + k)


def poly(c, x):
    s = mpf(0)
    for a in reversed(c):
        s = s * x + a
    return s


def remez(target, weight, lo, hi, terms):
    """The coefficients c with the least largest |weight * (target - sum c_j x^j)|, and that largest error."""
    mid, half = (lo + hi) / 2, (hi - lo) / 2
    points = [mid - half * cos(pi * i / terms) for i in range(terms + 1)]
    for _ in range(30):
        a, b = matrix(terms + 1, terms + 1), matrix(terms + 1, 1)
        for i, x in enumerate(points):
            for j in range(terms):
                a[i, j] = x**j
            a[i, terms] = (-1) ** i / weight(x)
            b[i] = target(x)
        solution = lu_solve(a, b)
        c, level = [solution[j] for j in range(terms)], abs(solution[terms])
        error = lambda x: weight(x) * (target(x) - poly(c, x))
        # one extreme in each run of equal sign
        grid = [mid - half * cos(pi * i / 600) for i in range(601)]
        values = [error(x) for x in grid]
        runs = []
        for x, e in zip(grid, values):
            if e == 0:
                continue
            if runs and (runs[-1][1] > 0) == (e > 0):
                if abs(e) > abs(runs[-1][1]):
                    runs[-1] = (x, e)
            else:
                runs.append((x, e))
        while len(runs) > terms + 1:
            runs.pop(0 if abs(runs[0][1]) < abs(runs[-1][1]) else -1)
        assert len(runs) == terms + 1, "no alternation"
        points = [x for x, _ in runs]
        if max(abs(e) for _, e in runs) < level * (1 + mpf(10) ** -4):
            break
    return c, level


def largest(c, target, weight, lo, hi, n=4000):
    return max(abs(weight(x) * (target(x) - poly(c, x))) for x in (lo + (hi - lo) * i / n for i in range(n + 1)))


def rounded(c, target, weight, lo, hi):
    """Coefficients in f32, near to c."""
    n = 600
    grid = [lo + (hi - lo) * (i + mpf(1) / 2) / n for i in range(n)]
    w = [float(weight(x)) for x in grid]
    columns = [[float(x**j) * w[i] for i, x in enumerate(grid)] for j in range(len(c))]
    f = [nearest(v) for v in c]
    errors = [float(weight(x) * (target(x) - poly([mpf(v) for v in f], x))) for x in grid]
    worst = max(map(abs, errors))
    moves = [(j, k) for j in range(len(c)) for k in (-2, -1, 1, 2)]
    shift = lambda j, k: step(f[j], k) - f[j]
    while True:
        best = None
        for p, (j, k) in enumerate(moves):
            one = [e - shift(j, k) * t for e, t in zip(errors, columns[j])]
            for other in [None] + [m for m in moves[p + 1:] if m[0] != j]:
                if other is None:
                    two = one
                else:
                    s, t = shift(*other), columns[other[0]]
                    # cut short: most pairs are worse at once
                    if max(abs(one[i] - s * t[i]) for i in (0, 40, 150, 300, 450, 560, n - 1)) >= worst:
                        continue
                    two = [e - s * v for e, v in zip(one, t)]
                size = max(map(abs, two))
                if size < worst * 0.9999 and (best is None or size < best[0]):
                    best = (size, two, [(j, k)] + ([other] if other else []))
        if best is None:
            return f
        worst, errors = best[0], best[1]
        for j, k in best[2]:
            f[j] = step(f[j], k)


def show(name, value):
    value = float(value)
    print(f"    {name:6} {value!r:28} 0x{bits(value):08x}")


def unit(e):
    return mp.nstr(e * 2**24, 3)


def polynomial(name, letter, target, weight, lo, hi, terms):
    real, level = remez(target, weight, lo, hi, terms)
    f = rounded(real, target, weight, lo, hi)
    error = largest([mpf(v) for v in f], target, weight, lo, hi)
    print(f"{name}: {terms} coefficients; largest relative error, times 2^24: {unit(level)} unrounded, {unit(error)} in f32")
    for j, v in enumerate(f):
        show(f"{letter}{j}", v)


# ln 2 in two parts. The high one is a multiple of 2^-14, so that its product with a whole number below 1,024 is exact.
ln2 = log(mpf(2))
high = mp.nint(ln2 * 2**14) / 2**14
print("ln 2 = high + low, high the multiple of 2^-14 nearest to it, low the rest rounded to f32")
show("high", high)
show("low", nearest(ln2 - high))
print("1 / ln 2")
show("", nearest(1 / ln2))
print("the least significand of the logarithm: 2/3")
show("", nearest(mpf(2) / 3))


def near_zero(f, series, x):
    """f (x), or its series where f would lose its digits."""
    return f(x) if abs(x) > mpf(10) ** -12 else series[0] + series[1] * x


third = mpf(1) / 3
polynomial(
    "ln (1 + f) = f - f^2 / 2 + f^3 * P (f)",
    "p",
    lambda x: near_zero(lambda y: (log(1 + y) - y + y**2 / 2) / y**3, (third, -mpf(1) / 4), x),
    lambda x: near_zero(lambda y: abs(y**3 / log(1 + y)), (mpf(10) ** -24, 0), x),
    -third, third, 8,
)
polynomial(
    "e^r = 1 + r + r^2 * Q (r)",
    "q",
    lambda x: near_zero(lambda y: (exp(y) - 1 - y) / y**2, (mpf(1) / 2, mpf(1) / 6), x),
    lambda x: near_zero(lambda y: y**2 / exp(y), (mpf(10) ** -24, 0), x),
    -ln2 / 2, ln2 / 2, 5,
)
