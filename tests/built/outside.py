"""outside.py PROGRAM: whether the smoother with a list of transitions is Durbin and Koopman's, to 1e-9.

It makes models, each with another T in every period, and hands them to PROGRAM, which is outside.c over the library. Then it works out the same in
another way: the book's filter and fixed-interval smoother in their matrix form, a period's readings at once, the missing ones left out. There are no
elements one by one, no diffuse recursion and no test against a tolerance. What is unknown at the start gets a variance of 10^30, and all is worked
out with 160 digits: so the exact diffuse start is reached to some 30 digits. Nothing of the library's text is used here.

The book's L of period t has the T of t. It brings back into t what the periods from t + 1 on tell: it is the step from t + 1 to t. The smoothed means
are worked out once more with the T of t + 1 there, which is the T that document 01 names for that step. They must be far off in most models, or else
the comparison would tell nothing.
"""
import math
import random
import subprocess
import sys
from collections import namedtuple
from decimal import Context, Decimal as D, getcontext

getcontext().prec = 160
HUGE = D(10) ** 30
SETTLED = D(10) ** 10    # a covariance below this has nothing of HUGE in it
MODERATE = 1000          # one above this, and settled, is ill conditioned: of such models doubles don't hold 1e-9
MODELS = 300
BOUND = D(10) ** -9
FAR = D(10) ** -3
LN_2PI = Context(prec=40).ln(2 * D("3.14159265358979323846264338327950288419716939937510582097494459230781640628620899862803482534211706798"))


# ---- matrices, as lists of rows

def product(a, b):
    columns = list(zip(*b))
    return [[sum(map(D.__mul__, row, column), D(0)) for column in columns] for row in a]


def transposed(a):
    return [list(column) for column in zip(*a)]


def plus(a, b, sign=1):
    return [[x + sign * y for x, y in zip(row, other)] for row, other in zip(a, b)]


def minus(a, b):
    return plus(a, b, -1)


def identity(k):
    return [[D(int(i == j)) for j in range(k)] for i in range(k)]


def inverse_and_determinant(a):
    """By Gauss and Jordan. Each pivot of a positive matrix is above 0, in any order; the largest diagonal entry is the best."""
    k, work, determinant, left = len(a), [row + unit for row, unit in zip(a, identity(len(a)))], D(1), set(range(len(a)))
    while left:
        at = max(left, key=lambda i: work[i][i])
        left.remove(at)
        determinant *= work[at][at]
        work[at] = [x / work[at][at] for x in work[at]]
        for i in range(k):
            if i != at and work[i][at]:
                factor = work[i][at]
                work[i] = [x - factor * y for x, y in zip(work[i], work[at])]
    return [row[k:] for row in work], determinant


def largest(a):
    return max((abs(x) for row in a for x in row), default=D(0))


# ---- models

def make(rng):
    """Sizes and parts, as floats. `rng` gives a number from 0 up to 1."""
    def whole(low, high):
        return low + int(rng() * (high - low + 1))

    def numbers(rows, columns):
        return [[2 * rng() - 1 for _ in range(columns)] for _ in range(rows)]

    def diagonal(k, low, high):
        return [[low + (high - low) * rng() if i == j else 0.0 for j in range(k)] for i in range(k)]

    def transition(size):
        """Any matrix, made to have a spectral radius from 0.8 to 1.2: by Gelfand, the 16th root of the size of its 16th power."""
        power = one = numbers(size, size)
        for _ in range(4):
            power = [[math.fsum(x * y for x, y in zip(row, column)) for column in zip(*power)] for row in power]
        radius = max(max(abs(x) for row in power for x in row) ** (1 / 16), 0.05)
        factor = (0.8 + 0.4 * rng()) / radius
        return [[factor * x for x in row] for row in one]

    p, m, r, n = whole(1, 3), whole(1, 4), whole(1, 3), whole(2, 14)
    flags = [int(rng() < 0.5) for _ in range(m)] if rng() < 0.7 else [0] * m
    ts = [transition(m) for _ in range(n + (whole(1, 3) if rng() < 0.3 else 0))]
    # refusal 10: the first T, and it alone, must not lead from a flagged state into an unflagged one
    ts[0] = [[0.0 if flags[j] > flags[i] else x for j, x in enumerate(row)] for i, row in enumerate(ts[0])]
    listed = rng() < 0.5
    repeats = int(listed and rng() < 0.3)
    zs = [numbers(p, m) for _ in range((whole(1, n) if repeats else n + whole(0, 2)) if listed else 1)]
    h = diagonal(p, 0.2, 2.0)
    if rng() < 0.2:
        # one reading without noise: two could tell the same
        free = whole(0, p - 1)
        h[free][free] = 0.0
    root = numbers(m, m)
    start = [[0.0 if flags[i] or flags[j] else math.fsum(x * y for x, y in zip(root[i], root[j])) for j in range(m)] for i in range(m)]
    gaps = 0.4 * rng()
    y = [[math.nan if rng() < gaps else 10 * rng() - 5 for _ in range(p)] for _ in range(n)]
    return {
        "p": p, "m": m, "r": r, "n": n, "listed": listed, "repeats": repeats, "zs": zs, "h": h, "ts": ts, "rr": numbers(m, r),
        "q": diagonal(r, 0.1, 2.0), "c": numbers(1, m), "d": numbers(1, p), "a1": [[0.0 if flag else 4 * rng() - 2 for flag in flags]],
        "p_star": start, "flags": flags, "y": y,
    }


def as_text(k):
    sizes = [k["p"], k["m"], k["r"], k["n"], len(k["zs"]) if k["listed"] else 0, k["repeats"], len(k["ts"])]
    parts = [row for z in k["zs"] for row in z] + k["h"] + [row for t in k["ts"] for row in t]
    for name in ("rr", "q", "c", "d", "a1", "p_star"):
        parts += k[name]
    lines = [sizes] + [[x.hex() for x in row] for row in parts] + [k["flags"]] + [["nan" if x != x else x.hex() for x in row] for row in k["y"]]
    return "".join(" ".join(map(str, line)) + "\n" for line in lines)


# ---- the book

def exact(rows):
    return [[D(x) for x in row] for row in rows]


class Period:
    """What the filter leaves of a period: the predicted moments, the filtered ones, and for the way back Z'F^-1 v, Z'F^-1 Z and I - P Z'F^-1 Z. T
    times the last is the book's L."""


def forward(k):
    """The periods, the predicted moments after the last, and the log-likelihood. An unknown state takes ln HUGE / 2 from it, which is put back."""
    a, star, c = transposed(exact(k["a1"])), exact(k["p_star"]), transposed(exact(k["c"]))
    p = plus(star, [[HUGE if i == j and k["flags"][i] else D(0) for j in range(k["m"])] for i in range(k["m"])])
    noise = product(product(exact(k["rr"]), exact(k["q"])), transposed(exact(k["rr"])))
    designs, transitions, unit = list(map(exact, k["zs"])), list(map(exact, k["ts"])), identity(k["m"])
    ln, periods = Context(prec=40).ln, []
    loglik = sum(k["flags"]) * ln(HUGE) / 2
    for t, readings in enumerate(k["y"]):
        heard = [i for i, x in enumerate(readings) if x == x]
        z = [designs[min(t, len(designs) - 1)][i] for i in heard]
        at = Period()
        at.mean, at.cov = a, p
        at.u, at.info, at.keep = [[D(0)] for _ in a], [[D(0)] * k["m"] for _ in a], unit
        if heard:
            v = [[D(readings[i]) - D(k["d"][0][i]) - x] for i, (x,) in zip(heard, product(z, a))]
            f = plus(product(product(z, p), transposed(z)), [[D(k["h"][i][j]) for j in heard] for i in heard])
            f_inverse, determinant = inverse_and_determinant(f)
            zf = product(transposed(z), f_inverse)
            at.u, at.info = product(zf, v), product(zf, z)
            at.keep = minus(unit, product(p, at.info))
            square = product(product(transposed(v), f_inverse), v)[0][0]
            loglik -= (len(heard) * LN_2PI + ln(determinant) + square) / 2
        at.filt_mean, at.filt_cov = plus(a, product(p, at.u)), product(at.keep, p)
        periods.append(at)
        a = plus(product(transitions[t], at.filt_mean), c)
        p = plus(product(product(transitions[t], at.filt_cov), transposed(transitions[t])), noise)
    return periods, (a, p), loglik


def backward(k, periods, later):
    """The smoothed moments, by r and N. The step from t + 1 to t takes the T of t; with `later` 1 that of t + 1, and then the means are all."""
    transitions, back = list(map(exact, k["ts"])), []
    r, big_n = [[D(0)] for _ in range(k["m"])], [[D(0)] * k["m"] for _ in range(k["m"])]
    for t in reversed(range(k["n"])):
        at = periods[t]
        if t < k["n"] - 1:
            led = transposed(product(transitions[t + later], at.keep))
            r = product(led, r)
            if not later:
                big_n = product(product(led, big_n), transposed(led))
        r, big_n = plus(r, at.u), plus(big_n, at.info)
        cov = None if later else minus(at.cov, product(product(at.cov, big_n), at.cov))
        back.append((plus(at.mean, product(at.cov, r)), cov))
    return back[::-1]


Reckoned = namedtuple("Reckoned", "model periods after loglik back")


def reckoned(k):
    periods, after, loglik = forward(k)
    return Reckoned(k, periods, after, loglik, backward(k, periods, 0))


def good(by):
    """Whether all is settled in the end, and in hindsight, with no HUGE left in it, and what is settled is moderate."""
    in_the_end = [by.after[1]] + [cov for _, cov in by.back]
    on_the_way = [cov for at in by.periods for cov in (at.cov, at.filt_cov)]
    return all(largest(cov) < MODERATE for cov in in_the_end) and not any(MODERATE < largest(cov) < SETTLED for cov in on_the_way)


# ---- the comparison

class Comparison:
    def __init__(self):
        self.numbers, self.worst, self.wrong = 0, D(0), []

    def block(self, where, got, want):
        """To 1e-9 of the block's largest number, or of 1 where that is larger."""
        scale = max(largest(want), D(1))
        for g, w in zip(got, (x for row in want for x in row)):
            off = abs(D(g) - w) / scale if math.isfinite(g) else D("Infinity")
            self.numbers += 1
            self.worst = max(self.worst, off)
            if off > BOUND:
                self.wrong.append(f"{where}: {g!r}, and not {float(w)!r}")

    def count(self, where, got, want):
        if got != want:
            self.wrong.append(f"{where}: {got}, and not {want}")


def compare(which, by, said, to):
    """What the library has said of a model, word by word as outside.c prints it."""
    m, n, words = by.model["m"], by.model["n"], iter(said)
    to.block(f"{which}: log-likelihood", [float.fromhex(next(words))], [[by.loglik]])
    diffuse, heard, news = (int(next(words)) for _ in range(3))
    readings = sum(x == x for row in by.model["y"] for x in row)
    to.count(f"{which}: diffuse periods", diffuse, sum(largest(at.cov) > SETTLED for at in by.periods))
    to.count(f"{which}: heard", heard, readings)
    to.count(f"{which}: news", news, readings)
    predicted = [(at.mean, at.cov) for at in by.periods] + [by.after]
    filtered = [(at.filt_mean, at.filt_cov) for at in by.periods]
    for name, want in (("predicted", predicted), ("filtered", filtered), ("smoothed", by.back)):
        means = [[float.fromhex(next(words)) for _ in range(m)] for _ in want]
        covs = [[float.fromhex(next(words)) for _ in range(m * m)] for _ in want]
        for t, (mean, cov) in enumerate(want):
            # until all is settled, the library's covariance is the bounded part alone
            if largest(cov) < SETTLED:
                to.block(f"{which}: {name} mean {t} of {n}", means[t], mean)
                to.block(f"{which}: {name} covariance {t} of {n}", covs[t], cov)
    to.count(f"{which}: words left", sum(1 for _ in words), 0)


def far_off(by):
    """Whether the smoothed means by the T of t + 1 are far from the others, in a period that begins settled: there HUGE has no part in them."""
    other = backward(by.model, by.periods, 1)
    return any(largest(at.cov) < SETTLED and largest(minus(mean, wrong)) > FAR * max(largest(mean), D(1))
               for at, (mean, _), (wrong, _) in zip(by.periods, by.back, other))


def main():
    rng, models = random.Random(20261117).random, []
    while len(models) < MODELS:
        by = reckoned(make(rng))
        if good(by):
            models.append(by)
    text = f"{len(models)}\n" + "".join(as_text(by.model) for by in models)
    said = subprocess.run([sys.argv[1]], input=text, stdout=subprocess.PIPE, text=True, check=True).stdout.splitlines()
    if len(said) != len(models):
        sys.exit(f"{len(models)} models were handed over, and {len(said)} answered")
    to, answered, off = Comparison(), 0, 0
    for which, (line, by) in enumerate(zip(said, models)):
        refusal, *words = line.split()
        if refusal == "12":
            continue
        if refusal != "0":
            to.wrong.append(f"{which}: refused with {refusal}")
            continue
        answered += 1
        compare(which, by, words, to)
        off += far_off(by)
    for line in to.wrong[:20]:
        print("model " + line)
    if to.wrong:
        sys.exit(f"{len(to.wrong)} of {to.numbers} numbers are not those of an outside reckoning")
    if 2 * off < answered or 10 * answered < 9 * MODELS:
        sys.exit(f"of {MODELS} models {answered} were answered, and in {off} of them the T of t would be off: too few to tell anything")
    print(f"{answered} models with a list of T, {to.numbers} numbers within 1e-9 of an outside reckoning (the worst {to.worst:.1e});"
          f" by the T of t {off} models would be off")


main()
