#!/usr/bin/env python3
"""One block of the golden code, and what the program goldtrace must print of it.

The block is made here, from a random channel to raw words, and decoded here too, by other code than the
program's: so what the program writes is compared with a text that it did not write itself.

    tools/sample.py                  the text
    tools/sample.py --check FILE     compare FILE with the text
    tools/sample.py --words          the raw words, as they stand in crates/goldtrace/src/sample.rt
"""
import cmath
import itertools
import math
import random
import sys

SEED = 2
EXTRA_BITS = 4
SCALE = 256  # a channel entry of 1 becomes 256 after rounding
NOISE = 0.1  # the noise's standard deviation, against a channel whose entries have 1
SIDE = [-3, -1, 1, 3]  # PAM of size 4; the 16-QAM of the symbols is its grid
POINTS = [(re, im) for re in SIDE for im in SIDE]
LEVELS = 4


def rayleigh(rng):
    """A complex Gaussian of variance 1."""
    return cmath.rect(math.sqrt(-math.log(1 - rng.random())), 2 * math.pi * rng.random())


def generator(h):
    """The columns of G, with vec(H·X) = G·s for the codeword matrix X of the symbols s_1 to s_4."""
    theta = (1 + math.sqrt(5)) / 2
    thetab = 1 - theta
    alpha = 1 + 1j - 1j * theta
    alphab = 1 + 1j - 1j * thetab

    def sent(s1, s2, s3, s4):
        x = [[alpha * (s1 + s2 * theta), alpha * (s3 + s4 * theta)],
             [1j * alphab * (s3 + s4 * thetab), alphab * (s1 + s2 * thetab)]]
        return [sum(h[i][k] * x[k][j] for k in range(2)) / math.sqrt(5) for j in range(2) for i in range(2)]

    return [sent(1, 0, 0, 0), sent(0, 1, 0, 0), sent(0, 0, 1, 0), sent(0, 0, 0, 1)]


def inner(u, v):
    return sum(a.conjugate() * b for a, b in zip(u, v))


def reduced(columns):
    """Gram-Schmidt: the columns of Q, and the rows of R from the diagonal on, which is real and not negative."""
    q, rows = [], []
    while columns:
        gain = math.sqrt(inner(columns[0], columns[0]).real)
        q.append([a / gain for a in columns[0]])
        rows.append([complex(gain)] + [inner(q[-1], column) for column in columns[1:]])
        columns = [[a - r * b for a, b in zip(column, q[-1])] for column, r in zip(columns[1:], rows[-1][1:])]
    return q, rows


def make_words():
    """The raw channel and received words, and the indices that were sent, s_1 first."""
    rng = random.Random(SEED)
    h = [[rayleigh(rng) for _ in range(2)] for _ in range(2)]
    sent = [rng.randrange(len(POINTS)) for _ in range(LEVELS)]
    columns = generator(h)
    s = [complex(*POINTS[index]) for index in sent]
    y = [sum(column[k] * s_j for column, s_j in zip(columns, s)) + NOISE * rayleigh(rng) for k in range(LEVELS)]
    q, rows = reduced(columns)

    def raw(values):
        return [round(2 ** EXTRA_BITS * SCALE * part) for value in values for part in (value.real, value.imag)]

    channel = []
    for gain, *others in rows:
        channel += raw([gain])[:1] + raw(others)
    # In this order of the symbols the columns of s_1 and s_2 have a real inner product, and so have those of s_3 and
    # s_4 once s_1 and s_2 are taken out: r_12 and r_34 are real, and their imaginary words are 0.
    assert channel[2] == 0 and channel[14] == 0
    return channel, raw(inner(unit, y) for unit in q), sent


def rounded(words):
    return [(word + 2 ** (EXTRA_BITS - 1)) // 2 ** EXTRA_BITS for word in words]


def by_rows(channel):
    return [channel[0:7], channel[7:12], channel[12:15], channel[15:16]]


def pairs(words):
    return list(zip(words[0::2], words[1::2]))


def distance(matrix, z, indices):  # s_1 first
    total = 0
    for level, row in enumerate(matrix):
        re, im = z[level]
        for (a, b), index in zip(row, indices[level:]):
            c, d = POINTS[index]
            re, im = re - (a * c - b * d), im - (a * d + b * c)
        total += re * re + im * im
    return total


def nearest(matrix, z):
    """The least distance and its codeword, from s_4 down to s_1; of equals, the earliest in this order."""
    words = itertools.product(range(len(POINTS)), repeat=LEVELS)
    return min((distance(matrix, z, word[::-1]), word) for word in words)


def shown(value):
    return f"{value[0]}{value[1]:+}i"


def word_lines(channel, received):
    lists = [(f"row {n}", row) for n, row in enumerate(by_rows(channel), 1)] + [("received", received)]
    return [f"  {name:<8}" + "".join(f"{word:>7}" for word in words) for name, words in lists]


def level_line(n, row, value):
    couplings = "".join(f", r_{n}{j} = {shown(entry)}" for j, entry in enumerate(row[1:], n + 1))
    return f"  level {n}: r_{n}{n} = {row[0][0]}{couplings}, z_{n} = {shown(value)}"


def trace(channel, received):
    """The text, and the indices of the nearest codeword, s_1 first."""
    lines = [f"Raw words, with {EXTRA_BITS} extra bits"] + word_lines(channel, received)
    channel, received = rounded(channel), rounded(received)
    lines += ["", "Words after rounding"] + word_lines(channel, received)
    matrix = [[(row[0], 0)] + pairs(row[1:]) for row in by_rows(channel)]
    z = pairs(received)
    lines += ["", "Levels: gain, couplings to the levels above, received value"]
    lines += [level_line(n, matrix[n - 1], z[n - 1]) for n in (4, 3, 2, 1)]
    least, word = nearest(matrix, z)
    lines += ["", f"Nearest of {len(POINTS) ** LEVELS} codewords"]
    lines += [f"  s_{n}: index {index:>2}, point {shown(POINTS[index])}" for n, index in zip((4, 3, 2, 1), word)]
    return "\n".join(lines + [f"  distance {least}", ""]), list(word[::-1])


channel_words, received_words, sent_indices = make_words()
output, decided = trace(channel_words, received_words)
assert decided == sent_indices, "the noise is small"
if sys.argv[1:2] == ["--check"]:
    with open(sys.argv[2], encoding="utf-8") as file:
        sys.exit(None if file.read() == output else f"{sys.argv[2]} differs")
if sys.argv[1:] == ["--words"]:
    output = f"pub const CHANNEL: [i32; 16] = {channel_words};\npub const RECEIVED: [i32; 8] = {received_words};\n"
print(output, end="")
