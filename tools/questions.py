#!/usr/bin/env python3
"""What a question about rank costs, and what the program rankbench must print.

    tools/questions.py                  nanoseconds and instructions for each question, as a table, beside plain C
                                        (needs crates/rankbench/out/rankbench, which `rt run` there makes, gcc and valgrind)
    tools/questions.py --digests         what the program prints without arguments, computed here by a plain sort
    tools/questions.py --check FILE     compare FILE with that

The instructions are callgrind's: the difference of two runs with different counts, less what drawing the arguments takes.
tools/questions.c asks the same questions in plain C; its sums of 100,000 answers are compared with the program's.
"""
import re
import subprocess
import sys
import tempfile

PROGRAM = "crates/rankbench/out/rankbench"
SIZES = [2, 4, 8, 16]
RANKINGS = 64


def pam(size):
    return [(2 * i - (size - 1), 0) for i in range(size)]


def alphabets():
    """Name and points, in the program's order; a table has the points of the alphabet before it."""
    for size in SIZES:
        side = [value for value, _ in pam(size)]
        grid = [(re, im) for re in side for im in side]
        yield "pam", pam(size), False
        yield "grid", grid, True
        yield "whole-table", pam(size), False
        yield "pair-table", grid, True


def numbers():
    """The program's sequence of numbers below 2^24."""
    state = 1
    while True:
        state = (state * 1664525 + 1013904223) % 2 ** 32
        yield state >> 8


def digest(points, pairs):
    drawn, total = numbers(), 0
    for _ in range(RANKINGS):
        re, im, gain = next(drawn) % 16384 - 8192, next(drawn) % 16384 - 8192, next(drawn) % 2048
        im = im if pairs else 0
        amounts = [(re - gain * a) ** 2 + (im - gain * b) ** 2 for a, b in points]
        ranking = sorted(range(len(points)), key=lambda index: (amounts[index], index))
        total += sum(place * index for place, index in enumerate(ranking, 1))
    return total


def digests():
    return "".join(f"{name} {len(points)}: {RANKINGS} rankings, digest {digest(points, pairs)}\n"
                   for name, points, pairs in alphabets())


def instructions(program, question, name, size, times):
    command = ["valgrind", "--tool=callgrind", "--callgrind-out-file=/dev/null", program, question, name, size, str(times)]
    told = subprocess.run(command, capture_output=True, text=True, check=True).stderr
    return int(re.search(r"Collected\s*:\s*(\d+)", told).group(1))


def cost(program, question, name, size):
    few, many = 500, 2500
    run = [instructions(program, asked, name, size, times) for asked in (question, "nothing") for times in (many, few)]
    return round((run[0] - run[1] - run[2] + run[3]) / (many - few))


def answers(program, question, name, size):
    return subprocess.run([program, question, name, size, "100000"], capture_output=True, text=True, check=True).stdout


def table(plain):
    subprocess.run(["gcc", "-O3", "-o", plain, "tools/questions.c"], check=True)
    times = subprocess.run([PROGRAM, "times"], capture_output=True, text=True, check=True).stdout
    print("| alphabet | points | first: ns | instructions | in C | next: ns | instructions | in C |")
    print("|---|---|---|---|---|---|---|---|")
    for name, size, *nanoseconds in re.findall(r"(\S+) (\d+): first (\d+) ns, next (\d+) ns", times):
        cells = [name, size]
        for question, time in zip(("first", "next"), nanoseconds):
            assert answers(PROGRAM, question, name, size) == answers(plain, question, name, size), "the answers differ"
            cells += [time, *(cost(program, question, name, size) for program in (PROGRAM, plain))]
        print("| " + " | ".join(map(str, cells)) + " |", flush=True)


if sys.argv[1:2] == ["--check"]:
    with open(sys.argv[2], encoding="utf-8") as file:
        sys.exit(None if file.read() == digests() else f"{sys.argv[2]} differs")
elif sys.argv[1:] == ["--digests"]:
    print(digests(), end="")
else:
    with tempfile.TemporaryDirectory() as folder:
        table(f"{folder}/questions")
