#!/usr/bin/env python3
"""Writes an input for the program on standard output: KIND BYTES, with a fixed seed."""

import random
import sys

RANDOM = random.Random(7)


def number():
    return RANDOM.randint(-(10**9), 10**9)


def mixed():
    chance = RANDOM.random()
    return f"push {number()}" if chance < 0.8 else "dequeue" if chance < 0.95 else "skip"


LINES = {
    "mixed": mixed,
    "pushes": lambda: f"push {number()}",
    "skips": lambda: "skip",
    "extends": lambda: "extend " + " ".join(str(number()) for _ in range(100)),
    "dequeues": lambda: "dequeue",
    "clears": lambda: "clear",
    "short-pushes": lambda: "push 5",
    "short-extends": lambda: "extend 5",
    "empty-extends": lambda: "extend",
    "digits": lambda: "extend" + " 5" * 100,
    "blanks": lambda: "",
}


def main():
    line, left = LINES[sys.argv[1]], int(sys.argv[2])
    while left > 0:
        text = line() + "\n"
        sys.stdout.write(text)
        left -= len(text)


main()
