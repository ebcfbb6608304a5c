#!/usr/bin/env python3
"""Times a long script, its first half and its first line: does a call take longer the more calls came before it?

    bench/halves.py crates/replay/out/replay [RUNS]

The script repeats one round of overlapping jobs, so that each round asks for the same work. It prints the median times,
and how long the second half took against the first.
"""
import statistics
import subprocess
import sys
import time

LONGEST = 32_768

ROUND = [
    "B,0,1,5", "L,0,0,W", "I,0,0", "B,1,2,3", "L,1,0,W", "I,1,0", "L,1,1,W", "I,1,1", "B,2,3,25", "L,2,0,R", "L,2,1,R", "L,2,2,W",
    "I,2,2", "C,2", "C,0", "A,1", "C,2", "Q", "L,9,0,R",
]


def script():
    lines = ["S,C,T,2,16,8"]
    size = len(lines[0]) + 1
    rounds = (LONGEST - size) // sum(len(line) + 1 for line in ROUND)
    return lines + ROUND * rounds


def seconds(program, lines, runs):
    text = ("\n".join(lines) + "\n").encode()
    times = []
    for _ in range(runs):
        start = time.perf_counter()
        subprocess.run([program], input=text, stdout=subprocess.DEVNULL, check=True)
        times.append(time.perf_counter() - start)
    return statistics.median(times)


def main():
    program = sys.argv[1]
    runs = int(sys.argv[2]) if len(sys.argv) > 2 else 40
    lines = script()
    half = 1 + (len(lines) - 1) // (2 * len(ROUND)) * len(ROUND)
    one, first, whole = (seconds(program, lines[:n], runs) for n in (1, half, len(lines)))
    share = (whole - first) / (len(lines) - half) / ((first - one) / (half - 1))
    print(f"{len(lines)} lines, {sum(len(line) + 1 for line in lines)} bytes: {1000 * whole:.2f} ms")
    print(f"first half {1000 * first:.2f} ms, first line {1000 * one:.2f} ms")
    print(f"a line of the second half took {share:.2f} times a line of the first")


main()
