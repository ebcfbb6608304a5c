"""Compares replay with another reading of the rules, script by script.

    python3 bench/compare.py REPLAY REFERENCE SEED COUNT

REPLAY is the program; REFERENCE is a Python file with a function replay(bytes) -> bytes. Prints the first script on which they
differ, or how many agreed.
"""
import importlib.util
import os
import subprocess
import sys

sys.path.insert(0, os.path.dirname(os.path.abspath(__file__)))
from scripts import scripts


def load(path):
    spec = importlib.util.spec_from_file_location('reference', path)
    module = importlib.util.module_from_spec(spec)
    sys.modules['reference'] = module
    spec.loader.exec_module(module)
    return module


def main():
    program, reference, seed, count = sys.argv[1], load(sys.argv[2]), int(sys.argv[3]), int(sys.argv[4])
    for n, text in enumerate(scripts(seed, count)):
        got = subprocess.run([program], input=text, capture_output=True).stdout
        if got != reference.replay(text):
            sys.stdout.buffer.write(b'script %d differs:\n' % n + text)
            sys.exit(1)
    print(f'{count} scripts agree')


main()
