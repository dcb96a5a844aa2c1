"""The programs that are measured, built and run: what `compare`, `flat` and `made` share."""
import os
import subprocess
import sys

HERE = os.path.dirname(os.path.realpath(__file__))
ROOT = os.path.dirname(HERE)


def built_program():
    """The proved program, which is built first where that is due."""
    subprocess.run([os.path.join(ROOT, "ptmreplay")], input=b"ptmtrace 1\n", stdout=subprocess.DEVNULL, check=True)
    return os.path.join(ROOT, "crates", "ptmreplay", "out", "ptmreplay")


def built(room, name):
    """A C program of this folder, built."""
    target = os.path.join(room, name)
    subprocess.run(["cc", "-O2", "-o", target, os.path.join(HERE, f"{name}.c")], check=True)
    return target


def run(used, words, source, target):
    """The processor's seconds and the peak bytes of one run of a program with its words."""
    with open(source) as given, open(target, "w") as taken:
        told = subprocess.run([used] + words, stdin=given, stdout=taken, stderr=subprocess.PIPE, text=True)
    if told.returncode:
        sys.exit(f"{' '.join(words)} ended with status {told.returncode}: {told.stderr}")
    seconds, peak = told.stderr.split()
    return float(seconds), int(peak) * 1024


def in_turn(rounds, used, runs, target):
    """The seconds and the peak bytes of each round, for each pair of words and source, which run in turn."""
    return list(zip(*([run(used, words, source, target) for words, source in runs] for _ in range(rounds))))


def best_of(rounds, used, runs, target):
    """The seconds and the peak bytes of the best run of each pair of words and source, in turn."""
    return [min(all_) for all_ in in_turn(rounds, used, runs, target)]
