#!/usr/bin/env python3
"""Random scripts run with threads, each transcript judged by the rules in words (tools/model/slow_audit.py, which shares no code with
the program): it has to be one legal history that follows the script, each session in its own order and phase, with no call
missing.

The scripts are those of tools/fuzz/random_scripts.py with more phases, with 0 to 8 workers each. With --shaken a run has one processor,
a low priority, and is stopped and let go on at random moments, so that threads are parted at places where they seldom are."""
import argparse
import os
import random
import signal
import subprocess
import sys
import threading
import time

if not __package__:  # run as a file: the other folders are found from tools/
    sys.path[0] += "/.."

from ending import end
from fuzz.random_scripts import Maker, spelled_words
from model.slow_audit import verdict


def parted(rng, script):
    """The script with more lines at which a phase begins."""
    share = rng.choice([0, 0.01, 0.05, 0.2])
    lines = []
    for line in script.splitlines(keepends=True):
        if rng.random() < share:
            lines.append("--\n")
        lines.append(line)
    return "".join(lines)


def shuffled(rng, script):
    """The script with its calls dealt to other sessions, so that several read and write beside each other."""
    if rng.random() < 0.5:
        return script
    lines, ready = [], False
    for line in script.splitlines(keepends=True):
        if ready and line[:2] in ("1 ", "2 ") and rng.random() < 0.3:
            line = f"{rng.randint(1, 8)} {line[2:]}"
        ready = ready or "COMMIT" in line
        lines.append(line)
    return "".join(lines)


def shake(process, rng):
    """Stops a process that this one started, and lets it go on, until it has ended."""
    while process.poll() is None:
        process.send_signal(signal.SIGSTOP)
        time.sleep(rng.random() * 0.003)
        process.send_signal(signal.SIGCONT)
        time.sleep(rng.random() * 0.005)


def held_down():
    os.sched_setaffinity(0, {min(os.sched_getaffinity(0))})
    os.nice(15)


def run(command, script, shaken, seconds, rng):
    process = subprocess.Popen(command, stdin=subprocess.PIPE, stdout=subprocess.PIPE, stderr=subprocess.PIPE, preexec_fn=held_down if shaken else None)
    shaker = threading.Thread(target=shake, args=(process, rng))
    if shaken:
        shaker.start()
    try:
        out, words = process.communicate(script, timeout=seconds)
    except subprocess.TimeoutExpired:
        process.kill()
        out, words = process.communicate()
        words = b"no end within %d seconds" % seconds
    if shaken:
        shaker.join()
    return process.returncode, out, words


def judged(script, broken, status, out):
    """Whether a run is right, and what was found: a script that is none is told by its status, and nothing is written of it."""
    if broken:
        return (status, out) == (2, b""), f"{len(out)} bytes written of what is no script"
    code, found = verdict(script + b"====\n" + out)
    return (status, code) == (0, 0), found


def main():
    parser = argparse.ArgumentParser(description=__doc__, formatter_class=argparse.RawDescriptionHelpFormatter)
    parser.add_argument("program", metavar="PROGRAM")
    parser.add_argument("count", type=int, nargs="?", default=1000, metavar="COUNT", help="how many scripts (default 1000)")
    parser.add_argument("seed", type=int, nargs="?", default=1, metavar="SEED", help="of which seed (default 1)")
    parser.add_argument("--shaken", action="store_true", help="under a scheduler that is made nasty")
    parser.add_argument("--seconds", type=int, default=300, metavar="N", help="the most that a run may take (default 300)")
    asked = parser.parse_args()
    wrong = entries = 0
    for number in range(asked.count):
        rng = random.Random(asked.seed * 1_000_000 + number)
        script, _calls, broken, words = Maker(rng).script()
        script = (script if broken else parted(rng, shuffled(rng, script))).encode()
        workers = rng.randint(0, 8)
        command = [asked.program, "--threads", f"--workers={workers}"]
        command += spelled_words(words)
        status, out, told = run(command, script, asked.shaken, asked.seconds, rng)
        is_right, found = judged(script, broken, status, out)
        if not is_right:
            wrong += 1
            print(f"script {number} of seed {asked.seed}, {command[1:]}: status {status} {told!r}, {found}", flush=True)
        elif not broken:
            entries += int(found.split()[1])
    print(f"{asked.count} scripts, {entries} calls, {wrong} not legal")
    return 1 if wrong else 0


if __name__ == "__main__":
    end(main)
