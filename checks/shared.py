"""What the checks that run the program share.

AGG names the program to run; else it is ./agg, which builds the proved one where it has to be built."""

import os
import subprocess
import sys
import tempfile

TOP = os.path.dirname(os.path.dirname(os.path.realpath(__file__)))
AGG = os.path.realpath(os.environ.get("AGG") or f"{TOP}/agg")

faults = 0


def run(words, given, output=subprocess.PIPE):
    """What the program writes, and its exit status. It runs in another folder than the repository's, since it is to run from any."""
    with tempfile.TemporaryDirectory() as room:
        ran = subprocess.run([AGG, *words], stdin=given, stdout=output, stderr=subprocess.PIPE, cwd=room)
    return ran.stdout, ran.returncode


def run_text(words, text):
    with tempfile.TemporaryFile() as given:
        given.write(text)
        given.flush()
        given.seek(0)
        return run(words, given)


def expect(what, answer, wanted):
    global faults
    if answer == wanted:
        print(f"ok: {what}", flush=True)
    else:
        faults += 1
        print(f"FAULT: {what}: the answer is {answer}, and not {wanted}", flush=True)


def contents(path):
    with open(path, "rb") as file:
        return file.read()


def is_running():
    """Builds the program where it has to be built, so that what it says is seen."""
    text = b"TABLE x UInt64\nSELECT count()\n"
    ran = subprocess.run([AGG, "query"], input=text, stdout=subprocess.PIPE)
    expect("the program is built and runs", (ran.stdout, ran.returncode), (b"0\n", 0))
    return not faults


def end(name):
    print(f"{name}: {faults} faults")
    sys.exit(1 if faults else 0)
