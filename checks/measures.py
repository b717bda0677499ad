"""What runs of a program take: instructions, counted by valgrind, which no other work on the machine moves, and time. Every
response of a run has to be 200, and no message ignored."""
import os
import re
import subprocess
import time

from samples import PROGRAM, TOKEN


def assert_answered(responses):
    wrong = re.search(rb"HTTP/1\.1 (?!200)\d+|ignored", responses)
    assert not wrong, f"a response is {wrong[0]}"


def ran(words, requests=b""):
    """Runs a program to its end."""
    assert_answered(subprocess.run(words, input=requests, capture_output=True, check=True).stdout)


def instructions(folder, words, requests=b""):
    """How many instructions a run takes."""
    counted = ["valgrind", "--tool=callgrind", f"--callgrind-out-file={folder}/out", *words]
    run = subprocess.run(counted, input=requests, capture_output=True, check=True)
    assert_answered(run.stdout)
    return int(re.search(rb"Collected : (\d+)", run.stderr)[1])


def passed(words, requests=b""):
    """How many seconds pass in a run."""
    began = time.monotonic()
    ran(words, requests)
    return time.monotonic() - began


def passed_over_a_file(folder, name, first, whole):
    """How many seconds pass while the program answers all but the first of these requests, over a new file."""
    book = os.path.join(folder, f"{name}.db")
    ran([PROGRAM, "init", book, "--token", TOKEN])
    ran([PROGRAM, "run", book], first)
    return passed([PROGRAM, "run", book], whole[len(first):])
