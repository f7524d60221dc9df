#!/usr/bin/env python3
"""Runs the tour of README.md, and compares what each of its blocks prints with the block below it.

The blocks ```sh of the section `A tour` are given to one shell, one after another, at the top of the repository;
a block ```text behind one is what it prints, on both outputs. Where there is none, nothing may be printed. The
program is the first argument, or the one that the gate or `rt run` left.
"""
import os
import re
import subprocess
import sys
import tempfile

from run_cases import TOP, built

END = "-- the end of a block --"


def blocks():
    """The blocks of the tour, each with what it prints."""
    with open(os.path.join(TOP, "README.md"), encoding="utf-8") as file:
        text = file.read()
    found = re.search(r"^## A tour\n(.*?)(?=^## |\Z)", text, re.M | re.S)
    if not found:
        return []
    fenced = re.findall(r"^```(\w+)\n(.*?)^```$", found[1], re.M | re.S)
    tour = []
    for kind, body in fenced:
        if kind == "sh":
            tour.append([body, ""])
        elif kind == "text" and tour:
            tour[-1][1] += body
    return tour


def main():
    program = built()
    tour = blocks()
    script = "".join(f"{body}\necho '{END}'\n" for body, _ in tour)
    with tempfile.TemporaryDirectory() as place:
        os.symlink(program, os.path.join(place, "lance_cli"))
        names = {**os.environ, "PATH": place + os.pathsep + os.environ["PATH"], "TMPDIR": place}
        done = subprocess.run(["bash"], input=script.encode(), cwd=TOP, env=names, stdout=subprocess.PIPE,
                              stderr=subprocess.STDOUT)
    printed = done.stdout.decode(errors="replace").split(END + "\n")
    failed = len(printed) != len(tour) + 1 or not tour
    for (body, wanted), got in zip(tour, printed):
        if wanted != got:
            failed = True
            print(f"the tour: {body}wanted:\n{wanted}got:\n{got}")
    print(f"tour: {len(tour)} blocks, {'failed' if failed else 'as README.md says'}")
    return 1 if failed else 0


if __name__ == "__main__":
    sys.exit(main())
