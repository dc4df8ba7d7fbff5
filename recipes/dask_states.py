#!/usr/bin/env python3
"""Answers a request over the rows of many files on a Dask cluster.

    dask_states.py [--scheduler ADDRESS] [--workers N] HEAD FILE..

HEAD has the table's line and the request's line, each FILE rows alone, in the order in which they are to count. Each file
is a partition: one run of `agg query` for the states of its calls. Two neighbours are merged into one, over the cluster,
until one is left, whose values are printed. The answer is that of one run over all rows. Where a row is refused, the
first is told with its file and line.

Without --scheduler the cluster is N processes of this machine (4). Workers read the files by the paths that are given, and
run the program that AGG names on them (else `agg` on the path, or the one of this repository)."""

import argparse
import os
import shutil
import subprocess
import sys

from distributed import Client, LocalCluster

import plan


def query(agg, text):
    """The exit status and what is written."""
    ran = subprocess.run([agg, "query"], input=text, stdout=subprocess.PIPE)
    return ran.returncode, ran.stdout


def part_of(agg, head, path, name):
    with open(path, "rb") as file:
        status, text = query(agg, head + file.read())
    return status, name, text


def joined(agg, head, one, other):
    """The states of two neighbours as those of one part; the first that was refused stays."""
    if one[0] or other[0]:
        return one if one[0] else other
    status, text = query(agg, head + one[2] + other[2])
    return status, one[1], text


def answer(client, agg, heads, files):
    parts = [client.submit(part_of, agg, heads["part"], os.path.abspath(it), it, pure=False) for it in files]
    while len(parts) > 1:
        pairs = [client.submit(joined, agg, heads["join"], *parts[at : at + 2], pure=False) for at in range(0, len(parts) - 1, 2)]
        parts = pairs + parts[len(pairs) * 2 :]
    status, name, text = parts[0].result()
    if status:
        return status, f"{plan.refusal(name, text.decode(errors='replace').rstrip())}\n".encode()
    return query(agg, heads["last"] + text)


def main():
    words = argparse.ArgumentParser()
    words.add_argument("--scheduler")
    words.add_argument("--workers", type=int, default=4)
    words.add_argument("head")
    words.add_argument("files", nargs="+")
    asked = words.parse_args()
    agg = os.environ.get("AGG") or shutil.which("agg") or f"{os.path.dirname(os.path.realpath(__file__))}/../agg"
    with open(asked.head, "rb") as file:
        # refused lines are refused before any row is read
        status, text = query(agg, b"".join(file.readlines()[:2]))
    if not status:
        heads = {name: it.encode("latin-1") for name, it in plan.heads_of(asked.head).items()}
        cluster = asked.scheduler or LocalCluster(n_workers=asked.workers, threads_per_worker=1, dashboard_address=None)
        with Client(cluster) as client:
            status, text = answer(client, agg, heads, asked.files)
        if not asked.scheduler:
            cluster.close()
    sys.stdout.buffer.write(text)
    sys.exit(status)


if __name__ == "__main__":
    main()
