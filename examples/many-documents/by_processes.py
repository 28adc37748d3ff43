#!/usr/bin/env python3
"""Turns a folder of Markdown files into HTML with a pool of processes.

    by_processes.py SOURCE TARGET [WORKERS]
"""
import concurrent.futures
import os
import pathlib
import sys

import documents


def main(source, target, workers):
    pairs = list(documents.left(source, target))
    with concurrent.futures.ProcessPoolExecutor(workers) as pool:
        return documents.report(pool.map(documents.convert, pairs, chunksize=64), len(pairs))


if __name__ == "__main__":
    if len(sys.argv) not in (3, 4):
        sys.exit(__doc__)
    sys.exit(main(pathlib.Path(sys.argv[1]), pathlib.Path(sys.argv[2]), int(sys.argv[3]) if len(sys.argv) == 4 else len(os.sched_getaffinity(0))))
