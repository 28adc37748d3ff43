#!/usr/bin/env python3
"""Turns a folder of Markdown files into HTML with the workers of a dask cluster.

    by_dask.py SOURCE TARGET [WORKERS | ADDRESS]

Without an ADDRESS, such as tcp://scheduler:8786, a cluster over this machine's processors is started. With an ADDRESS, each worker has to
see the folders under the same paths, and to have the package pulldown_cmark and this folder on its path.
"""
import os
import pathlib
import sys

import distributed

import documents

IN_A_TASK = 250


def results(client, pairs):
    """The results of the workers, as they arrive."""
    tasks = [client.submit(documents.convert_all, pairs[at : at + IN_A_TASK], pure=False) for at in range(0, len(pairs), IN_A_TASK)]
    for task in distributed.as_completed(tasks):
        yield from task.result()


def main(source, target, where):
    pairs = list(documents.left(source, target))
    if ":" in where:
        client = distributed.Client(where)
    else:
        client = distributed.Client(n_workers=int(where), threads_per_worker=1, dashboard_address=None)
    with client:
        return documents.report(results(client, pairs), len(pairs))


if __name__ == "__main__":
    if len(sys.argv) not in (3, 4):
        sys.exit(__doc__)
    sys.exit(main(pathlib.Path(sys.argv[1]), pathlib.Path(sys.argv[2]), sys.argv[3] if len(sys.argv) == 4 else str(len(os.sched_getaffinity(0)))))
