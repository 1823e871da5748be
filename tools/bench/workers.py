"""workers.py PATTERNS FILE: prints a table of how fast examples/dask_search.py counts matches.

Clusters of one, two and four processes are begun here. The best of three rounds counts, from the
automaton's way to the workers on.
"""

import os
import sys
import tempfile
import time

import dask_search
from distributed import Client, wait


def seconds(workers, patterns, blocks):
    times = []
    with tempfile.TemporaryDirectory() as folder:
        with dask_search.local_cluster(workers, folder) as cluster, Client(cluster) as client:
            for _ in range(3):
                began = time.perf_counter()
                wait(dask_search.submit(client, patterns, blocks, dask_search.count_block))
                times.append(time.perf_counter() - began)
    return min(times)


def main():
    patterns, path = dask_search.read_patterns(sys.argv[1]), os.path.abspath(sys.argv[2])
    blocks = list(dask_search.blocks_of([path], 1 << 23, max(map(len, patterns))))
    print("| workers | MB a second |\n|---|---|")
    for workers in (1, 2, 4):
        speed = os.path.getsize(path) / seconds(workers, patterns, blocks) / 1e6
        print(f"| {workers} | {speed:.0f} |", flush=True)


if __name__ == "__main__":
    main()
