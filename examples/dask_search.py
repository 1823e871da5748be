"""dask_search.py [options] PATTERNS FILE..

Searches files for every occurrence of the patterns, one a line, by the workers of Dask distributed,
which all see the files. Writes a line for each match: pattern, file and place, with tabs between,
or with --counts the number of matches of each pattern. The automaton goes to each worker once,
which checks it as it reads it. A block whose worker dies is searched by another.

Files are cut into blocks. Each is searched together with as many bytes before it as the longest
pattern has, less one, and keeps the matches that end in it: these are the matches of the whole.
"""

import argparse
import collections
import contextlib
import os
import sys
import tempfile

from daachorse import Automaton
from distributed import Client, LocalCluster, WorkerPlugin, get_worker, progress

Block = collections.namedtuple("Block", "path begin end carried")


class Searcher(WorkerPlugin):
    """Keeps the automaton on each worker, which reads it, with its check, from its written form."""

    name = "daachorse"

    def __init__(self, automaton):
        self.automaton = automaton

    def setup(self, worker):
        worker.automaton = self.automaton


def search_block(block):
    """Returns the value and the place of each match that ends in the block."""
    with open(block.path, "rb") as file:
        file.seek(block.begin - block.carried)
        data = file.read(block.end - block.begin + block.carried)
    offset, is_first = block.begin - block.carried, block.begin == 0
    found = get_worker().automaton.find_overlapping(data)
    return [(value, offset + start) for start, end, value in found if end > block.carried or is_first]


def count_block(block):
    """Returns the number of matches of each value that end in the block."""
    return collections.Counter(value for value, _place in search_block(block))


def blocks_of(paths, size, longest):
    """Yields blocks that hold each byte of the files once, and how many bytes go before each."""
    for path in paths:
        length = os.path.getsize(path)
        for begin in range(0, max(length, 1), size):
            yield Block(path, begin, min(begin + size, length), min(begin, max(longest - 1, 0)))


def submit(client, patterns, blocks, search=search_block):
    """Begins the search of each block, and returns its future."""
    client.register_worker_plugin(Searcher(Automaton(patterns)))
    return client.map(search, blocks, pure=False)


def read_patterns(path):
    with open(path, "rb") as file:
        lines = file.read().split(b"\n")
    return lines if lines[-1] else lines[:-1]


def write_table(patterns, blocks, futures, out):
    for block, future in zip(blocks, futures):
        for value, place in future.result():
            out.write(b"%b\t%b\t%d\n" % (patterns[value], os.fsencode(block.path), place))


def write_counts(patterns, futures, out):
    counts = sum((future.result() for future in futures), collections.Counter())
    for value, count in sorted(counts.items()):
        out.write(b"%b\t%d\n" % (patterns[value], count))


def main():
    options = argparse.ArgumentParser(description=__doc__, formatter_class=argparse.RawDescriptionHelpFormatter)
    options.add_argument("patterns")
    options.add_argument("files", nargs="+")
    options.add_argument("--scheduler", help="the address of a cluster; else one of processes is begun here")
    options.add_argument("--workers", type=int, default=os.cpu_count(), help="the processes of a cluster begun here")
    options.add_argument("--block", type=int, default=1 << 24, help="the bytes of a block")
    options.add_argument("--counts", action="store_true", help="write the matches of each pattern, not each match")
    given = options.parse_args()
    patterns = read_patterns(given.patterns)
    paths = [os.path.abspath(path) for path in given.files]
    blocks = list(blocks_of(paths, given.block, max(map(len, patterns), default=0)))
    with contextlib.ExitStack() as until_end:
        folder = until_end.enter_context(tempfile.TemporaryDirectory())
        cluster = given.scheduler or until_end.enter_context(local_cluster(given.workers, folder))
        client = until_end.enter_context(Client(cluster))
        futures = submit(client, patterns, blocks, count_block if given.counts else search_block)
        with contextlib.redirect_stdout(sys.stderr):
            progress(futures)
        if given.counts:
            write_counts(patterns, futures, sys.stdout.buffer)
        else:
            write_table(patterns, blocks, futures, sys.stdout.buffer)


def local_cluster(workers, folder):
    """Processes of one thread each. Their files go to the folder."""
    return LocalCluster(n_workers=workers, threads_per_worker=1, dashboard_address=None, local_directory=folder)


if __name__ == "__main__":
    main()
