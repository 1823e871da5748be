"""Two processes search files, and one is killed: the matches are those of each whole file."""

import collections
import os
import random
import signal
import tempfile
import time
import unittest

import dask_search
from daachorse import Automaton
from distributed import Client, as_completed

PATTERNS = [b"ab", b"abcd", b"bc", b"cd", b"aaab" * 40]


def search_slowly(block):
    """Takes long enough for a worker to be killed before all blocks were searched."""
    time.sleep(0.01)
    return dask_search.search_block(block)


class KilledWorkerTest(unittest.TestCase):
    def test_each_block_is_searched_all_the_same(self):
        chance = random.Random(5)
        with tempfile.TemporaryDirectory() as folder:
            paths = [os.path.join(folder, name) for name in ("one", "two", "empty")]
            for path, size in zip(paths, (600000, 400001, 0)):
                with open(path, "wb") as file:
                    file.write((b"aaab" * 5000 + bytes(chance.choices(b"abcd", k=size)))[:size])
            blocks = list(dask_search.blocks_of(paths, 8009, max(map(len, PATTERNS))))
            with dask_search.local_cluster(2, folder) as cluster, Client(cluster) as client:
                found = self.found_though_killed(client, blocks)
            automaton = Automaton(PATTERNS)
            wanted = []
            for path in paths:
                with open(path, "rb") as file:
                    wanted += ((path, value, start) for start, _end, value in automaton.find_overlapping(file.read()))
        self.assertEqual(found, wanted)

    def found_though_killed(self, client, blocks):
        counts = client.gather(dask_search.submit(client, PATTERNS, blocks, dask_search.count_block))
        pids = client.run(os.getpid)
        self.assertEqual(len(pids), 2)
        futures = dask_search.submit(client, PATTERNS, blocks, search_slowly)
        next(as_completed(futures))
        os.kill(min(pids.values()), signal.SIGKILL)
        self.assertTrue(any(future.status == "pending" for future in futures))
        found = [(block.path, *match) for block, part in zip(blocks, client.gather(futures)) for match in part]
        counted = collections.Counter(value for _path, value, _place in found)
        self.assertEqual(sum(counts, collections.Counter()), counted)
        return found


if __name__ == "__main__":
    unittest.main()
