"""How many bytes of each file were received: ten million ranges of a thousand files, on a cluster of two processes.

    python3 received.py [--ranges N] [--files N] [--workers N]

Each task makes the ranges of some files that came in over one connection as numpy arrays, and of these a set for each file. The
files lie in four key ranges. The parts of a key range are made on the process that reduces them, so no set moves, and the counts
alone come back. The answer is compared with that of one process.
"""

import argparse
import sys
import time
from itertools import pairwise
from typing import Any

import numpy
from dask import annotate, delayed
from distributed import Client, LocalCluster, progress, wait

from range_sets import RangeSet
from range_sets.dask import covered_by_key

FILE_BYTES, LONGEST, CONNECTIONS, KEY_RANGES = 100_000_000, 20_000, 40, 4


def received(connection: int, files: range, ranges: int) -> dict[int, RangeSet]:
    """What one connection received of each of some files. Its ranges are in any order, and many of them overlap."""
    made = numpy.random.default_rng((connection, files.start))
    file = made.integers(files.start, files.stop, ranges)
    start = made.integers(0, FILE_BYTES - LONGEST, ranges)
    end = start + made.integers(1, LONGEST, ranges)
    order = numpy.argsort(file)
    table = numpy.column_stack((start, end))[order]
    places = numpy.searchsorted(file[order], numpy.arange(files.start, files.stop + 1))
    return {name: RangeSet(table[place:past]) for name, (place, past) in zip(files, pairwise(places)) if place < past}


def joined(counts: list[dict[int, int]]) -> dict[int, int]:
    return {name: count for it in counts for name, count in it.items()}


def counted(files: int, ranges: int, workers: list[str]) -> Any:
    """The bytes of each file: a delayed dict. A part has many ranges, and each key range is reduced where its parts are made."""
    cuts = [files * i // KEY_RANGES for i in range(KEY_RANGES + 1)]
    trees = []
    for i, ends in enumerate(pairwise(cuts)):
        with annotate(workers=[workers[i % len(workers)]]):
            parts = [delayed(received)(connection, range(*ends), ranges) for connection in range(CONNECTIONS)]
            trees.append(covered_by_key(parts, split_every=8))
    return delayed(joined)(trees)


def sent(dask_worker: Any) -> int:
    """How many bytes a process has sent to others."""
    return sum(int(it["compressed"]) for it in dask_worker.transfer_outgoing_log)


def main() -> None:
    parser = argparse.ArgumentParser(description=__doc__.splitlines()[0])
    parser.add_argument("--ranges", type=int, default=10_000_000, help="how many ranges all connections receive")
    parser.add_argument("--files", type=int, default=1000)
    parser.add_argument("--workers", type=int, default=2, help="how many processes")
    given = parser.parse_args()
    if given.files < KEY_RANGES:
        parser.error(f"expected {KEY_RANGES} files or more")
    each = given.ranges // (CONNECTIONS * KEY_RANGES)
    with LocalCluster(n_workers=given.workers, threads_per_worker=1, dashboard_address=None) as cluster, Client(cluster) as client:
        counts = counted(given.files, each, list(client.scheduler_info()["workers"]))
        began = time.perf_counter()
        running = client.compute(counts)
        progress(running)
        wait(running)
        by_many = running.result()
        taken = time.perf_counter() - began
        moved = sum(client.run(sent).values())
    print(f"\n{CONNECTIONS * KEY_RANGES * each:,} ranges of {len(by_many):,} files on {given.workers} processes: {taken:.1f} s")
    print(f"{sum(by_many.values()):,} bytes received, {moved / 1e6:.1f} MB moved between the processes")

    began = time.perf_counter()
    by_one = counts.compute(scheduler="sync")
    if by_one != by_many:
        sys.exit("received: one process has another answer")
    print(f"the same answer on one process: {time.perf_counter() - began:.1f} s")


if __name__ == "__main__":
    main()
