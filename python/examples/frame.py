"""How long machines were busy, of a data frame of jobs, which may overlap; and the jobs that ended while all were busy.

    python3 frame.py FILE.csv     a file with the columns machine, and start and end, whole numbers
"""

import sys

import pandas

from range_sets import RangeSet


def main(path):
    jobs = pandas.read_csv(path)
    busy = {name: RangeSet(its[["start", "end"]]) for name, its in jobs.groupby("machine")}
    print(pandas.DataFrame({"jobs": jobs.groupby("machine").size(), "busy": {name: it.covered() for name, it in busy.items()}}))
    everywhere = RangeSet.intersection_all(busy.values())
    late = jobs[everywhere.contains(jobs["end"] - 1)]
    print(f"all were busy for {everywhere.covered()}, and {len(late)} of {len(jobs)} jobs ended meanwhile")


if __name__ == "__main__":
    if len(sys.argv) < 2:
        sys.exit(__doc__)
    main(sys.argv[1])
