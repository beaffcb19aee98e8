"""When several people have time: each has a file with a busy time a line, as `2026-05-04T09:00 2026-05-04T10:30`.

    python3 meeting.py DAY MINUTES FILE..

It prints the times between 9 and 17 of the day at which all are free, and the first such time of the given length.
"""

import sys
from datetime import datetime, timedelta
from pathlib import Path

from range_sets import RangeSet


def busy(path):
    """When someone has no time. The times of a file may overlap, and stand in any order."""
    lines = Path(path).read_text(encoding="ascii").splitlines()
    return RangeSet([map(datetime.fromisoformat, line.split()) for line in lines if line and not line.startswith("#")])


def main(day, minutes, *files):
    midnight = datetime.fromisoformat(day)
    opens, closes = midnight + timedelta(hours=9), midnight + timedelta(hours=17)
    taken = RangeSet.union_all(map(busy, files))
    for start, end in taken.gaps(opens, closes):
        print(f"free from {start:%H:%M} to {end:%H:%M}")
    first = taken.first_fit(timedelta(minutes=int(minutes)), opens, closes)
    print(f"{minutes} minutes from {first:%H:%M}" if first else f"no {minutes} minutes are free")


if __name__ == "__main__":
    if len(sys.argv) < 3:
        sys.exit(__doc__)
    main(*sys.argv[1:])
