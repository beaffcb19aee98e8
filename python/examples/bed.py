"""How many bases of each chromosome the lines of a BED file cover, and how many of them those of a second file cover too.

    python3 bed.py FIRST [SECOND]
"""

import sys
from collections import defaultdict
from pathlib import Path

from range_sets import RangeSet


def chromosomes(path):
    """The set of each chromosome, by its name. A line of BED has a name, a start and an end."""
    pairs = defaultdict(list)
    for line in Path(path).read_text(encoding="ascii").splitlines():
        if line and not line.startswith(("#", "track", "browser")):
            name, start, end = line.split("\t")[:3]
            pairs[name].append((int(start), int(end)))
    return {name: RangeSet(it) for name, it in pairs.items()}


def main(first, second=None):
    others = chromosomes(second) if second else {}
    for name, covered in sorted(chromosomes(first).items()):
        both = covered & others.get(name, RangeSet())
        print(name, covered.covered(), both.covered(), sep="\t")


if __name__ == "__main__":
    if len(sys.argv) < 2:
        sys.exit(__doc__)
    main(*sys.argv[1:])
