"""Which addresses are free, once others are taken: a network a line, `10.0.0.0/8`, an address, or a range of them, `10.0.0.5-10.0.0.9`; with a
minus before taken ones.

    python3 networks.py FILE
"""

import sys
from pathlib import Path

from range_sets import RangeSet


def main(path):
    given, taken = [], []
    for line in Path(path).read_text(encoding="ascii").split():
        networks = taken if line.startswith("-") else given
        networks.append(line.removeprefix("-"))
    free = RangeSet(given, kind="IPv4Address") - RangeSet(taken, kind="IPv4Address")
    for network in free.networks():
        print(network)
    print(f"{free.covered():,} addresses are free")


if __name__ == "__main__":
    if len(sys.argv) < 2:
        sys.exit(__doc__)
    main(sys.argv[1])
