#!/usr/bin/env python3
"""Makes small requests of a disk through the Python package, and measures them: `requests.py one 20000`, `requests.py each 20000`.

Each searches for a record, transfers back and reads it, as tests/library/requests.c does. They are of one area, or each lays out
its own. It prints what C prints.
"""

import os
import sys
import time

sys.path.insert(0, os.path.join(os.path.dirname(os.path.realpath(__file__)), "..", "..", "python"))

from excp import Area, Ccw, Code, Extent, Flag, Op, Record, Site

# After how many requests a checkpoint comes.
STEP = 1000


def read_record():
    area = Area(0x1000)
    area.iob()
    area.ecb()
    area.program(Ccw(Op.SIDE, "ID", Flag.CC, 5), Ccw(Op.TIC, "CP"), Ccw(Op.RD, "BUFFER", count=4))
    area.data("ID", bytes([0, 0, 0, 0, 1]))
    area.space("BUFFER", 4)
    return area


def made(count, is_one):
    """Makes these requests, and returns the processor seconds that they took."""
    with Site(post_room=1) as site:
        disk = site.disk(cylinders=1, heads=1, track_bytes=28, records=[Record(0, 0, 1, b"\xC1" * 4)], in_flight=1, held=1)
        dcb, area = disk.open(extents=[Extent.between((0, 0), (0, 0), heads=1)]), read_record()
        begun = time.process_time()
        for number in range(1, count + 1):
            site.issue(0, dcb, area if is_one else read_record())
            disk.serve()
            post = site.post(0)
            if post.code != Code.ENDED or post.at("BUFFER", 4) != b"\xC1" * 4:
                sys.exit(f"requests.py: {post!r}")
            if number % STEP == 0:
                disk.checkpoint()
        return time.process_time() - begun


if __name__ == "__main__":
    if len(sys.argv) != 3 or sys.argv[1] not in ("one", "each") or not sys.argv[2].isdigit():
        sys.exit("usage: requests.py one|each COUNT")
    print(f"{sys.argv[2]} requests in {made(int(sys.argv[2]), sys.argv[1] == 'one'):.3f} processor seconds")
