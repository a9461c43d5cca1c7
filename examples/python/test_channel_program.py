#!/usr/bin/env python3
"""Tests a channel program on a disk. Run it by pytest, or by python3 alone."""

import os
import sys

try:
    import excp
except ImportError:  # it is not installed: take it from the repository
    sys.path.insert(0, os.path.join(os.path.dirname(os.path.realpath(__file__)), "..", "..", "python"))
    import excp

from excp import Area, Ccw, Code, Extent, Flag, LoggedEvent, Op, Record, Seek


def a_disk(site, faults=()):
    """A disk of one track with two records, and DCB 1 for output on that track."""
    records = [Record(0, 0, 1, b"FIRST..."), Record(0, 0, 2, b"SECOND..")]
    disk = site.disk(cylinders=1, heads=1, track_bytes=64, records=records, faults=faults)
    return disk, disk.open(extents=[Extent.between((0, 0), (0, 0), heads=1)])


def rewrite(dcb, record, content):
    """A request that searches for a record, writes its data, and reads the next record."""
    area = Area(0x1000)
    area.iob(dcb=dcb, seek=Seek(cylinder=0, head=0))
    area.ecb()
    area.program(
        Ccw(Op.SIDE, "ID", Flag.CC, 5),  # search for the record
        Ccw(Op.TIC, "CP"),  # again, until it is found
        Ccw(Op.WD, "DATA", Flag.CC, 8),  # write its data
        Ccw(Op.RD, "NEXT", count=8),  # read the next record
    )
    area.data("ID", bytes([0, 0, 0, 0, record]))
    area.data("DATA", content)
    area.space("NEXT", 8)
    return area


def test_record_is_rewritten():
    with excp.Site() as site:
        disk, dcb = a_disk(site)
        area = rewrite(dcb, 1, b"CHANGED.")
        site.issue(0, dcb, area)
        disk.serve()
        post = site.post(0)
        assert post.code == Code.ENDED
        assert post.at("NEXT", 8) == b"SECOND.."
        assert [it.data for it in disk.records(0, 0)[1:]] == [b"CHANGED.", b"SECOND.."]


def test_missing_record_is_not_written():
    with excp.Site() as site:
        disk, dcb = a_disk(site)
        site.issue(0, dcb, rewrite(dcb, 9, b"CHANGED."))
        disk.serve()
        post = site.post(0)
        assert (post.code, post.sense) == (Code.PERMANENT_ERROR, 0x0008)  # no record found
        assert [it.data for it in disk.records(0, 0)[1:]] == [b"FIRST...", b"SECOND.."]


def test_data_check_is_tried_again():
    with excp.Site() as site:
        disk, dcb = a_disk(site, faults=[excp.Fault(1, sense=0x0800)])
        site.issue(0, dcb, rewrite(dcb, 1, b"CHANGED."))
        assert str(disk.take()) == "Took 0 0 1"
        assert str(disk.start()) == "Started 0 0 1"
        assert str(disk.run()) == "Ran 1 pending"
        assert str(disk.interrupt()) == "Again 0 0 1"
        disk.serve()
        assert site.post(0).code == Code.ENDED


def test_purge_halts_an_active_program():
    with excp.Site() as site:
        disk, dcb = a_disk(site)
        site.issue(0, dcb, rewrite(dcb, 1, b"CHANGED."))
        disk.take()
        disk.start()
        disk.run(1)
        assert str(dcb.purge(excp.Mode.HALT)) == "Active 0 0 1"
        disk.serve()
        assert site.post(0).code == Code.PURGED


def test_log_of_another_program_is_judged():
    """It reports an error, and the supervisor finds none."""
    with excp.Site() as site:
        _, dcb = a_disk(site)
        log = [
            LoggedEvent("issue", 0, "0 0 1", dcb=1, area=rewrite(dcb, 1, b"CHANGED.")),
            LoggedEvent("take", 0, "Took 0 0 1"),
            LoggedEvent("start", 0, "Started 0 0 1"),
            LoggedEvent("run", 0, commands=4),
            LoggedEvent("interrupt", 0, "Ended 0 0 1 41"),
        ]
        found = excp.judge(site, log)
        assert found.place == 4
        assert found.reason.endswith("the log has Ended 0 0 1 41, and the supervisor Ended 0 0 1 7F")


if __name__ == "__main__":
    for name, test in list(globals().items()):
        if name.startswith("test_"):
            test()
            print(f"{name}: passed")
