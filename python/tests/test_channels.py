"""The channel alone, by Principles of Operation, chapter 14, and docs/SPECIFICATION.md."""

import unittest

import excp
from excp import TAPE_MARK, Area, Ccw, Channel, ChannelRun, ChannelStatus, Csw, Extent, Fault, Flag, Op, Record, Site, Status


def read_record(record=1, count=4):
    """A search of a record, and a read of its data, with no control blocks."""
    area = Area(0x1000)
    area.program(Ccw(Op.SIDE, "ID", Flag.CC, 5), Ccw(Op.TIC, "CP"), Ccw(Op.RD, "BUFFER", count=count))
    area.data("ID", bytes([0, 1, 0, 0, record]))
    area.space("BUFFER", 8)
    return area


class Channels(unittest.TestCase):
    def setUp(self):
        self.site = Site()
        self.addCleanup(self.site.close)
        self.disk = self.site.disk(cylinders=2, heads=1, track_bytes=64, records=[Record(1, 0, 1, b"DATA")], faults=[Fault(4, sense=0x0800)])
        self.channel = Channel(self.disk)

    def test_condition_codes(self):
        """Of an idle subchannel, one that runs, and one with a status pending."""
        none = ChannelStatus(1)
        self.assertEqual((self.channel.test(), self.channel.run()), (none, ChannelRun(0, False)))
        self.assertEqual(self.channel.start(read_record(), cylinder=1), 0)
        self.assertEqual((self.channel.start(read_record(), cylinder=1), self.channel.test()), (2, none))
        # a search passes R0, the next one finds record 1, and the read moves its data
        self.assertEqual([self.channel.run(1) for _ in range(2)], [ChannelRun(1, False)] * 2)
        self.assertEqual(self.channel.run(), ChannelRun(1, True))
        self.assertEqual((self.channel.start(read_record()), self.channel.halt(), self.channel.run()), (1, 1, ChannelRun(0, True)))
        self.assertEqual(self.channel.at("BUFFER", 4), b"DATA")
        self.assertEqual(self.channel.test(), ChannelStatus(0, Csw(0x1018, 0x0C, 0x00, 0)))
        self.assertEqual(self.channel.test(), none)

    def test_halt(self):
        """Of a program after its first search, whose CCW is the last one that was used; and of an idle subchannel."""
        self.channel.start(read_record(), cylinder=1)
        self.channel.run(1)
        self.assertEqual((self.channel.halt(), self.channel.halt()), (0, 1))
        self.assertEqual(self.channel.test(), ChannelStatus(0, Csw(0x1008, 0x0C, 0x00, 0)))
        self.assertEqual(self.channel.halt(), 0)
        self.assertEqual(self.channel.test(), ChannelStatus(0, Csw()))

    def test_no_retry(self):
        """The fault of command 4 ends the second program: the channel does not try it again."""
        for code, csw, sense in ((0, Csw(0x1018, 0x0C, 0x00, 0), 0), (0, Csw(0x1008, 0x0E, 0x00, 5), 0x0800)):
            self.channel.start(read_record(), cylinder=1)
            self.assertTrue(self.channel.run().is_pending)
            self.assertEqual(self.channel.test(), ChannelStatus(code, csw, sense))

    def test_incorrect_length(self):
        """A count of 8 for 4 bytes: 4 are residual, and channel status 40."""
        self.channel.start(read_record(count=8), cylinder=1)
        self.channel.run()
        self.assertEqual(self.channel.test().csw, Csw(0x1018, 0x0C, 0x40, 4))

    def test_apart(self):
        """Each channel has a device of its own, as that of the unit was; the unit stays as it is."""
        tape = self.site.tape(items=[b"ONE.", TAPE_MARK], length=100)
        first, second = Channel(tape), Channel(tape)
        area = Area(0x2000)
        area.program(Ccw(Op.RDF, "BUFFER", count=4))
        area.space("BUFFER", 4)
        for channel in first, second:
            channel.start(area)
            channel.run()
            self.assertEqual((channel.at("BUFFER", 4), channel.test().csw), (b"ONE.", Csw(0x2008, 0x0C, 0x00, 0)))
        first.start(area)
        first.run()
        # the mark is unit exception, and no byte was moved
        self.assertEqual(first.test().csw, Csw(0x2008, 0x0D, 0x00, 4))
        self.assertEqual((tape.place.passed, tape.count_entries()), (0, 0))

    def test_area_that_lacks_a_label(self):
        """It starts nothing, and the storage of the program before stays."""
        self.channel.start(read_record(), cylinder=1)
        self.channel.run()
        self.channel.test()
        area = Area(0x2000)
        area.program(Ccw(Op.RD, "NOWHERE", count=4))
        with self.assertRaises(ValueError):
            self.channel.start(area)
        self.assertEqual((self.channel.run(), self.channel.at("BUFFER", 4)), (ChannelRun(0, False), b"DATA"))
        self.assertEqual(self.channel.start(read_record()), 0)

    def test_as_it_is(self):
        """A channel begins where its unit's tape is then, and neither moves the other: also over a checkpoint."""
        tape = self.site.tape(items=[b"ONE.", b"TWO.", b"END."], length=100)
        dcb = tape.open()
        read = Ccw(Op.RDF, "BUFFER", count=4)

        def unit_reads():
            area = Area(0x1000)
            area.iob(dcb=dcb)
            area.ecb()
            area.program(read)
            area.space("BUFFER", 4)
            self.site.issue(0, dcb, area)
            tape.serve()
            return self.site.post(0).at("BUFFER", 4)

        area = Area(0x2000)
        area.program(Ccw(Op.RDF, "BUFFER", Flag.CC, 4), read)
        area.space("BUFFER", 4)
        self.assertEqual(unit_reads(), b"ONE.")
        channel = Channel(tape)
        self.assertEqual((channel.start(area), channel.run(1), channel.at("BUFFER", 4)), (0, ChannelRun(1, False), b"TWO."))
        self.assertEqual(unit_reads(), b"TWO.")
        tape.checkpoint()
        self.assertEqual((channel.run(), channel.at("BUFFER", 4)), (ChannelRun(1, True), b"END."))
        self.assertEqual((channel.test().csw, unit_reads()), (Csw(0x2010, 0x0C, 0x00, 0), b"END."))

    def test_track_and_mask(self):
        """The seek goes to cylinder 1, head 2; a file mask of 40 inhibits all writes, one of C0 none."""
        disk = self.site.disk(cylinders=2, heads=3, track_bytes=64, records=[Record(1, 2, 1, b"OLD.")])
        channel = Channel(disk)
        area = Area(0x1000)
        area.program(Ccw(Op.SIDE, "ID", Flag.CC, 5), Ccw(Op.TIC, "CP"), Ccw(Op.WD, "DATA", count=4))
        area.data("ID", bytes([0, 1, 0, 2, 1]))
        area.data("DATA", b"NEW.")
        for mask, csw, sense in (0x40, Csw(0x1018, 0x0E, 0x00, 4), 0x8000), (0xC0, Csw(0x1018, 0x0C, 0x00, 0), 0):
            self.assertEqual(channel.start(area, cylinder=1, head=2, file_mask=mask), 0)
            self.assertTrue(channel.run().is_pending)
            self.assertEqual(channel.test(), ChannelStatus(0, csw, sense))
        self.assertEqual(Channel(disk).start(area, cylinder=1, head=2), 0)
        self.assertEqual(disk.records(1, 2)[1].data, b"OLD.")
        for cylinder, head in (0, 3), (2, 0):
            with self.assertRaises(excp.BadNumber):
                channel.start(area, cylinder=cylinder, head=head)

    def test_file_masks(self):
        """Bits 0 and 1 inhibit all writes, or only those that format; a 1 in bit 3 or in bit 4 inhibits seeks (SPECIFICATION.md)."""
        disk = self.site.disk(cylinders=1, heads=1, track_bytes=80, records=[Record(0, 0, 1, b"DATA")])
        channel = Channel(disk)

        def ends(mask, *ccws):
            area = Area(0x1000)
            area.program(*ccws)
            area.data("ID", bytes([0, 0, 0, 0, 1]))
            area.data("SEEK", bytes(6))
            area.data("COUNT", bytes([0, 0, 0, 0, 2, 0, 0, 1]) + b"N")
            self.assertEqual(channel.start(area, file_mask=mask), 0)
            channel.run()
            status = channel.test()
            return status.csw.unit, status.sense

        find = Ccw(Op.SIDE, "ID", Flag.CC, 5), Ccw(Op.TIC, "CP")
        done, rejected, protected = (0x0C, 0), (0x0E, 0x8000), (0x0E, 0x0004)
        masks = {0x00: (done, done, done), 0x40: (rejected, rejected, done), 0x80: (done, rejected, done), 0xC0: (done, done, done),
                 0x10: (done, done, protected), 0x08: (done, done, protected)}
        for mask, due in masks.items():
            writes = ends(mask, *find, Ccw(Op.WD, "COUNT", count=4))
            formats = ends(mask, *find, Ccw(0x1D, "COUNT", count=9))
            seeks = ends(mask, Ccw(Op.SEEK, "SEEK", count=6))
            self.assertEqual((writes, formats, seeks), due, f"{mask:02X}")

    def test_seek(self):
        """Under a mask of 00 it goes to cylinder 1, whose record is read. A bin other than 0 is no place: a command reject."""
        area = Area(0x1000)
        area.program(Ccw(Op.SEEK, "SEEK", Flag.CC, 6), Ccw(Op.RD, "BUFFER", count=4))
        area.data("SEEK", bytes([0, 0, 0, 1, 0, 0]))
        area.space("BUFFER", 4)
        self.channel.start(area)
        self.assertEqual((self.channel.run(), self.channel.at("BUFFER", 4)), (ChannelRun(2, True), b"DATA"))
        self.assertEqual(self.channel.test(), ChannelStatus(0, Csw(0x1010, 0x0C, 0x00, 0)))
        area = Area(0x1000)
        area.program(Ccw(Op.SEEK, "SEEK", count=6))
        area.data("SEEK", bytes([0, 1, 0, 1, 0, 0]))
        self.channel.start(area)
        self.assertTrue(self.channel.run().is_pending)
        self.assertEqual(self.channel.test(), ChannelStatus(0, Csw(0x1008, 0x0E, 0x00, 6), 0x8000))

    def test_first_and_last_faults(self):
        """Faults of the first two commands, of the last one that a command may have, and of the last number that there is: no later
        command meets one. Two faults of one number are refused."""
        most = 2**64 - 1
        faults = [Fault(number, sense=sense) for number, sense in ((1, 0x1000), (2, 0x0800), (most - 1, 0x0800), (most, 0x0800))]
        disk = self.site.disk(cylinders=1, heads=1, track_bytes=40, faults=faults)
        channel = Channel(disk)
        area = Area(0x1000)
        area.program(Ccw(0x03, flags=Flag.SLI))

        def sense(of):
            of.start(area)
            of.run()
            return of.test().sense

        self.assertEqual([sense(channel) for _ in range(50)], [0x1000, 0x0800] + [0] * 48)
        with self.assertRaises(excp.BadMedium):
            self.site.disk(cylinders=1, heads=1, track_bytes=40, faults=[faults[3], faults[3]])

    def test_close(self):
        """It frees one channel: the others stay as they are, and no new one gets its number."""
        with Channel(self.disk) as second:
            self.assertEqual(self.channel.start(read_record(), cylinder=1), 0)
        third = Channel(self.disk)
        self.assertEqual([it.number for it in (self.channel, second, third)], [0, 1, 2])
        self.assertEqual((third.halt(), self.channel.run()), (0, ChannelRun(3, True)))
        self.assertEqual(self.channel.at("BUFFER", 4), b"DATA")

    def test_image(self):
        """What a channel wrote is in its image, which is read again, and not in that of its unit. The tape came from an image of
        one chunk for each item; the block after the one that was written stays away, as after each write to a tape."""
        chunk = lambda data, before: bytes([len(data), 0, before, 0, 0xA0, 0]) + data
        image = chunk(b"ONE.", 0) + chunk(b"TWO.", 4) + chunk(b"END.", 4)
        tape = self.site.tape_from(image)
        channel = Channel(tape)
        self.assertEqual(channel.image(), image)
        area = Area(0x1000)
        area.program(Ccw(Op.FSB, flags=Flag.CC | Flag.SLI), Ccw(Op.WRT, "DATA", count=4))
        area.data("DATA", b"NEW.")
        channel.start(area)
        self.assertTrue(channel.run().is_pending)
        self.assertEqual(channel.test().csw, Csw(0x1010, 0x0C, 0x00, 0))
        self.assertEqual((channel.image(), tape.image()), (chunk(b"ONE.", 0) + chunk(b"NEW.", 4), image))
        self.assertEqual(self.site.tape_from(channel.image()).items(), [b"ONE.", b"NEW."])
        with self.assertRaises(excp.NoImage):
            self.channel.image()

    def test_mistakes(self):
        with self.assertRaises(excp.BadNumber):
            self.channel.start(read_record(), cylinder=2)
        with self.assertRaises(excp.BadNumber):
            self.channel.start(read_record(), 0x1000000)
        with self.assertRaises(excp.BadNumber):
            self.channel.run(0)
        self.channel.close()
        self.channel.close()
        calls = self.channel.test, self.channel.halt, self.channel.run, self.channel.image, lambda: self.channel.start(read_record())
        for call in calls:
            with self.assertRaisesRegex(excp.NothingThere, "^<Channel 0> is closed$") as raised:
                call()
            self.assertEqual(raised.exception.status, Status.NOTHING_THERE)
        self.assertEqual(self.disk.open(extents=[Extent.between((0, 0), (1, 0), 1)]).number, 1)


if __name__ == "__main__":
    unittest.main()
