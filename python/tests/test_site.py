"""Sites, units and events, by docs/MANUAL.md, docs/SPECIFICATION.md and c/excp.h."""

import ctypes
import dataclasses
import json
import re
import struct
import threading
import unittest

import excp
from excp import (TAPE_MARK, Active, ActiveRequest, Answer, Area, Ccw, Change, Code, DcbPhase, Device, EntryKind, Extent, Fault, Flag, Kind,
                  Line, Method, Mode, Name, Op, Place, Record, Seek, ServedEnd, Site, Status)

TRACK = [Extent.between((0, 0), (0, 0), 1)]


def request(*ccws, dcb=1, related=False, record=1, data=b"", space=16):
    """A request with a program, the ID of a record, data and a buffer."""
    area = Area(0x1000)
    area.iob(dcb=dcb, related=related, seek=Seek(record=record))
    area.ecb()
    area.program(*ccws)
    area.data("ID", bytes([0, 0, 0, 0, record]))
    area.data("DATA", data)
    area.space("BUFFER", space)
    return area


def read_record(record=1, related=False):
    """Reads the 4 bytes of a record, as samples/read.script does."""
    search = Ccw(Op.SIDE, "ID", Flag.CC, 5), Ccw(Op.TIC, "CP")
    return request(*search, Ccw(Op.RD, "BUFFER", count=4), record=record, related=related)


def a_disk(site, faults=()):
    disk = site.disk(cylinders=1, heads=1, track_bytes=40, records=[Record(0, 0, 1, b"\xC1\xC2\xC3\xC4")], faults=faults)
    return disk, disk.open(extents=TRACK)


def shown(entry):
    """An entry as the record of its unit has it (docs/REPORT.md), without what the record adds."""
    kind, csw = entry.kind, entry.csw
    request = {"task": entry.name.task, "request": entry.name.number} if entry.name else {}
    members = {
        EntryKind.OPENED: ("opened", {"dcb": entry.dcb, "way": "output" if entry.way == Method.OUTPUT else "input"}),
        EntryKind.ARRIVED: ("arrived", request),
        EntryKind.STARTED: ("started", request),
        EntryKind.RAN: ("ran", {**request, "commands": entry.commands}),
        EntryKind.HALTED: ("halted", request),
        EntryKind.PURGED_DCB: ("purge", {"dcb_purged": entry.dcb, "mode": Mode(entry.way).name.lower()}),
        EntryKind.PURGED_TASK: ("purge", {"task_purged": entry.task, "mode": Mode(entry.way).name.lower()}),
        EntryKind.CLOSED: ("closed", {"dcb": entry.dcb}),
        EntryKind.RESET: ("reset", {"dcb": entry.dcb}),
        EntryKind.POSTED: ("posted", {**request, "code": f"{entry.code:02X}", "address": f"{csw.address:06X}",
                                      "status": f"{csw.unit:02X}{csw.sub:02X}", "residual": f"{csw.residual:04X}",
                                      "sense": f"{entry.sense:04X}"}),
    }
    what, rest = members[kind]
    return {"what": what, **rest}


class Entries(unittest.TestCase):
    """The entries of a trace, against the record of the unit."""

    def are_those_of_the_record(self, unit):
        events = [it for it in map(json.loads, unit.record().splitlines()) if "entry" in it]
        entries = list(map(shown, unit.entries()))
        self.assertEqual(len(entries), unit.count_entries())
        # the record has runs of one request in a row as one event
        for event in events:
            turns = event.get("turns", 1)
            first = entries[event["entry"] - 1]
            together = entries[event["entry"] - 1 : event["entry"] - 1 + turns]
            if turns > 1:
                first = {**first, "commands": sum(it["commands"] for it in together)}
            self.assertEqual({key: event[key] for key in first}, first)
        self.assertEqual(sum(it.get("turns", 1) for it in events), len(entries))
        return [it["what"] for it in events]

    def test_each_kind(self):
        with Site(tasks=2) as site:
            disk, dcb = a_disk(site, [Fault(5)])
            for task in 0, 0, 1, 1:
                site.issue(task, dcb, read_record())
            disk.take(), disk.take(), disk.start(), disk.run(1), disk.run(1), dcb.purge(Mode.HALT), disk.interrupt()
            disk.take(), disk.start(), disk.run(64), disk.interrupt(), disk.take(), disk.purge_task(1)
            dcb.reset(), disk.open(Method.INPUT, TRACK), dcb.close()
            told = self.are_those_of_the_record(disk)
            self.assertEqual(set(told), {"opened", "arrived", "started", "ran", "halted", "purge", "closed", "reset", "posted"})
            self.assertEqual([it.kind for it in disk.entries(disk.count_entries() - 1)], [EntryKind.CLOSED])

    def test_after_a_checkpoint(self):
        """Places begin anew, and numbers of requests go on."""
        with Site() as site:
            disk, dcb = a_disk(site)
            for number in 1, 2:
                site.issue(0, dcb, read_record())
                disk.serve()
                site.posts(0)
                arrived = next(it for it in disk.entries() if it.kind == EntryKind.ARRIVED)
                self.assertEqual(arrived.name, Name(0, 0, number))
                disk.checkpoint()
            self.assertEqual([it.kind for it in disk.entries()], [EntryKind.OPENED])

    def test_of_no_unit(self):
        with Site() as site, Site() as other:
            disk, _ = a_disk(site)
            disk._calls = other.calls
            with self.assertRaises(excp.ExcpError) as raised:
                next(disk.entries())
            self.assertEqual(raised.exception.status, Status.NO_UNIT)


class Readers(unittest.TestCase):
    """What a unit tells of its active request, of its medium, and where its device is on it."""

    def test_active(self):
        """A search that finds, and a read, whose second attempt begins again at the first CCW."""
        with Site() as site:
            disk, dcb = a_disk(site, faults=[Fault(3, sense=0x0800)])
            self.assertIsNone(disk.active)
            area = read_record()
            site.issue(0, dcb, area)
            disk.take()
            disk.start()
            self.assertEqual(disk.active, ActiveRequest(Name(0, 0, 1), 1, 1, area["CP"]))
            # the search that passes R0 goes on at the TIC, and that which finds record 1 after it
            for commands, ccw in (1, 1), (1, 2):
                disk.run(commands)
                self.assertEqual(disk.active, ActiveRequest(Name(0, 0, 1), 1, 1, area["CP"] + 8 * ccw))
            disk.run()
            self.assertEqual(disk.active, ActiveRequest(Name(0, 0, 1), 1, 1, None))
            disk.interrupt()
            self.assertEqual((disk.active.attempt, disk.active.next_ccw), (1, None))
            disk.start()
            self.assertEqual(disk.active, ActiveRequest(Name(0, 0, 1), 1, 2, area["CP"]))
            self.assertEqual(repr(disk.active), "<ActiveRequest 0 0 1 of DCB 1, attempt 2, CCW at 001030>")
            disk.serve()
            self.assertIsNone(disk.active)

    def test_tape(self):
        """Two blocks and a mark; a write of a block after the first one ends the tape there."""
        with Site() as site:
            tape = site.tape(items=[b"ONE", TAPE_MARK, b"THREE"], length=100)
            dcb = tape.open()
            self.assertEqual((tape.items(), tape.place), ([b"ONE", TAPE_MARK, b"THREE"], Place(items=3)))
            for program, items, passed in (([Ccw(Op.RDF, "BUFFER", Flag.SLI, 16)], [b"ONE", TAPE_MARK, b"THREE"], 1),
                                           ([Ccw(Op.WRT, "DATA", count=4)], [b"ONE", b"DATA"], 2),
                                           ([Ccw(Op.REW, flags=Flag.SLI)], [b"ONE", b"DATA"], 0)):
                site.issue(0, dcb, request(*program, data=b"DATA"))
                tape.serve()
                self.assertEqual((site.post(0).code, tape.items()), (Code.ENDED, items))
                self.assertEqual(tape.place, Place(items=len(items), passed=passed))
            with self.assertRaises(excp.BadMedium):
                site.printer(lines=1, pages=1).items()

    def test_places(self):
        """A seek of the prefix to cylinder 1, head 2, of 3 heads; a printed line, after which two are spaced."""
        with Site() as site:
            disk, printer = site.disk(cylinders=2, heads=3, track_bytes=40), site.printer(lines=9, pages=2)
            self.assertEqual((disk.place, printer.place), (Place(), Place(page=1, line=1)))
            area = Area(0x1000)
            area.iob(dcb=disk.open(extents=[Extent.between((0, 0), (1, 2), 3)]), seek=Seek(cylinder=1, head=2))
            area.ecb()
            area.program(Ccw(Op.NOP, flags=Flag.SLI))
            site.issue(0, disk.dcb(1), area)
            site.issue(0, printer.open(), request(Ccw(Op.PR2, "DATA", count=4), data=b"LINE"))
            site.serve()
            self.assertEqual((disk.place, printer.place), (Place(cylinder=1, head=2), Place(page=1, line=3)))

    def test_nothing_stays_made(self):
        """A site holds nothing of what it made."""
        with Site() as site:
            tape = site.tape(items=[b"ONE"])
            for make in tape.image, tape.record:
                self.assertTrue(make())
                length = ctypes.c_size_t(1)
                site.calls.call("made_length", length)
                self.assertEqual(length.value, 0)


class Changes(unittest.TestCase):
    """What differs from the storage as issued."""

    def test_of_a_read(self):
        """A read of the 4 bytes of a record, of which the buffer had the last 2: sense, code, CSW, ECB and these changed."""
        with Site() as site:
            disk, dcb = a_disk(site)
            area = read_record()
            storage = bytearray(bytes(area))
            at = area["BUFFER"] - area.base
            storage[at : at + 4] = b"\0\0\xC3\xC4"
            site.issue(0, dcb, Area(area.base, bytes(storage), area.labels))
            disk.serve()
            post = site.post(0)
            # IOBECBCC, the CSW with its address 001048 and status 0C00, and the code in the ECB
            due = {area["IOB"] + 4: b"\x7F", area["IOB"] + 10: b"\x10\x48\x0C", area["ECB"]: b"\x7F", area["BUFFER"]: b"\xC1\xC2"}
            self.assertEqual(post.changes(), [Change(*it) for it in due.items()])
            memory = bytearray(storage)
            for address, data in post.changes():
                memory[address - post.base : address - post.base + len(data)] = data
            self.assertEqual(bytes(memory), post.storage)

    def test_of_a_post_of_no_issue(self):
        with Site() as site:
            disk, dcb = a_disk(site)
            site.issue(0, dcb, read_record())
            disk.serve()
            found = site.post(0)
        same = dataclasses.replace(found, issued=found.storage)
        self.assertEqual((same, same.changes()), (found, []))
        with self.assertRaisesRegex(ValueError, "does not have its storage as issued"):
            dataclasses.replace(found, issued=None).changes()


class Requests(unittest.TestCase):
    """What comes of requests."""

    def test_events_of_the_manual(self):
        """"Scenarios: one event at a time": a purge with halt meets an active program."""
        with Site() as site:
            disk, dcb = a_disk(site)
            area = read_record()
            self.assertEqual(site.issue(0, dcb, area), Name(0, 0, 1))
            events = disk.take(), disk.start(), disk.run(1), dcb.purge(Mode.HALT), disk.interrupt(), disk.deliver()
            answers = ["Took 0 0 1", "Started 0 0 1", "Ran 1", "Active 0 0 1", "Ended 0 0 1 48", "Delivered 0 0 1"]
            self.assertEqual([str(it) for it in events], answers)
            post = site.next_post(0)
            self.assertEqual((str(post), post.at(area["BUFFER"], 4)), ("post 0 0 1 48 001038 0C00 0000 0000", bytes(4)))
            self.assertIsNone(site.next_post(0))

    def test_post_writes_iob_and_ecb(self):
        with Site() as site:
            disk, dcb = a_disk(site)
            area = read_record()
            site.issue(0, dcb, area)
            self.assertEqual(disk.serve(), excp.Served(1, 3, ServedEnd.ALL))
            post = site.next_post(0)
            self.assertEqual(str(post), "post 0 0 1 7F 001048 0C00 0000 0000")
            self.assertEqual((post.code, post.dcb, post.base), (Code.ENDED, 1, 0x1000))
            iob = excp.Iob.from_bytes(post.at(area["IOB"], 40))
            self.assertEqual((iob.completion, iob.sense, iob.csw, iob.flags), (0x7F, 0, post.csw, 0x42))
            self.assertEqual((post.at(area["ECB"], 4), post.at(area["BUFFER"], 4)), (b"\x7F\0\0\0", b"\xC1\xC2\xC3\xC4"))

    def test_tape_of_the_manual(self):
        with Site() as site:
            blocks = [it.encode("cp037") for it in ("BLOCK1", "BLOCK22")]
            tape = site.tape(items=[*blocks, TAPE_MARK], length=100)
            dcb = tape.open(Method.INPUT)
            for _ in range(3):
                site.issue(0, dcb, request(Ccw(Op.RDF, "BUFFER", Flag.SLI, 16)))
            tape.serve()
            posts = site.posts(0)
            ends = ["7F 001038 0C00 000A 0000", "7F 001038 0C00 0009 0000", "41 001038 0D00 0010 0000"]
            self.assertEqual([str(it) for it in posts], [f"post 0 0 {at} {end}" for at, end in enumerate(ends, 1)])
            self.assertEqual(posts[1].at(0x1038 + 5, 7), blocks[1])

    def test_printer_of_the_manual(self):
        with Site() as site:
            printer = site.printer(lines=100, pages=5)
            title, word = "TITLE".encode("cp037"), "WORD".encode("cp037")
            program = Ccw(Op.PRC1, "DATA", Flag.CC | Flag.SLI, 5), Ccw(Op.PR0, "WORD", Flag.SLI, 4)
            area = request(*program, dcb=printer.open(), data=title)
            area.data("WORD", word)
            site.issue(0, printer.dcb(1), area)
            site.serve()
            self.assertEqual(site.next_post(0).code, Code.ENDED)
            self.assertEqual(printer.printed(), [Line(1, 1, title), Line(2, 1, word)])
            self.assertEqual([it.text for it in printer.printed()], ["TITLE", "WORD"])
            self.assertEqual((printer.state.device, printer.state.printed), (Device.PRINTER, 2))

    def test_write_is_seen_on_the_disk(self):
        with Site() as site:
            disk, dcb = a_disk(site)
            search = Ccw(Op.SIDE, "ID", Flag.CC, 5), Ccw(Op.TIC, "CP")
            site.issue(0, dcb, request(*search, Ccw(Op.WD, "DATA", count=4), data=b"NEW."))
            disk.serve()
            self.assertEqual(disk.records(0, 0)[1:], [Record(0, 0, 1, b"NEW.")])
            self.assertEqual(disk.records(0, 0)[0].number, 0)

    def test_data_check_is_tried_again(self):
        with Site() as site:
            disk, dcb = a_disk(site, faults=[Fault(1, sense=0x0800)])
            site.issue(0, dcb, read_record())
            disk.take()
            disk.start()
            self.assertEqual(str(disk.run()), "Ran 1 pending")
            self.assertEqual(disk.interrupt(), Answer(Kind.AGAIN, Name(0, 0, 1)))
            self.assertEqual((disk.state.phase, disk.state.active), (Active.AWAITS_RESTART, Name(0, 0, 1)))
            disk.settle()
            self.assertEqual((disk.state.phase, disk.state.out), (Active.NONE, 1))

    def test_related_error_until_reset(self):
        with Site() as site:
            disk, dcb = a_disk(site)
            for record in 9, 1:
                site.issue(0, dcb, read_record(record, related=True))
            disk.serve()
            self.assertEqual([it.code for it in site.posts(0)], [Code.PERMANENT_ERROR, Code.PURGED])
            self.assertTrue(dcb.state.in_error)
            with self.assertRaises(excp.InError):
                disk.checkpoint()
            dcb.reset()
            self.assertFalse(dcb.state.in_error)

    def test_close(self):
        with Site() as site:
            disk, dcb = a_disk(site)
            self.assertEqual((dcb.state.phase, dcb.state.file_mask), (DcbPhase.OPEN, 0x18))
            self.assertEqual(str(dcb.close()), "Closed")
            self.assertEqual(dcb.state.phase, DcbPhase.CLOSED)
            site.issue(0, dcb, read_record())
            disk.serve()
            self.assertEqual(site.next_post(0).code, Code.PURGED)
            with self.assertRaises(excp.NoDcb):
                dcb.reset()

    def test_purge_of_a_task(self):
        with Site(tasks=2) as site:
            disk, dcb = a_disk(site)
            for task in 0, 1, 0:
                site.issue(task, dcb, read_record())
                disk.take()
            self.assertEqual([str(it) for it in site.purge_task(0)], ["Quiet"])
            self.assertEqual(disk.state.waiting, (Name(1, 0, 1),))
            disk.serve()
            self.assertEqual([it.code for it in site.posts(0)], [Code.PURGED] * 2)
            self.assertEqual([it.code for it in site.posts(1)], [Code.ENDED])

    def test_storage_is_issued_again(self):
        with Site() as site:
            disk, dcb = a_disk(site)
            first = read_record()
            site.issue(0, dcb, first)
            disk.serve()
            area = site.next_post(0).area()
            self.assertEqual(area.labels, first.labels)
            area.store("ECB", bytes(4))
            self.assertEqual(site.issue(0, dcb, area).number, 2)
            disk.serve()
            post = site.next_post(0)
            self.assertEqual((post.code, post.at("BUFFER", 4)), (Code.ENDED, b"\xC1\xC2\xC3\xC4"))

    def test_each_post_has_the_labels_of_its_area(self):
        """Requests of two areas, of which one is purged; one of bytes without labels; and labels that come after the issue."""
        with Site() as site:
            disk, dcb = a_disk(site)
            other = Area(0x2000)
            other.iob("OTHER", start="PROGRAM", ecb="DONE", dcb=dcb)
            other.ecb("DONE")
            other.program(Ccw(Op.NOP), label="PROGRAM")
            for area, iob in (other, "OTHER"), (read_record(), "IOB"), (Area(0x1000, bytes(read_record())), 0x1000):
                site.issue(0, dcb, area, iob)
            other.space("LATE", 1)
            disk.take()
            dcb.purge()
            disk.serve()
            posts = site.posts(0)
            self.assertEqual([it.code for it in posts], [Code.PURGED, Code.ENDED, Code.ENDED])
            self.assertEqual([sorted(it.labels) for it in posts], [["DONE", "OTHER", "PROGRAM"], sorted(read_record().labels), []])
            with self.assertRaisesRegex(ValueError, "no label 'LATE'"):
                posts[0].at("LATE", 1)

    def test_post_that_is_missing(self):
        with Site() as site:
            disk, dcb = a_disk(site)
            self.assertIsNone(site.next_post(0))
            with self.assertRaises(excp.NoPost) as caught:
                site.post(0)
            self.assertEqual((caught.exception.status, str(caught.exception)), (Status.NO_POST, excp.message(Status.NO_POST)))
            site.issue(0, dcb, read_record())
            with self.assertRaises(LookupError):
                site.post(0)
            disk.serve()
            self.assertEqual(site.post(0).name, Name(0, 0, 1))

    def test_dcb_of_another_site(self):
        """Both sites have a DCB 1 of unit 0."""
        with Site() as site, Site() as other:
            disk, dcb = a_disk(site)
            a_disk(other)
            with self.assertRaisesRegex(ValueError, "<DCB 1 of unit 0> is one of another site"):
                other.issue(0, dcb, read_record())
            with self.assertRaisesRegex(ValueError, "of another site"):
                other.issue(0, disk.dcb(1), read_record())
            with self.assertRaisesRegex(ValueError, "the area has no label 'NOWHERE'"):
                site.issue(0, dcb, read_record(), "NOWHERE")
            self.assertEqual((disk.state.in_flight, other.units[0].state.in_flight), (0, 0))

    def test_posts_as_text_have_names(self):
        """A missing record, by docs/SPECIFICATION.md, rule 9.9. The searches pass R0 and record 1 twice, and the fifth meets the second
        index point: unit check with sense 0008, and the whole count residual."""
        with Site() as site:
            disk, dcb = a_disk(site, [Fault(9, sense=0x0800)])
            site.issue(0, dcb, read_record(9))
            self.assertEqual(repr(disk.take()), "<Answer Took 0 0 1>")
            disk.serve()
            post = site.post(0)
            self.assertIs(post.code, Code.PERMANENT_ERROR)
            self.assertEqual(str(post), "post 0 0 1 41 001038 0E00 0005 0008")
            csw = "<Csw 001038, status 0E00 (channel end, device end, unit check), residual 0005>"
            ended = f"41 (permanent error), {csw}, sense 0008 (no record found)"
            self.assertEqual(repr(post), f"<Post 0 0 1 {ended}, {len(post.storage)} bytes at 001000>")
            self.assertEqual([repr(it) for it in disk.entries()],
                             ["<Entry OPENED, dcb 1, way 1>", "<Entry ARRIVED, name 0 0 1>", "<Entry STARTED, name 0 0 1>",
                              "<Entry RAN, name 0 0 1, commands 5>", f"<Entry POSTED, name 0 0 1, {ended}>"])
            self.assertEqual(repr(dcb.state), "<DcbState OPEN, file mask 18>")
            self.assertEqual(repr(Fault(9, sense=0x0800)),
                             "<Fault at command 9: status 0E00 (channel end, device end, unit check), sense 0800 (data check)>")
            self.assertEqual(repr(Code.ENDED), "<Code.ENDED: 0x7F>")


class Rooms(unittest.TestCase):
    """What does not fit."""

    def test_full_rooms(self):
        with Site(post_room=1) as site:
            disk = site.disk(cylinders=1, heads=1, track_bytes=40, in_flight=2, held=1)
            dcb = disk.open(extents=TRACK)
            area = request(Ccw(Op.NOP))
            site.issue(0, dcb, area)
            site.issue(0, dcb, area)
            self.assertEqual((disk.state.in_flight, disk.state.in_flight_room), (2, 0))
            with self.assertRaises(excp.Full):
                site.issue(0, dcb, area)
            self.assertEqual([str(disk.take()), str(disk.take())], ["Took 0 0 1", "Held"])
            self.assertFalse(disk.state.has_room)
            self.assertEqual(disk.serve().ended, ServedEnd.ROW_FULL)
            self.assertEqual(str(disk.deliver()), "Full 0 0 2")
            self.assertEqual(site.next_post(0).name, Name(0, 0, 1))
            self.assertEqual(disk.serve(), excp.Served(1, 0, ServedEnd.ALL))

    def test_serve_counts_commands(self):
        with Site() as site:
            disk, dcb = a_disk(site)
            site.issue(0, dcb, read_record())
            self.assertEqual(disk.serve(2), excp.Served(0, 2, ServedEnd.COMMANDS))
            self.assertEqual(disk.serve(2), excp.Served(1, 1, ServedEnd.ALL))

    def test_checkpoint(self):
        with Site() as site:
            disk, dcb = a_disk(site)
            site.issue(0, dcb, read_record())
            with self.assertRaises(excp.NotIdle):
                disk.checkpoint()
            disk.serve()
            with self.assertRaises(excp.NotIdle):
                disk.checkpoint()
            site.next_post(0)
            disk.checkpoint()
            self.assertEqual(site.issue(0, dcb, read_record()), Name(0, 0, 2))
            disk.serve()
            self.assertEqual(str(site.next_post(0)), "post 0 0 2 7F 001048 0C00 0000 0000")


def aws(*items):
    """The AWSTAPE image of blocks, each in one chunk, and of tape marks (docs/FORMATS.md)."""
    image, before = b"", 0
    for item in items:
        data = b"" if item is TAPE_MARK else item
        image += struct.pack("<HHBB", len(data), before, 0x40 if item is TAPE_MARK else 0xA0, 0) + data
        before = len(data)
    return image


def ckd(data):
    """The CKD_P370 image of one track of 64 bytes with its R0 and a record."""
    header = b"CKD_P370" + struct.pack("<IIB", 1, 64, 0x90)
    track = bytes(5) + bytes([0, 0, 0, 0, 0, 0, 0, 8]) + bytes(8) + bytes([0, 0, 0, 0, 1, 0, 0, len(data)]) + data + b"\xFF" * 8
    return header.ljust(512, b"\0") + track.ljust(64, b"\0")


class Images(unittest.TestCase):
    """Media from images and as images, by docs/FORMATS.md."""

    def test_tape(self):
        with Site() as site:
            image = aws(b"FIRST", TAPE_MARK)
            tape = site.tape_from(image, length=100)
            self.assertEqual(tape.image(), image)
            tape.open()
            for program in [Ccw(Op.RDF, "BUFFER", Flag.SLI, 16)], [Ccw(Op.WRT, "DATA", count=6)]:
                site.issue(0, tape.dcb(1), request(*program, data=b"SECOND"))
            tape.serve()
            self.assertEqual([it.code for it in site.posts(0)], [Code.ENDED] * 2)
            self.assertEqual(tape.image(), aws(b"FIRST", b"SECOND"))

    def test_disk(self):
        with Site() as site:
            image = ckd(b"\xC1\xC2\xC3\xC4")
            disk = site.disk_from(image)
            self.assertEqual((disk.image(), disk.records(0, 0)[1:]), (image, [Record(0, 0, 1, b"\xC1\xC2\xC3\xC4")]))
            search = Ccw(Op.SIDE, "ID", Flag.CC, 5), Ccw(Op.TIC, "CP")
            site.issue(0, disk.open(extents=TRACK), request(*search, Ccw(Op.WD, "DATA", count=4), data=b"NEW."))
            disk.serve()
            self.assertEqual(disk.image(), ckd(b"NEW."))

    def test_checkpoint(self):
        """A track and a block that are written lose their flag and their chunks, and a checkpoint brings neither back."""
        split = struct.pack("<HHBB", 3, 0, 0x80, 0) + b"FIR" + struct.pack("<HHBB", 2, 3, 0x20, 0) + b"ST"
        flagged = ckd(b"\xC1\xC2\xC3\xC4")
        flagged = flagged[:512] + b"\1" + flagged[513:]
        search = Ccw(Op.SIDE, "ID", Flag.CC, 5), Ccw(Op.TIC, "CP")
        with Site() as site:
            tape, disk = site.tape_from(split, length=100), site.disk_from(flagged)
            for unit in tape, disk:
                unit.checkpoint()
            self.assertEqual((tape.image(), disk.image()), (split, flagged))
            site.issue(0, tape.open(), request(Ccw(Op.WRT, "DATA", count=5), data=b"OTHER"))
            site.issue(0, disk.open(extents=TRACK), request(*search, Ccw(Op.WD, "DATA", count=4), data=b"NEW."))
            site.serve()
            self.assertEqual([it.code for it in site.posts(0)], [Code.ENDED] * 2)
            for unit in tape, disk:
                unit.checkpoint()
            self.assertEqual((tape.image(), disk.image()), (aws(b"OTHER"), ckd(b"NEW.")))

    def test_paper(self):
        with Site() as site:
            printer = site.printer(lines=100, pages=5)
            program = Ccw(Op.PRC1, "DATA", Flag.CC | Flag.SLI, 5), Ccw(Op.PR0, "WORD", Flag.SLI, 4)
            area = request(*program, dcb=printer.open(), data="TITLE".encode("cp037"))
            area.data("WORD", "WORD".encode("cp037"))
            site.issue(0, printer.dcb(1), area)
            site.serve()
            self.assertEqual(printer.image(), b"TITLE\fWORD\r")

    def test_mistakes(self):
        with Site() as site:
            for call, words in ((lambda: site.tape_from(aws(b"FIRST")[:-1]), r"^byte 0: "),
                                (lambda: site.disk_from(b"CKD_"), r"^byte 4: "),
                                (lambda: site.tape_from(aws(b"FIRST"), length=8), r"^byte 0: ")):
                with self.assertRaisesRegex(excp.BadImage, words) as caught:
                    call()
                self.assertEqual(caught.exception.status, Status.BAD_IMAGE)
            with self.assertRaises(excp.BadMedium):
                site.tape_from(aws(b"FIRST"), length=2**32 + 1)
            disk, _ = a_disk(site)
            with self.assertRaises(excp.NoImage):
                disk.image()
            self.assertEqual(disk.number, 0)


class Histories(unittest.TestCase):
    def test_history(self):
        """The entries of "A job in ten lines"."""
        with Site() as site:
            printer = site.printer(lines=100, pages=5)
            site.issue(0, printer.open(), request(Ccw(Op.PR1, "BUFFER", count=5)))
            printer.serve()
            entries = ["DCB 1 opened for output", "task 0 request 1 arrived for DCB 1", "task 0 request 1 started",
                       "task 0 request 1 ran 1 command", "task 0 request 1 posted 7F, CSW 001038 0C00 0000, sense 0000"]
            lines = printer.history().splitlines()
            self.assertEqual([re.sub(r"^#? *\d+ ", "", it) for it in lines if not it.startswith("# unit")], entries)
            self.assertIn("  print, space 1\n", printer.history(most_steps=1))
            whats = [json.loads(it)["what"] for it in printer.record(most_steps=1).splitlines()]
            self.assertEqual(whats, ["unit", "opened", "arrived", "started", "ran", "step", "posted", "medium", "line"])
            self.assertNotIn('"step"', printer.record())

    def test_after_a_checkpoint(self):
        """A history goes on with the numbers of requests, of each task."""
        with Site(tasks=2) as site:
            printer = site.printer(lines=100, pages=5)
            dcb = printer.open()
            for task in 0, 0, 1:
                name = site.issue(task, dcb, request(Ccw(Op.PR1, "BUFFER", count=5)))
                printer.serve()
                site.posts(task)
                history = printer.history()
                self.assertIn(f"task {task} request {name.number} arrived", history)
                self.assertIn(f"task {task} request {name.number} posted 7F", history)
                self.assertEqual(history.count(" arrived "), 1)
                printer.checkpoint()
            self.assertEqual(name.number, 1)
            self.assertNotIn("request", printer.history())


class Mistakes(unittest.TestCase):
    """What calls reject, and that it changes nothing."""

    def rejected(self, status, kind, call, reason=None):
        """A call raises this kind with its reason, or the words of the status."""
        with self.assertRaises(kind) as caught:
            call()
        self.assertEqual((caught.exception.status, type(caught.exception)), (status, kind))
        self.assertEqual(str(caught.exception), reason or excp.message(status))

    def test_each_status_has_words(self):
        words = {excp.message(it) for it in Status}
        self.assertEqual(len(words), len(Status))
        self.assertEqual([excp.message(it) for it in (-1, 30, 1000)], ["unknown status"] * 3)
        self.assertFalse([it for it in words if not it or it.endswith(".")])

    def test_version(self):
        self.assertRegex(excp.version(), r"^\d+\.\d+(\.\d+)?$")

    def test_requests(self):
        with Site() as site:
            disk, dcb = a_disk(site)
            good = bytes(read_record())

            def issue(storage=good, base=0x1000, iob=0x1000, task=0, of=dcb):
                return lambda: site.issue(task, of, Area(base, storage), iob)

            bad = excp.BadRequest
            self.rejected(Status.NO_TASK, excp.ExcpError, issue(task=1))
            for status, call, reason in (
                    (Status.WRONG_DCB, issue(of=disk.dcb(2)), "the IOB names DCB 1, and the call DCB 2"),
                    (Status.AREA_MISALIGNED, issue(base=0x1004), "the base 001004 of the storage is not a multiple of 8"),
                    (Status.AREA_TOO_LONG, issue(good + bytes(8192)), f"storage has at most 8,192 bytes, not {len(good) + 8192}"),
                    (Status.AREA_PAST_TOP, issue(base=0xFFFFF8), "the storage at FFFFF8 ends past 2^24"),
                    (Status.BAD_IOB, issue(iob=0x1002), "the IOB at 001002 is not on a fullword boundary"),
                    (Status.BAD_IOB, issue(good[:39]), "the IOB at 001000 does not lie in the storage at 001000"),
                    (Status.BAD_ECB, issue(good[:7] + b"\x20" + good[8:]), "the ECB at 001020 overlaps the IOB"),
                    (Status.BAD_ECB, issue(good[:6] + b"\x20" + good[7:]), "the ECB at 002028 does not lie in the storage at 001000"),
                    (Status.BAD_PROGRAM, issue(good[:19] + b"\x34" + good[20:]),
                     "the channel program at 001034 is not on a doubleword boundary")):
                self.rejected(status, bad, call, reason)
            self.assertEqual((disk.state.in_flight, issue()()), (0, Name(0, 0, 1)))

    def test_media(self):
        with Site() as site:
            disk = {"cylinders": 1, "heads": 1, "track_bytes": 40}
            bad = excp.BadMedium
            for status, call, reason in (
                    (Status.BAD_GEOMETRY, lambda: site.disk(**{**disk, "heads": 0}), "a cylinder has at least 1 head"),
                    (Status.BAD_GEOMETRY, lambda: site.disk(**{**disk, "cylinders": 0}), "a disk has at least 1 cylinder"),
                    (Status.BAD_GEOMETRY, lambda: site.disk(**{**disk, "cylinders": 65536}), "a disk has at most 65,535 tracks"),
                    (Status.BAD_GEOMETRY, lambda: site.disk(**{**disk, "cylinders": 1024, "track_bytes": 16385}),
                     "a disk has at most 16,777,216 bytes"),
                    (Status.BAD_GEOMETRY, lambda: site.printer(lines=0, pages=1), "a printer has 1 to 100,000 lines, not 0"),
                    (Status.BAD_GEOMETRY, lambda: site.tape_from(b"", length=2**32 + 1),
                     "a tape has at most 4,294,967,296 bytes, not 4294967297"),
                    (Status.BAD_MEDIUM, lambda: site.disk(**disk, records=[Record(0, 0, 1, bytes(17))]),
                     "record 0 does not fit its track, whose records take 41 bytes of 40"),
                    (Status.BAD_MEDIUM, lambda: site.disk(**disk, records=[Record(0, 0, 1, b""), Record(0, 1, 1, b"")]),
                     "record 1: its head is 1, and a cylinder has 1"),
                    (Status.BAD_MEDIUM, lambda: site.disk(**disk, records=[Record(2, 0, 1, b"")]),
                     "record 0: its cylinder is 2, and the disk has 1"),
                    (Status.BAD_MEDIUM, lambda: site.disk(**disk, records=[Record(0, 0, 0, b"")]),
                     "record 0: its number is 0, which only R0 has"),
                    (Status.BAD_MEDIUM, lambda: site.disk(**disk, records=[Record(0, 0, 1, bytes(65536))]),
                     "record 0: data have at most 65,535 bytes, not 65536"),
                    (Status.BAD_MEDIUM, lambda: site.tape(items=[TAPE_MARK, b""]), "item 1: a block has 1 to 65,535 bytes, not 0"),
                    (Status.BAD_MEDIUM, lambda: site.tape(items=[b"12345"], length=8),
                     "item 0 does not fit the tape, whose items take 9 bytes of 8"),
                    (Status.BAD_MEDIUM, lambda: site.tape(faults=[Fault(1), Fault(2, unit_status=0x02)]),
                     "fault 1 has another status than a device shows: unit status 0E, or channel status 08, 04 or 02 without sense")):
                self.rejected(status, bad, call, reason)
            self.rejected(Status.BAD_NUMBER, excp.BadNumber, lambda: site.disk(**disk, held=0))
            # nothing of these is left over for the next medium
            self.assertEqual(len(site.disk(**disk).records(0, 0)), 1)

    def test_extents(self):
        with Site() as site:
            disk, _ = a_disk(site)
            tape, wide = site.tape(), site.disk(cylinders=2, heads=1, track_bytes=40)
            for unit, extents, reason in (
                    (disk, [], "a DCB of a disk has 1 to 16 extents, not 0"),
                    (disk, TRACK * 17, "a DCB of a disk has 1 to 16 extents, not 17"),
                    (disk, TRACK + [Extent(0, 0, 0, 1, 2)], "extent 1: an end of it is not on the disk (cylinders: 1, heads: 1)"),
                    (disk, [Extent(0, 0, 0, 0, 2)], "extent 0: it says 2 tracks, and has 1"),
                    (wide, [Extent(1, 0, 0, 0, 2)], "extent 0: its end lies before its start"),
                    (tape, TRACK, "a DCB of a tape or a printer has no extents")):
                self.rejected(Status.BAD_EXTENT, excp.BadExtent, lambda u=unit, e=extents: u.open(extents=e), reason)
            self.assertEqual(disk.open(extents=TRACK).number, 2)

    def test_names(self):
        with Site() as site:
            disk, _ = a_disk(site)
            none = excp.unit.Unit(site, 1)
            self.rejected(Status.NO_UNIT, excp.ExcpError, none.take)
            self.rejected(Status.NO_TASK, excp.ExcpError, lambda: site.next_post(1))
            self.rejected(Status.NO_DCB, excp.NoDcb, disk.dcb(2).purge)
            self.rejected(Status.BAD_NUMBER, excp.BadNumber, lambda: disk.run(0))
            self.rejected(Status.BAD_MEDIUM, excp.BadMedium, disk.printed, "<unit 0> is no printer")
            self.rejected(Status.BAD_MEDIUM, excp.BadMedium, disk.items, "<unit 0> is no tape")
            self.rejected(Status.BAD_MEDIUM, excp.BadMedium, lambda: site.tape().records(0, 0), "<unit 1> is no disk")
            for place in (1, 0), (0, 1):
                reason = "<unit 0> has no track at cylinder {}, head {}".format(*place)
                self.rejected(Status.NOTHING_THERE, excp.NothingThere, lambda p=place: disk.records(*p), reason)

    def test_numbers_are_not_cut(self):
        """ctypes would make 0 of 65,536."""
        with Site() as site:
            disk, dcb = a_disk(site)
            calls = [lambda: site.issue(65536, dcb, read_record()), lambda: disk.run(2**32), lambda: disk.run(-1),
                     disk.dcb(65537).close]
            for call in calls:
                with self.assertRaises(excp.BadNumber):
                    call()

    def test_freed_site(self):
        site = Site()
        disk, dcb = a_disk(site)
        site.close()
        site.close()
        for call in (disk.take, dcb.reset, lambda: site.next_post(0), disk.history, lambda: disk.state, lambda: site.tape()):
            self.rejected(Status.NO_SITE, excp.NoSite, call)


class Threads(unittest.TestCase):
    def test_threads_share_a_site(self):
        """Each thread has a task, and each serves the unit."""
        count, tasks = 100, 4
        with Site(tasks=tasks) as site:
            disk, dcb = a_disk(site)
            found = [[] for _ in range(tasks)]

            def work(task):
                for _ in range(count):
                    site.issue(task, dcb, read_record())
                    disk.serve()
                    found[task].append(site.next_post(task).code)

            threads = [threading.Thread(target=work, args=(it,)) for it in range(tasks)]
            for it in threads:
                it.start()
            for it in threads:
                it.join()
            self.assertEqual(found, [[Code.ENDED] * count] * tasks)


if __name__ == "__main__":
    unittest.main()
