"""Control blocks and areas, by docs/MANUAL.md and docs/SPECIFICATION.md."""

import copy
import pickle
import unittest

from excp import Area, Ccw, Csw, Extent, Flag, Iob, Op, Seek

# The area of "A job in ten lines" (docs/TUTORIAL.md): an IOB, an ECB, a program that prints HELLO.
HELLO = bytes.fromhex(
    "42000000 00001028 00000000 00000000 00001030 00000001 00000000 00000000 00000000 00000000"
    "00000000 00000000 09001038 00000005 C8C5D3D3D6"
)


def hello():
    area = Area(0x1000)
    area.iob()
    area.ecb()
    area.program(Ccw(Op.PR1, "LINE", 0, 5))
    area.data("LINE", "HELLO".encode("cp037"))
    return area


class Blocks(unittest.TestCase):
    def test_area_of_the_manual(self):
        area = hello()
        self.assertEqual(bytes(area), HELLO)
        self.assertEqual([area[it] for it in ("IOB", "ECB", "CP", "LINE")], [0x1000, 0x1028, 0x1030, 0x1038])
        self.assertEqual(area.at("LINE", 5), b"\xC8\xC5\xD3\xD3\xD6")
        self.assertEqual(len(area), len(HELLO))

    def test_ccw_of_the_manual(self):
        image = bytes.fromhex("0600106040000004")
        ccw = Ccw(0x06, 0x1060, Flag.CC, 4)
        self.assertEqual((ccw.to_bytes(), Ccw.from_bytes(image)), (image, ccw))

    def test_iob_keeps_each_field_at_its_place(self):
        iob = Iob(0x123456, 0x345678, 0x56789A, Seek(1, 0x0203, 0x0405, 0x0607, 8), 0xC6, 0x0910, 0x7F,
                  Csw(0x111213, 0x0C, 0x40, 0x1415))
        image = iob.to_bytes()
        places = {0: "C6", 2: "0910", 4: "7F", 5: "123456", 9: "1112130C401415", 17: "345678", 21: "56789A", 32: "0102030405060708"}
        for place, digits in places.items():
            self.assertEqual(image[place : place + len(digits) // 2].hex().upper(), digits)
        self.assertEqual((len(image), Iob.from_bytes(image)), (40, iob))

    def test_extent_of_the_manual(self):
        image = bytes.fromhex("18000000000000000000000000040005")
        extent = Extent(0, 0, 0, 4, 5)
        self.assertEqual((extent.to_bytes(), Extent.from_bytes(image)), (image, extent))
        self.assertEqual(Extent.between((0, 0), (0, 4), 15), extent)
        self.assertEqual(Extent.between((1, 14), (3, 0), 15).tracks, 17)

    def test_related_request(self):
        area = Area(0x2000)
        area.iob(related=True)
        area.ecb()
        area.program(Ccw(Op.NOP))
        self.assertEqual(bytes(area)[0] & 0x02, 0)
        self.assertEqual(bytes(hello())[0] & 0x02, 0x02)

    def test_boundaries(self):
        area = Area(0x1000)
        area.data("BYTE", b"\1")
        self.assertEqual(area.ecb(), 0x1004)
        area.data("NEXT", b"\2")
        self.assertEqual(area.program(Ccw(Op.NOP)), 0x1010)
        self.assertEqual(area.space("WORD", 4, boundary=4), 0x1018)

    def test_store_replaces_bytes(self):
        area = hello()
        area.store(area["ECB"], b"\x7F\0\0\0")
        self.assertEqual(bytes(area), HELLO[:0x28] + b"\x7F\0\0\0" + HELLO[0x2C:])
        for at, content in ((0xFFF, b"1"), (0x103D, b"1"), (0x103C, b"12")):
            with self.assertRaises(ValueError):
                area.store(at, content)

    def test_commands_with_one_code_keep_their_names(self):
        """Rewind and seek are both X'07', write tape mark and set file mask both X'1F'."""
        self.assertEqual([str(it) for it in (Op.REW, Op.SEEK, Op.WTM, Op.SFM)], ["REW", "SEEK", "WTM", "SFM"])
        self.assertEqual(f"{Op.REW} {Op.REW:02X} {Op.REW!r}", "REW 07 <Op.REW: 0x07>")
        self.assertEqual((Op.REW.value, Op.REW == Op.SEEK, Op(0x07), Op["REW"]), (0x07, True, Op.SEEK, Op.REW))
        self.assertEqual(len(set(Op.__members__)), len(list(Op)))
        for copied in copy.deepcopy(Op.REW), pickle.loads(pickle.dumps(Op.REW)):
            self.assertIs(copied, Op.REW)
        with self.assertRaises(ValueError):
            Op(0x99)
        self.assertEqual(Ccw(Op.REW).to_bytes().hex().upper(), "0700000000000001")

    def test_blocks_as_text_have_hexadecimal_and_names(self):
        self.assertEqual(repr(Ccw(Op.REW)), "Ccw(Op.REW, 0x000000, 0, 1)")
        self.assertEqual(repr(Ccw(0x06, "BUFFER", Flag.CC | Flag.SLI, 4)), "Ccw(0x06, 'BUFFER', Flag.CC|Flag.SLI, 4)")
        self.assertEqual(repr(Ccw(0x06, 0x1060, 0x41, 4)), "Ccw(0x06, 0x001060, Flag.CC|0x01, 4)")
        self.assertEqual(repr(Csw(0x1048, 0x0E, 0x40, 4)),
                         "<Csw 001048, status 0E40 (channel end, device end, unit check, incorrect length), residual 0004>")
        self.assertEqual(str(Csw(0x1048, 0x0E, 0x40, 4)), "001048 0E40 0004")
        self.assertEqual(repr(Extent(0, 0, 0, 4, 5)), "Extent(0, 0, 0, 4, 5, file_mask=0x18, unit_block=0x000000, bin=0)")
        self.assertTrue(repr(Iob(0x1028, "CP", 1)).startswith("Iob(ecb=0x001028, start='CP', dcb=1, seek=Seek("))
        for block in Ccw(0x06, "BUFFER", Flag.CC | Flag.SLI, 4), Extent(0, 0, 0, 4, 5):
            self.assertEqual(eval(repr(block)), block)

    def test_area_as_text_is_a_short_dump(self):
        self.assertEqual(repr(hello()), "<Area of 61 bytes at 001000, IOB 001000, ECB 001028, CP 001030, LINE 001038\n"
                         "  001000 42000000 00001028 00000000 00000000 00001030 00000001 00000000 00000000\n"
                         "  001020 00000000 00000000 00000000 00000000 09001038 00000005 C8C5D3D3 D6>")
        long = repr(Area(0x1000, bytes(8192))).splitlines()
        self.assertEqual((len(long), long[-1]), (6, "  .. 8064 bytes more>"))
        # a piece whose label comes later can still be laid out after its area was shown
        area = Area(0x1000)
        area.program(Ccw(Op.RD, "BUFFER", count=4))
        self.assertIn("001000 00000000 00000000", repr(area))
        area.space("BUFFER", 4)
        self.assertEqual(bytes(area).hex().upper(), "060010080000000400000000")

    def test_area_of_bytes_has_the_labels_that_it_is_given(self):
        area = Area(0x1000, bytes(hello()), hello().labels)
        self.assertEqual((area["LINE"], area.at("LINE", 5)), (0x1038, HELLO[0x38:]))
        with self.assertRaisesRegex(ValueError, "'IOB' is there twice"):
            area.iob()

    def test_mistakes(self):
        area = Area(0x1000)
        area.program(Ccw(Op.RD, "BUFFER", count=4))
        with self.assertRaisesRegex(ValueError, "no label 'BUFFER'"):
            bytes(area)
        with self.assertRaisesRegex(ValueError, "'CP' is there twice"):
            area.program(Ccw(Op.NOP))
        with self.assertRaisesRegex(ValueError, "no address of 24 bits"):
            Ccw(Op.RD, 0x1000000).to_bytes()
        with self.assertRaisesRegex(ValueError, "outside an area"):
            Ccw(Op.RD, "BUFFER").to_bytes()
        with self.assertRaisesRegex(ValueError, "at least one CCW"):
            Area(0x1000).program()
        with self.assertRaisesRegex(ValueError, "no label 'NOWHERE'"):
            area["NOWHERE"]
        for block in Ccw(Op.RD, 0, 0, 65536), Seek(cylinder=-1), Extent.between((1, 0), (0, 0), 2), Csw(residual=65536):
            with self.assertRaises(ValueError) as raised:
                block.to_bytes()
            self.assertEqual(str(raised.exception), f"{block!r}: a number does not fit its field")


if __name__ == "__main__":
    unittest.main()
