"""What the package declares of the library is what c/excp.h says."""

import ctypes
import os
import re
import shutil
import subprocess
import tempfile
import unittest

from excp import library
from excp.errors import Status
from excp.values import Active, DcbPhase, Device, EntryKind, Kind, Method, Mode, ServedEnd

HEADER = os.path.join(os.path.dirname(os.path.realpath(__file__)), "..", "..", "c", "excp.h")

# The structures by their names in C.
STRUCTURES = {
    "excp_site": library.Handle,
    "excp_room": library.Room,
    "excp_answer": library.Answer,
    "excp_served": library.Served,
    "excp_post": library.Post,
    "excp_unit_state": library.UnitState,
    "excp_active_request": library.ActiveRequest,
    "excp_place": library.Place,
    "excp_dcb_state": library.DcbState,
    "excp_trace_entry": library.Entry,
    "excp_record": library.Record,
    "excp_item": library.Item,
    "excp_line": library.Line,
    "excp_channel_ran": library.ChannelRan,
    "excp_channel_status": library.ChannelStatus,
}

# The parameters in C of each word of CALLS.
PARAMETERS = {
    "u8": ["uint8_t"],
    "u16": ["uint16_t"],
    "u32": ["uint32_t"],
    "u64": ["uint64_t"],
    "size": ["size_t"],
    "bytes": ["const uint8_t *", "size_t"],
    "buffer": ["uint8_t *", "size_t"],
    "ref": ["ref"],
}


def header():
    """The header without its comments."""
    with open(HEADER, encoding="ascii") as it:
        return re.sub(r"/\*.*?\*/", " ", it.read(), flags=re.S)


def parameter(text):
    """The type of a parameter. One of a pointer to something else than bytes is `ref`."""
    found = re.fullmatch(r"\s*((?:const )?\w+ \*?)\w+\s*", text).group(1).strip()
    return found if found in ("const uint8_t *", "uint8_t *") or not found.endswith("*") else "ref"


class Declarations(unittest.TestCase):
    def test_calls(self):
        found = {}
        for name, words in re.findall(r"\bexcp_status excp_(\w+)\(excp_site \*site(.*?)\);", header(), re.S):
            found[name] = [parameter(it) for it in words.split(",")[1:]]
        declared = {name: [it for word in words.split() for it in PARAMETERS[word]] for name, words in library.CALLS.items()}
        self.assertEqual(found, declared)

    def test_all_structures_are_declared(self):
        self.assertEqual(set(re.findall(r"typedef struct (\w+)", header())), set(STRUCTURES))

    def test_numbers_of_the_enumerations(self):
        found = {name: int(number) for name, number in re.findall(r"\bEXCP_(\w+) = (\d+)", header())}
        declared = {it.name: it.value for kinds in (Status, Kind, Device, Method, Mode) for it in kinds}
        declared.update({"NONE_ACTIVE": Active.NONE, **{it.name: it.value for it in Active if it != Active.NONE}})
        declared.update({f"DCB_{it.name}": it.value for it in DcbPhase})
        declared.update({f"SERVED_{it.name}": it.value for it in ServedEnd})
        declared.update({f"ENTRY_{it.name}": it.value for it in EntryKind})
        self.assertEqual(found, declared)

    @unittest.skipUnless(shutil.which("cc"), "there is no C compiler")
    def test_layouts_of_the_structures(self):
        fields = [(name, it[0]) for name, kind in STRUCTURES.items() for it in kind._fields_]
        prints = [f'printf("%zu %zu\\n", offsetof({name}, {it}), sizeof(({name} *)0)->{it});' for name, it in fields]
        prints += [f'printf("%zu\\n", sizeof({name}));' for name in STRUCTURES]
        with tempfile.TemporaryDirectory() as folder:
            with open(f"{folder}/layouts.c", "w", encoding="ascii") as it:
                it.write("#include <excp.h>\n#include <stdio.h>\nint main(void)\n{\n" + "\n".join(prints) + "\nreturn 0;\n}\n")
            subprocess.run(["cc", f"-I{os.path.dirname(HEADER)}", f"{folder}/layouts.c", "-o", f"{folder}/layouts"], check=True)
            found = subprocess.run([f"{folder}/layouts"], stdout=subprocess.PIPE, check=True).stdout.decode().split("\n")
        declared = [f"{getattr(STRUCTURES[name], it).offset} {getattr(STRUCTURES[name], it).size}" for name, it in fields]
        declared += [str(ctypes.sizeof(it)) for it in STRUCTURES.values()]
        self.assertEqual(found, [*declared, ""])


class Places(unittest.TestCase):
    def test_variable_alone_counts(self):
        before = os.environ.get("EXCP_LIBRARY")
        try:
            os.environ["EXCP_LIBRARY"] = "/nowhere/libexcp.so"
            self.assertEqual(list(library.places()), ["/nowhere/libexcp.so"])
            del os.environ["EXCP_LIBRARY"]
            package = os.path.dirname(library.__file__)
            self.assertEqual(next(library.places()), os.path.join(os.path.realpath(package), "libexcp.so"))
        finally:
            os.environ.pop("EXCP_LIBRARY", None)
            if before is not None:
                os.environ["EXCP_LIBRARY"] = before


if __name__ == "__main__":
    unittest.main()
