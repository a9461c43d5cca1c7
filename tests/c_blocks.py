"""c/excp_blocks.h has the constants of the package and of the crates, and its functions store the bytes that the package makes.

The constants are compared with the tables of python/excp, and those that crates have with the crates. A C program stores blocks
with other numbers in each field; the package makes the same blocks. The bytes of a word of indirect addresses are those of
docs/SPECIFICATION.md, rule 4.10. The changes of a storage are worked by hand.
"""

import re

from excp.blocks import Ccw, Code, Extent, Iob, Seek
from excp.device_commands import Flag, Op
from excp.device_status import SENSE_BITS, STATUS_BITS
from harness import TOP, read

HEADER = f"{TOP}/c/excp_blocks.h"
CONSTANT = re.compile(r"\bEXCP_(OP|FLAG|IOB|CODE|UNIT|CHANNEL|SENSE)_(\w+) = (0x[0-9A-F]+)")
STATUS_END = re.compile(r"pub const (\w+_END): UnitStatus = UnitStatus\((0x[0-9A-F]+)\)")
SENSE = re.compile(r"^pub const (\w+): u16 = (0x[0-9A-F]{4});", re.M)
CODE_BYTE = re.compile(r"Code::(\w+) => (0x[0-9A-F]{2})")

# The flags of an IOB that the package has.
IOB_FLAGS = "DATA_CHAINING", "COMMAND_CHAINING", "IO_ERROR", "UNRELATED"


def constants():
    """The constants of the header, by their kind and their name."""
    found = CONSTANT.findall(read(HEADER))
    return {(kind, name): int(number, 16) for kind, name, number in found if name != "LENGTH"}


def named(kind, table, prefix=""):
    """A table of bits as constants of a kind. A name that begins with the kind has it once."""
    return {(kind, name.upper().replace("-", "_").replace(" ", "_").removeprefix(prefix)): bits for bits, name in table.items()}


def of_package():
    """What the package has of the constants: all but the unit statuses with which commands end."""
    unit = {bits >> 8: name for bits, name in STATUS_BITS.items() if bits > 0xFF}
    channel = {bits: name for bits, name in STATUS_BITS.items() if bits <= 0xFF}
    due = {("OP", name): int(op) for name, op in Op.__members__.items()}
    due |= {("FLAG", it.name): it.value for it in Flag} | {("CODE", it.name): it.value for it in Code}
    due |= {("IOB", name): getattr(Iob, name) for name in IOB_FLAGS}
    return due | named("UNIT", unit, "UNIT_") | named("CHANNEL", channel, "CHANNEL_") | named("SENSE", SENSE_BITS)


def of_crates():
    """What the crates have: the unit statuses with which commands end, the sense that devices give, the completion codes."""
    due = {("UNIT", name): int(bits, 16) for name, bits in STATUS_END.findall(read(f"{TOP}/crates/io_images/src/status.rt"))}
    due |= {("SENSE", name): int(bits, 16) for name, bits in SENSE.findall(read(f"{TOP}/crates/device_port/src/answer.rt"))}
    codes = CODE_BYTE.findall(read(f"{TOP}/crates/io_images/src/code.rt"))
    return due | {("CODE", re.sub(r"(?<=[a-z])(?=[A-Z])", "_", name).upper()): int(byte, 16) for name, byte in codes}


# What the C program stores, and what it is due to store: the calls of the header, and the bytes.
IOB = Iob(0x123456, 0x345678, 0x6789, Seek(0x0A, 0x0B0C, 0x0D0E, 0x0F10, 0x11), 0xC6)
STORES = (
    ("excp_store_number(to, 4, 0x12345678)", bytes.fromhex("12345678")),
    ("excp_store_number(to, 1, 0x1FE)", bytes.fromhex("FE")),
    ("excp_store_ccw(to, 0x06, 0x123456, 0x44, 0x789A)", Ccw(0x06, 0x123456, 0x44, 0x789A).to_bytes()),
    ("excp_store_ccw(to, 0x06, 0xFF001060, 0x40, 4)", bytes.fromhex("0600106040000004")),
    ("excp_store_address_word(to, 0x0017FE)", bytes.fromhex("000017FE")),
    ("excp_store_address_word(to, 0x80001060)", bytes.fromhex("00001060")),
    ("excp_seek it = { 0x0A, 0x0B0C, 0x0D0E, 0x0F10, 0x11 }; excp_store_seek(to, &it)", IOB.seek.to_bytes()),
    (
        "excp_iob it = { 0x123456, 0x345678, 0x6789, 0xC6, { 0x0A, 0x0B0C, 0x0D0E, 0x0F10, 0x11 } }; excp_store_iob(to, &it)",
        IOB.to_bytes(),
    ),
    (
        "excp_extent it = { 0x0102, 0x0304, 0x0506, 0x0708, 0x090A }; excp_store_extent(to, &it)",
        Extent(0x0102, 0x0304, 0x0506, 0x0708, 0x090A).to_bytes(),
    ),
    # offsets and lengths of the changes: of bytes 0 and 1, of byte 4, and of bytes 6 and 7, the last ones
    ('excp_change it = { 0, 0 }; while (excp_next_change(BYTES("ABCDEFGH"), BYTES("abCDeFgh"), 8, &it)) { *to++ = (uint8_t)it.offset;'
     " *to++ = (uint8_t)it.length; }", bytes([0, 2, 4, 1, 6, 2])),
    ('excp_change it = { 0, 0 }; to[0] = (uint8_t)excp_next_change(BYTES("ABC"), BYTES("ABCD"), 3, &it);', bytes([0])),
    ('excp_change it = { 0, 0 }; to[0] = (uint8_t)excp_next_change(NULL, NULL, 0, &it);', bytes([0])),
)


# A C program that makes each call over 64 bytes of X'A5', and prints these. What it does not store stays.
PROGRAM = """#include "excp_blocks.h"
#include <stdio.h>

static void print(const uint8_t *bytes)
{
    for (int it = 0; it < 64; it++)
        printf("%02X", bytes[it]);
    puts("");
}

#define BYTES(text) ((const uint8_t *)(text))

int main(void)
{
    uint8_t room[64];
CALLS    return 0;
}
"""


def program():
    """The program with its calls."""
    return PROGRAM.replace("CALLS", "".join(f"    {{ uint8_t *to = room; memset(room, 0xA5, sizeof room); {call}; print(room); }}\n" for call, _ in STORES))


def printed():
    """What the program is due to print."""
    return "".join(f"{(due + bytes([0xA5]) * (64 - len(due))).hex().upper()}\n" for _, due in STORES)
