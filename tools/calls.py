"""The public calls of a crate as its sources have them: the name, the comment, what they return, and the names of their promises."""

import glob
import os
import re
from dataclasses import dataclass

TOP = os.path.dirname(os.path.dirname(os.path.realpath(__file__)))

CALL = re.compile(
    r"((?:^[ \t]*(?:///|#\[).*\n)*)^([ \t]*)pub (?:const )?fn (\w+)([^;{]*?)"
    r"((?:\n\s*(?:requires|ensures)\b.*)+|(?=[;{]))",
    re.M,
)
OWNER = re.compile(r"^(?:pub )?(?:impl|trait)\b(?:<.*?>)? ?(?:.* for )?(\w+)", re.M)


@dataclass(frozen=True)
class Call:
    """A public call: `name` or `Type::name`, its comment, its signature after the name, and the names of its `ensures`."""

    name: str
    comment: str
    signature: str
    promises: tuple


def calls(crate):
    """The public calls of a crate, file by file."""
    for file in sorted(glob.glob(f"{TOP}/crates/{crate}/src/**/*.rt", recursive=True)):
        with open(file, encoding="utf-8") as it:
            text = it.read()
        for call in CALL.finditer(text):
            owner = [f"{it[1]}::" for it in OWNER.finditer(text, 0, call.start())][-1:] if call[2] else []
            comment = " ".join(it.strip()[4:] for it in call[1].splitlines() if "///" in it)
            promises = tuple(re.findall(r"ensures (\w+)", call[5]))
            yield Call("".join([*owner, call[3]]), comment, " ".join(call[4].split()), promises)
