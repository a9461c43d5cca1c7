"""The files of a run on a site of the library: images that are loaded, and new files that are
filled. They take the places of their targets after a good end."""

from __future__ import annotations

import contextlib
import os
import signal
from types import FrameType
from typing import (
    AbstractSet, BinaryIO, Callable, Iterator, List, Mapping, Optional, Sequence, Tuple,
)

from ..checking.loaded import Images
from ..files.new_files import NewFiles
from ..files.refusals import Unwritten, refusals_of
from ..files.replacement import Replacement
from ..files.signals import ending, held_back
from ..files.targets import TEXT, Output, Targets
from ..images.reading import Unreadable
from ..images.unpacking import plain_file
from ..site import Site
from .streams import name_of, of_file, say_removed
from .tools import Order
from .unit_files import load_images
from .units import UnitKind, with_content

Units = Callable[[], Optional[Sequence[UnitKind]]]


class _Asked(BaseException):
    """A signal that ends this process has come."""

    def __init__(self, number: int) -> None:
        super().__init__(number)
        self.number = number


class SiteFiles:
    """The images that units are loaded from, open, and the new files for what is saved."""

    def __init__(
        self, order: Order, targets: Targets, plain: Mapping[int, BinaryIO], units: Units
    ) -> None:
        self._order, self._plain, self._units = order, plain, units
        self._new = NewFiles(targets)
        self._media: List[Tuple[int, Output, Replacement]] = []
        self._schedule: Optional[Tuple[Output, Replacement]] = None

    def begin(self) -> None:
        """Makes the new files. Raises Unwritten."""
        if self._order.schedule is not None:
            output = Output(self._order.schedule, TEXT)
            self._schedule = output, self._begun(output)
        for unit, name in self._order.saves.items():
            output = self._known(Output(name, None, unit))
            self._media.append((unit, output, self._begun(output)))

    def _begun(self, output: Output) -> Replacement:
        replacement = self._new.begin(output)
        say_removed(output.name, replacement.removed)
        return replacement

    def measured(self) -> Images:
        """The images, all of which are judged. Raises Ended."""
        return load_images(name_of(self._order.script), self._order.loads)

    def opened(self) -> Mapping[int, BinaryIO]:
        """The files of the images."""
        return self._plain

    def contents(self) -> Mapping[int, bytes]:
        """The bytes of the images. Raises OSError."""
        for file in self._plain.values():
            # one that was unpacked is at its end
            file.seek(0)
        return {unit: file.read() for unit, file in self._plain.items()}

    def save(self, site: Site, schedule: str = "") -> None:
        """Fills the new files with the media of units and with the schedule, and puts them in the
        places of their targets. Raises Unwritten."""
        with held_back():
            if self._schedule is not None:
                output, replacement = self._schedule
                with refusals_of(output.name):
                    replacement.fill([schedule.encode("latin-1")])
            for unit, output, replacement in self._media:
                with refusals_of(output.name):
                    replacement.fill(site.units[unit].image_pieces())
            self._new.finish(self._known)

    def _known(self, output: Output) -> Output:
        return with_content(output, self._units())

    def abandon(self) -> None:
        """Removes the new files that are left."""
        self._new.abandon()


@contextlib.contextmanager
def site_files(order: Order, units: Units) -> Iterator[SiteFiles]:
    """The files of an order, for as long as a run needs them. `units` gives the units that are
    declared so far. Raises Ended. After a signal that ends this process it removes the new files,
    and then ends this process by that signal."""
    try:
        with contextlib.ExitStack() as stack:
            targets = order.targets()
            plain = {
                unit: stack.enter_context(plain_file(name)) for unit, name in order.loads.items()
            }
            files = SiteFiles(order, targets, plain, units)
            before = stack.enter_context(held_back())
            stack.callback(files.abandon)
            files.begin()
            with _let_through(before):
                yield files
    except (Unreadable, Unwritten) as error:
        raise of_file(error.name, error.sentence) from None
    except _Asked as asked:
        signal.signal(asked.number, signal.SIG_DFL)
        os.kill(os.getpid(), asked.number)
        raise


@contextlib.contextmanager
def _let_through(mask: AbstractSet[int]) -> Iterator[None]:
    """Lets signals through that are held back: one that ends this process raises _Asked."""
    handlers = {it: signal.signal(it, _ask) for it in ending()}
    held = signal.pthread_sigmask(signal.SIG_SETMASK, mask)
    try:
        yield
    finally:
        signal.pthread_sigmask(signal.SIG_SETMASK, held)
        for number, handler in handlers.items():
            signal.signal(number, handler)


def _ask(number: int, _: Optional[FrameType]) -> None:
    raise _Asked(number)
