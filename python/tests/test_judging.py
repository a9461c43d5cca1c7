"""Logs that another program could have written: those of sites here, by seeds, and the same with one thing changed."""

import dataclasses
import random
import unittest

from excp import (TAPE_MARK, Area, Ccw, Code, Extent, Fault, Flag, LoggedEvent, Mode, Name, Op, Record, Seek, Site, Verdict, judge)
from excp.errors import ExcpError
from excp.judging import EVENTS
from excp.values import Kind

SEEDS = 40
EVENTS_OF_A_LOG = 120
TRACK = (Extent.between((0, 0), (0, 0), 1),)


def fresh():
    """A site with two tasks, a disk and a tape, each of which meets a fault."""
    site = Site(tasks=2)
    site.disk(cylinders=1, heads=1, track_bytes=40, records=[Record(0, 0, 1, b"DATA")], faults=[Fault(3, sense=0x0800)])
    site.tape(items=[b"ONE", TAPE_MARK, b"TWO"], length=100, faults=[Fault(5, sense=0x1000)])
    return site


def request(unit, dcb, chance):
    """A search and a read of the disk, or a read of the tape, of which some are related and some suppress incorrect length."""
    area = Area(0x1000)
    area.iob(dcb=dcb, related=chance.random() < 0.5, seek=Seek(record=1))
    area.ecb()
    flags = chance.choice([Flag.SLI, Flag(0)])
    if unit == 0:
        area.program(Ccw(Op.SIDE, "ID", Flag.CC, 5), Ccw(Op.TIC, "CP"), Ccw(Op.RD, "BUFFER", flags, 4))
    else:
        area.program(Ccw(Op.RDF, "BUFFER", flags, 4))
    area.data("ID", bytes([0, 0, 0, 0, 1]))
    area.space("BUFFER", 4)
    return area


def event_at_random(chance):
    unit, dcb = chance.randrange(2), chance.choice([1, 1, 1, 2])
    word = chance.choice(["issue"] * 3 + ["take", "start", "run", "interrupt", "deliver"] * 4 + ["purge", "purge_task", "close", "reset"])
    event = LoggedEvent(word, unit, task=chance.randrange(2), dcb=dcb, mode=chance.choice(list(Mode)))
    if word == "issue":
        return dataclasses.replace(event, area=request(unit, dcb, chance))
    return dataclasses.replace(event, commands=chance.randrange(1, 4)) if word == "run" else event


def log_of(seed):
    """A log of events that did something, each with its answer, and of the posts that were delivered."""
    chance, events, posts = random.Random(seed), [], []
    begun = [LoggedEvent("open", unit, extents=TRACK if unit == 0 else ()) for unit in (0, 0, 1, 1)]
    with fresh() as site:
        for event in begun + [event_at_random(chance) for _ in range(EVENTS_OF_A_LOG)]:
            try:
                answer = EVENTS[event.word](site, event)
            except ExcpError:
                continue
            kind = getattr(answer, "kind", None)
            # a quiet purge may have posted what waits
            if kind in (Kind.HELD, Kind.BUSY, Kind.IDLE) or (kind == Kind.QUIET and not event.word.startswith("purge")):
                continue
            if event.word == "run":
                event = dataclasses.replace(event, commands=answer.commands)
            events.append(dataclasses.replace(event, answer=str(answer)))
            if kind == Kind.DELIVERED:
                posts.append(site.post(answer.name.task))
    return events, posts


def judged(events, posts=None):
    with fresh() as site:
        return judge(site, events, posts)


def changed(items, place, **values):
    """The items with one of them changed."""
    return [*items[:place], dataclasses.replace(items[place], **values), *items[place + 1 :]]


class Logs(unittest.TestCase):
    """Logs of sites here, and with one thing changed."""

    @classmethod
    def setUpClass(cls):
        cls.logs = [log_of(seed) for seed in range(SEEDS)]

    def test_right(self):
        self.assertGreater(sum(len(posts) for _, posts in self.logs), 3 * SEEDS)
        for events, posts in self.logs:
            self.assertIsNone(judged(events, posts))
            self.assertIsNone(judged([dataclasses.replace(it, answer="") for it in events], posts[::-1]))

    def test_an_answer(self):
        """Another answer is at fault where it is."""
        for seed, (events, posts) in enumerate(self.logs):
            place = random.Random(seed).randrange(len(events))
            found = judged(changed(events, place, answer="Ended 1 1 9 7F"), posts)
            self.assertEqual((found.place, found.reason.partition(": ")[2].partition(",")[0]), (place, "the log has Ended 1 1 9 7F"))

    def test_a_post(self):
        """Another code, and another byte, are at fault at their delivery; so is a post that the log lacks."""
        for events, posts in self.logs:
            deliveries = [at for at, it in enumerate(events) if it.answer.startswith("Delivered")]
            for number in {0, len(posts) - 1} if posts else ():
                post = posts[number]
                place = next(at for at in deliveries if events[at].answer == f"Delivered {post.name}")
                others = posts[:number] + posts[number + 1 :]
                byte = bytes([post.storage[-1] ^ 1])
                at, mine, yours = post.base + len(post.storage) - 1, byte[0], post.storage[-1]
                head = f"deliver at unit {post.name.unit}: the log has "
                for logged, reason in (
                        (dataclasses.replace(post, code=Code(0x42)), head + f"post {post.name} 42 "),
                        (dataclasses.replace(post, storage=post.storage[:-1] + byte),
                         head + f"{mine:02X} at {at:06X}, and the supervisor {yours:02X}"),
                        (None, head + f"no post of {post.name}")):
                    found = judged(events, [*others, logged] if logged else others)
                    self.assertEqual((found.place, found.reason[: len(reason)]), (place, reason))

    def test_a_post_that_was_not_delivered(self):
        for events, posts in self.logs:
            if posts:
                more = dataclasses.replace(posts[0], name=Name(0, 0, 99))
                self.assertEqual(judged(events, [*posts, more]), Verdict(len(events), "the log has a post of 0 0 99, and it was not delivered"))

    def test_a_second_post(self):
        """Of a request that was posted once: the first is compared, and the second is left, whichever of them is right."""
        for events, posts in self.logs:
            for post in posts[:2]:
                other = dataclasses.replace(post, code=Code(0x42))
                left = Verdict(len(events), f"the log has a post of {post.name}, and it was not delivered")
                self.assertEqual(judged(events, [*posts, post]), left)
                self.assertEqual(judged(events, [*posts, other]), left)
                self.assertIn(f"the log has post {post.name} 42 ", judged(events, [other, *posts]).reason)

    def test_an_event_that_lacks(self):
        """Without a start, the next event of its program does nothing, or something else."""
        for events, posts in self.logs:
            starts = [at for at, it in enumerate(events) if it.answer.startswith("Started")]
            for at in starts[:3]:
                after = next((it for it in events[at + 1 :] if it.unit == events[at].unit and it.word == "run"), None)
                if after:
                    found = judged(events[:at] + events[at + 1 :], posts)
                    self.assertTrue(found and found.place >= at)

    def test_commands(self):
        """A run of more commands than the program has."""
        for events, posts in self.logs:
            for at in [at for at, it in enumerate(events) if it.answer.endswith("pending")][:3]:
                count = events[at].commands
                found = judged(changed(events, at, commands=count + 1, answer=""), posts)
                self.assertEqual(found, Verdict(at, f"run at unit {events[at].unit}, {count + 1} commands: the supervisor does {count} commands"))


class Verdicts(unittest.TestCase):
    """Verdicts worked by hand."""

    def test_before_anything_arrived(self):
        found = judged([LoggedEvent("start", 0)])
        self.assertEqual(found, Verdict(0, "start at unit 0: the supervisor does nothing: Idle"))

    def test_of_no_unit(self):
        found = judged([LoggedEvent("open", 0, extents=TRACK), LoggedEvent("take", 2)])
        self.assertEqual(found, Verdict(1, "take at unit 2: the supervisor rejects it: the site has no such unit"))

    def test_rejected(self):
        found = judged([LoggedEvent("open", 0)])
        self.assertEqual(found, Verdict(0, "open at unit 0: the supervisor rejects it: a DCB of a disk has 1 to 16 extents, not 0"))

    def test_of_another_number(self):
        found = judged([LoggedEvent("open", 1, answer="2")])
        self.assertEqual(found, Verdict(0, "open at unit 1: the log has 2, and the supervisor 1"))

    def test_of_another_order(self):
        """Requests are taken in the order in which they were issued."""
        chance = random.Random(1)
        events = [LoggedEvent("open", 0, extents=TRACK)]
        events += [LoggedEvent("issue", 0, task=it, dcb=1, area=request(0, 1, chance), answer=f"{it} 0 1") for it in (0, 1)]
        found = judged([*events, LoggedEvent("take", 0, answer="Took 1 0 1")])
        self.assertEqual(found, Verdict(3, "take at unit 0: the log has Took 1 0 1, and the supervisor Took 0 0 1"))

    def test_of_no_word(self):
        with self.assertRaisesRegex(ValueError, "there is no event .*, but take, start"):
            judged([LoggedEvent("tick", 0)])


if __name__ == "__main__":
    unittest.main()
