"""The counts of the units, tasks and subclasses of a live run, read from its memory.

The forms are those of the crates: fields lie in the order of the source, and some have no bytes. A search finds the rows by their
form, and all else by its pointers to rows. A case of the group soak holds up a worker of a run, and compares the counts.
"""

import ctypes
from ctypes import sizeof

BYTE, HALF, WORD, COUNT = ctypes.c_uint8, ctypes.c_uint16, ctypes.c_uint32, ctypes.c_uint64

# Words of the table of a queue: TAIL and HEAD of crossbeam_queue.
SENT, TAKEN = 16, 32

# The states of a Mutex of std, and of a Parker of crossbeam_utils.
LOCKS = {0: "held", 1: "free", 2: "held, waited for", 3: "held, waited for", 4: "left to a waiter"}
PARKERS = {0: "awake", 1: "asleep", 2: "woken"}

# The least bytes of the stack of a further thread, and the most of a part that is read: AddressSanitizer has larger ones.
STACK, LARGEST = 1 << 20, 1 << 28

# A page that nothing has written.
EMPTY = bytes(4096)

# The most bytes of a unit's state, the most units and tasks, and the interruption subclasses.
STATE = 1 << 16
MOST, SUBCLASSES = 64, 8


def form(**fields):
    """A struct with these fields, in this order."""
    return type("Form", (ctypes.Structure,), {"_fields_": list(fields.items())})


# Vec of std, HeapCircularBuffer of circular_buffer, and what an Arc of a Parker points to.
Vec = form(at=COUNT, len=COUNT, capacity=COUNT)
Ring = form(at=COUNT, capacity=COUNT, size=COUNT, start=COUNT)
Token = form(owners=COUNT, words=COUNT, slots=COUNT, word_count=COUNT, slot_count=COUNT, lease=Vec)

# Row with its queue, Sender and Taker of fifo_row.
Row = form(words=COUNT, table=COUNT * 7, capacity=COUNT, lap=COUNT, first=BYTE, senders=HALF, tag=HALF)
Sender = form(row=COUNT, tag=HALF, number=HALF, count=COUNT)
Taker = form(row=COUNT, tag=HALF, counts=Vec)

# Pen of signed_list, and Fan, Pens, Log and Rows of excp_system, and Option<Active> of unit_book.
Fan = form(number=HALF, ends=Vec)
Pens = form(number=HALF, pens=Vec)
Pen = form(queue=COUNT, has_pass=BYTE, number=HALF)
Log = form(queue=COUNT, own=Pen)
Rows = form(tasks=HALF, units=HALF, capacities=COUNT * 2, intake=Vec, post=Vec, notice=Vec)
Active = form(is_some=BYTE, piece=COUNT, starts=WORD, halted=BYTE, covered=BYTE, standing=WORD * 4)

# Of Entries of unit_book all from the field `active` on, and what follows it in UnitState of excp_system.
Book = form(active=Active, waiting=Ring, swept=Ring, dcbs=Vec, trace=Vec, out=Ring)
Unit = form(book=Book, intake=Taker, back=Fan, notice=Sender, log=Log, owes=BYTE)

# Client, with Task of excp_system, and Sleeper of system_threads.
Client = form(number=HALF, out=Fan, taker=Taker, pens=Pens, issued=COUNT, collected=COUNT, parker=COUNT)
Sleeper = form(parker=COUNT, wanted=ctypes.c_int64)


class Memory:
    """The memory that a process can write, without the stacks of its further threads."""

    def __init__(self, pid):
        self.parts, guard = [], 0
        with open(f"/proc/{pid}/maps", encoding="utf-8") as maps, open(f"/proc/{pid}/mem", "rb", 0) as it:
            for line in maps:
                span, rights, *_ = line.split()
                start, end = (int(word, 16) for word in span.split("-"))
                is_stack = start == guard and end - start >= STACK
                if rights.startswith("rw") and not is_stack and end - start <= LARGEST:
                    it.seek(start)
                    self.parts.append((start, it.read(end - start)))
                guard = end if rights.startswith("---") else 0

    def read(self, kind, at):
        """The value at an address, or zeros if this memory does not have it."""
        for start, data in self.parts:
            if start <= at <= start + len(data) - sizeof(kind):
                return kind.from_buffer_copy(data, at - start)
        return kind()

    def items(self, kind, vec):
        """The items of a list."""
        return [self.read(kind, vec.at + place * sizeof(kind)) for place in range(vec.len)]

    def places(self, values):
        """The addresses of the words that have one of these values, and the values."""
        for start, data in self.parts:
            for page in range(0, len(data), len(EMPTY)):
                words = data[page : page + len(EMPTY)]
                for place, word in enumerate(memoryview(words).cast("Q") if words != EMPTY else ()):
                    if word in values:
                        yield start + page + 8 * place, word


def are_rows(memory, vec, count, senders):
    """Whether a list has this many rows for this many senders, each with its number as tag."""
    is_list = 0 < count <= MOST and vec.len == vec.capacity == count
    return is_list and all(it.lap and (it.senders, it.tag) == (senders, tag) for tag, it in enumerate(memory.items(Row, vec)))


def rows_of(memory):
    """The rows of a run, or nothing."""
    for place, _ in memory.places({SUBCLASSES}):
        it = memory.read(Rows, place - Rows.notice.offset - Vec.len.offset)
        wanted = (it.notice, SUBCLASSES, it.units), (it.intake, it.units, it.tasks), (it.post, it.tasks, it.units)
        if all(are_rows(memory, *one) for one in wanted):
            return it
    return None


def total(memory, row, end):
    """How many items were sent into a row, or taken from it. A queue counts a lap as the next power of two."""
    count = memory.read(COUNT, row.words + 8 * end).value
    return count // row.lap * row.capacity + count % row.lap


def sent(memory, fan):
    """How many items went into each row by the ends of a fan."""
    return [it.count for it in memory.items(Sender, fan.ends)]


def found(memory, kind, field, vec, fits):
    """For each row of a list, the first thing of this kind that takes from it and fits, with the address of its end of the row."""
    numbers = {vec.at + number * sizeof(Row): number for number in range(vec.len)}
    things = {}
    for place, row in memory.places(numbers):
        number, it = numbers[row], memory.read(kind, place - getattr(kind, field).offset)
        if number not in things and getattr(it, field).tag == number and fits(it, number):
            things[number] = place, it
    return things


def locks_of(memory, units, count):
    """The state of the lock of each unit. The locks are in a list that begins less than STATE before the first unit's end of its
    row."""
    first = units[0][0] if units else 0
    lists = (memory.read(Vec, place) for place, _ in memory.places(range(first - STATE, first, 8)))
    at = max((it.at for it in lists if it.len == it.capacity == count), default=first)
    size = first - at + sizeof(Unit) - Unit.intake.offset
    locks = memory.items(form(state=COUNT, number=HALF, rest=BYTE * (size - 2 * sizeof(COUNT))), Vec(at, count, count))
    return [LOCKS.get(it.state, it.state) if it.number == number else "unknown" for number, it in enumerate(locks)]


def units_told(memory, rows):
    """A line of each unit: the counts of its intake row, and those of its state if all units have one."""
    notices = {rows.notice.at + subclass * sizeof(Row) for subclass in range(SUBCLASSES)}

    def fits(it, number):
        lens = it.intake.counts.len, it.back.ends.len
        rooms = {ring.capacity for ring in (it.book.waiting, it.book.swept, it.book.out)}
        return it.back.number == number and lens == (rows.tasks, rows.tasks) and it.notice.row in notices and len(rooms) == 1

    units = found(memory, Unit, "intake", rows.intake, fits)
    units = units if len(units) == rows.units else {}
    locks = locks_of(memory, units, rows.units) if units else []
    for number, row in enumerate(memory.items(Row, rows.intake)):
        taken = total(memory, row, TAKEN)
        line = f"unit {number}: sent to it {total(memory, row, SENT)}, taken {taken}"
        if units:
            it = units[number][1]
            waiting, active, out = it.book.waiting.size, it.book.active.is_some, it.book.out.size
            delivered = sum(sent(memory, it.back))
            line += f", waiting {waiting}, active {active}, posted and not delivered {out}, delivered {delivered}"
            line += "" if taken == waiting + active + out + delivered else " (a call moves one)"
            line += f", notices {it.notice.count}, owed {it.owes}, lock {locks[number]}"
        yield line


def wanted_of(memory, parkers):
    """How many posts each task still sleeps for. The list has, for each task, what it parks on and that number."""
    places = {place for place, _ in memory.places({parkers[0]})}
    for place, _ in memory.places(places):
        vec = memory.read(Vec, place)
        sleepers = memory.items(Sleeper, vec) if vec.len == vec.capacity == len(parkers) else []
        if [it.parker for it in sleepers] == parkers:
            return [it.wanted for it in sleepers]
    return ["unknown"] * len(parkers)


def tasks_told(memory, rows):
    """A line of each task: the counts of its post row, and those of its client if all tasks have one."""

    def fits(it, number):
        token = memory.read(Token, it.parker)
        lens = it.taker.counts.len, it.out.ends.len, token.word_count, token.lease.len
        return it.number == it.out.number == number and lens == (rows.units, rows.units, 1, 1) and token.words == token.lease.at

    clients = found(memory, Client, "taker", rows.post, fits)
    clients = [clients[number][1] for number in range(rows.tasks)] if len(clients) == rows.tasks else []
    wanted = wanted_of(memory, [it.parker for it in clients]) if clients else []
    for number, row in enumerate(memory.items(Row, rows.post)):
        line = f"task {number}: delivered {total(memory, row, SENT)}, collected {total(memory, row, TAKEN)}"
        if clients:
            it = clients[number]
            collected = [one.value for one in memory.items(COUNT, it.taker.counts)]
            state = memory.read(COUNT, memory.read(Token, it.parker).words).value
            line += f", by unit issued {sent(memory, it.out)} and collected {collected}"
            line += f", {PARKERS.get(state, state)}, wanted {wanted[number]}"
        yield line


def subclasses_told(memory, rows):
    """A line of each subclass that had notices."""
    for number, row in enumerate(memory.items(Row, rows.notice)):
        if total(memory, row, SENT):
            yield f"subclass {number}: notices {total(memory, row, SENT)}, taken {total(memory, row, TAKEN)}"


def told(pid):
    """The counts of a run, a line for each unit, task and subclass."""
    try:
        memory = Memory(pid)
    except OSError as error:
        return f"no counts: {error}\n"
    rows = rows_of(memory)
    if not rows:
        return "no counts: its memory has no rows\n"
    return "\n".join([*units_told(memory, rows), *tasks_told(memory, rows), *subclasses_told(memory, rows), ""])
