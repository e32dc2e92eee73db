"""What `ship` and `follow` must do: the records of a journal as packets, and the journal of a second machine that takes them. By docs/
alone, with no look into the program's code."""
import books
from books import MOST_HEAD, NoRecord, demand, read_journal
from inputs import MOST_FILE

MOST_RECORD = 1 << 20


def packet(number, record):
    return number.to_bytes(4, "big") + len(record).to_bytes(4, "big") + record


def records_of(data):
    """The records of a journal that opens, its header first."""
    return [record for _, record in books.frames(data)[0]]


def shipped(data, first, last):
    """What `ship` appends: the packets of the records with these numbers, as far as there are any."""
    records = list(enumerate(records_of(data), 1))[first - 1 : last]
    return b"".join(packet(number, record) for number, record in records)


def packets_of(data):
    """The packets of a file, each its number and record, and the place where they end with more bytes behind it, or None."""
    found, at = [], 0
    while at < len(data):
        end = at + 8 + int.from_bytes(data[at + 4 : at + 8], "big")
        if at + 8 > len(data) or end > len(data):
            return found, at
        found.append((int.from_bytes(data[at : at + 4], "big"), data[at + 8 : end]))
        at = end
    return found, None


class Held:
    """The records that a journal's bytes hold for a follower: none where nothing was made there; `fault` is the line of its refusal."""

    def __init__(self, data):
        self.data, self.records, self.book, self.fault, self.end = data, [], None, None, 0
        if len(data) > 1 and data[0]:
            journal = read_journal(data)
            self.fault, self.end = journal.fault, journal.end
            for record in [] if self.fault else records_of(data):
                self.add(record)
        self.old = len(self.records)

    def add(self, record):
        """Takes a record, which must be a header, or then one that may stand next."""
        demand(len(record) <= (MOST_RECORD if self.records else MOST_HEAD))
        if self.records:
            self.book.take(record, 2)
        else:
            demand(books.version_of(record) == 2)
            self.book = books.Book(*books.read_head(record))
        self.records.append(record)

    def take(self, packets):
        """Takes packets in their order, each whose number is the next one: the number of the first that may not stand there, or None."""
        for number, record in packets:
            if number != len(self.records) + 1:
                continue
            try:
                self.add(record)
            except NoRecord:
                return number
        return None

    def written(self):
        """The bytes of the journal with all that it holds."""
        added = self.records[self.old :]
        front = self.data[: self.end] + books.put_journal(added) if added else self.data
        return front + self.data[len(front) :]


def taken(files):
    """What a follower holds after the packets of `received.fin`, and the status and the line of `follow`."""
    held = Held(files.get("journal.bin", b""))
    if held.fault:
        return held, (12 if held.fault.startswith("version ") else 6, held.fault)
    data = files.get("received.fin")
    if data is None:
        return held, (3, "read fault 0 1")
    if len(data) > MOST_FILE:
        return held, (9, f"too large {MOST_FILE + 1} 0")
    packets, at = packets_of(data)
    if at is not None:
        return held, (10, f"framing {at}")
    number = held.take(packets)
    return held, (0, None) if number is None else (18, f"not next {number}")


def wrong(run):
    """What is wrong with what one of these commands wrote."""
    if run.name == b"ship":
        if run.status == 0 and run.appended() != shipped(run.before["journal.bin"], *map(int, run.words[1:])):
            yield "the packets aren't those of the journal's records"
        return
    if run.status not in (0, 18):
        return
    held, (status, _) = taken(run.before)
    if (run.after.get("journal.bin") or b"") != held.written():
        yield "the journal isn't the one before with the packets' records"
    packets, _ = packets_of(run.before["received.fin"])
    line = f"PACKETS {len(packets):06d} ADDED {len(held.records) - held.old:06d} HAVE {len(held.records):08d}\n"
    if status == 0 and run.out.decode() != line:
        yield f"it prints {run.out[:60]!r}, and {line!r} is meant"


def on_the_way(dice, packets, others):
    """Packets as a link may bring them: lost, doubled, in another order; seldom with bytes turned or cut, which a link must not do."""
    packets = list(packets)
    what = dice.randrange(5)
    if what == 0:
        dice.shuffle(packets)
    elif what == 1:
        packets = [it for it in packets if dice.random() < 0.8]
    elif what == 2:
        packets = [it for it in packets for _ in range(dice.choice([1, 1, 2, 3]))]
    elif what == 3:
        at = dice.randrange(len(packets) + 1)
        packets = packets[at:] + packets[:at]
    if dice.random() < 0.2:
        packets.insert(dice.randrange(len(packets) + 1), dice.choice(others))
    return packets


def odd_packets(dice, records):
    """Packets that no journal ships: another number, another record under a number, an empty one, one that says more than it has."""
    number, record = dice.randrange(len(records) + 3), dice.choice(records)
    odd = [packet(number, record), packet(number, b""), packet(number, b"AB"), packet(1 << 31, record), packet(number, record + b"\0")]
    odd += [packet(number, record)[:-1], packet(number, record)[:7], number.to_bytes(4, "big") + b"\xff" * 4, b"\0"]
    return odd + [packet(number, record[:at] + bytes([record[at] ^ 1]) + record[at + 1 :]) for at in [dice.randrange(len(record))]]
