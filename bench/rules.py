"""What must hold of every run of the program, whatever it was handed: by docs/ alone, with no look into its code."""
import re

import books
import breaks
import desk
import links
import lists
import markup
from books import amount_text, day_of, read_journal
from inputs import FILES, MOST_FILE, MOST_MESSAGES, READS, Refused, cut, is_command, is_word, read_table, rows_of

# the line of each status, after `corr: `
LINES = {
    0: b"",
    1: b"corr: usage\n",
    2: b"corr: table [a-z]+ \\d+ [a-z]+( \\d+)?\n",
    3: b"corr: read fault 0 1\n",
    4: b"corr: write fault 0 1\n",
    5: b"corr: ((second )?disk fault 0 1|journal is in use|journal can't be locked|journal was removed or cut)\n",
    6: b"corr: (not a journal|damaged \\d+|exists \\d+|unbalanced [A-Z]{3} -?\\d+,\\d*)\n",
    8: b"corr: date back \\d{6}\n",
    9: b"corr: too large \\d+ \\d+\n",
    10: b"corr: framing \\d+\n",
    11: b"corr: full \\d+ \\d+ \\d+\n",
    12: b"corr: version \\d+\n",
    13: b"corr: unknown account\n",
    15: b"corr: no payment \\d+\n",
    16: b"corr: returned \\d+\n",
    17: b"corr: unfunded \\d -?\\d+\n",
    18: b"corr: not next \\d+\n",
}
# the statuses of each command; `usage` is any that is none
STATUSES = {
    b"init": {0, 2, 3, 5, 6},
    b"run": {0, 2, 3, 4, 5, 6, 8, 9, 10, 11, 12},
    b"batch": {0, 2, 3, 4, 5, 6, 8, 9, 10, 11, 12},
    b"send": {0, 4, 5, 6, 12},
    b"bookings": {0, 5, 6, 12},
    b"statements": {0, 4, 5, 6, 12},
    b"reconcile": {0, 2, 3, 5, 6, 9, 10, 12},
    b"balances": {0, 5, 6, 12},
    b"customer-statements": {0, 4, 5, 6, 12},
    b"mend": {0, 3, 5, 6, 12},
    b"open-account": {0, 2, 3, 5, 6, 11, 12},
    b"set-limits": {0, 2, 5, 6, 11, 12, 13},
    b"migrate": {0, 5, 6, 11, 12},
    b"return": {0, 4, 5, 6, 8, 11, 12, 15, 16, 17},
    b"entries": {0, 5, 6, 12},
    b"check": {0, 2, 3, 9, 10},
    b"page": {0, 2, 3, 5, 6, 9, 10, 12},
    b"ship": {0, 4, 5, 6, 12},
    b"follow": {0, 3, 5, 6, 9, 10, 11, 12, 18},
    b"generate": {0, 4},
    b"trial": {0},
    b"--help": {0},
    b"--version": {0},
    b"usage": {1},
}
RUNS = (b"run", b"batch")
SENDERS = (*RUNS, b"send", b"statements", b"customer-statements", b"generate", b"return", b"ship")
DESK = (b"open-account", b"set-limits", b"migrate", b"return", b"mend", b"balances", b"customer-statements")
OPENERS = (b"init", *RUNS, b"send", b"bookings", b"statements", b"reconcile", b"entries", b"page", b"ship", b"follow", *DESK)
CHANGERS = (b"init", *RUNS, b"return", b"open-account", b"set-limits", b"follow")
SILENT = (b"init", b"send", b"statements", b"customer-statements", b"generate", b"migrate", b"open-account", b"set-limits", b"ship")
# the words of a report's line after the reference, by what became of the message
BECAME = re.compile(rb"(\d{6}) (\S{28}) (BOOKED (\d{8}) ([A-Z]{3}) (\d+,\d*)|UNFUNDED (\d{8}) (\S+) (-?\d+,\d*)|P41 (\d{8})|REFUSED [A-Z]\d\d( \S+ \d+)?)")
SENT = re.compile(rb"\{1:F01(.{8})A(.{3})0{10}\}\{2:I(\d{3})(.{8})X(.{3})N\}(\{3:.*?\}\})?\{4:\r\n:20:(\S+)\r\n.*?\r\n-\}", re.DOTALL)


class Run:
    """A command that was given: its words, the files of its folder before and after, and how it ended."""

    def __init__(self, words, before):
        self.words, self.before = words, before
        self.status = self.out = self.err = self.after = None

    @property
    def name(self):
        if self.words in ([b"--help"], [b"--version"]):
            return self.words[0]
        return self.words[0] if is_command(self.words) and all(map(is_word, self.words)) else b"usage"

    def appended(self):
        """What was appended to out.fin."""
        return (self.after.get("out.fin") or b"")[len(self.before.get("out.fin") or b"") :]


def is_odd(files, name):
    """Whether something stands in the place of a file that is none."""
    return name in files and files[name] is None


def table_fault(name, files, home):
    """The tables that a command reads, and the line of the first that is refused."""
    tables = {}
    for table in READS.get(name, []):
        data = files.get(f"{table}.csv")
        if data is None:
            return tables, (3, "read fault 0 1")
        try:
            tables[table] = read_table(table, data, tables, home)
        except Refused as why:
            return tables, (2, f"table {table} {why}")
    return tables, None


def unbalanced(tables):
    """The line for the first currency whose openings don't sum to 0."""
    for ccy in sorted({it[3] for it in tables["accounts"]}):
        total = sum(int(it[6]) for it in tables["accounts"] if it[3] == ccy)
        if total:
            return 6, f"unbalanced {ccy.decode()} {amount_text(total, int(tables['ccys'][ccy]))}"
    return None


def message_fault(data):
    """The line for a message file that can't be read to its end."""
    if data is None:
        return 3, "read fault 0 1"
    messages, at = cut(data)
    if len(data) <= MOST_FILE and len(messages) <= MOST_MESSAGES:
        return None if at is None else (10, f"framing {at}")
    starts, place = [], 0
    for message in messages[: MOST_MESSAGES + 1]:
        place = data.index(message, place)
        starts.append(place)
        place += len(message)
    many = starts[MOST_MESSAGES] + 3 if len(starts) > MOST_MESSAGES else len(data) + 1
    size = min(many, MOST_FILE + 1)
    return 9, f"too large {size} {sum(it + 3 <= size for it in starts)}"


def foreseen(run):
    """The status and the line that a command must end with, as far as its folder shows them."""
    name, files, words = run.name, run.before, run.words
    if name == b"usage":
        return 1, "usage"
    if name not in OPENERS and name != b"check":
        return 0, None
    tables, fault = table_fault(name, files, words[1] if name == b"init" else None)
    if fault:
        return fault
    if name == b"init" and unbalanced(tables):
        return unbalanced(tables)
    if name == b"check" or name == b"page" and message_fault(files.get("messages.fin")):
        return message_fault(files.get("messages.fin")) or (0, None)
    if is_odd(files, "journal.bin"):
        return 5, "disk fault 0 1"
    data = files.get("journal.bin", b"")
    if name == b"migrate":
        return desk.foreseen_copy(files)
    if name == b"follow":
        return links.taken(files)[1]
    if name == b"init":
        return (6, f"exists {data[0]}") if len(data) > 1 and data[0] else (0, None)
    if name in DESK:
        return opened(name, files, words, read_journal(data), run, tables)
    return opened(name, files, words, read_journal(data))


def opened(name, files, words, journal, run=None, tables=None):
    """The same of a command that opens a journal, from there on."""
    if journal.fault:
        return (12 if journal.fault.startswith("version ") else 6), journal.fault
    if name in DESK:
        return desk.foreseen(run, journal, tables)
    if name in RUNS and journal.entries and day_of(words[1]) < journal.entries[-1].day:
        return 8, f"date back {books.day_text(journal.entries[-1].day)}"
    if name in FILES:
        return message_fault(files.get(FILES[name])) or (0, None)
    return 0, None


def wrong_end(run):
    """What is wrong with the status and the lines."""
    if run.status not in STATUSES[run.name]:
        yield f"status {run.status}, which {run.name.decode()} hasn't"
        return
    if not re.fullmatch(LINES[run.status], run.err):
        yield f"standard error says {run.err[:100]!r} at status {run.status}"
    status, line = foreseen(run)
    is_free = run.status in (4, 11) and status == 0 and (run.status == 11 or is_odd(run.before, "out.fin"))
    if (run.status, run.err) != (status, f"corr: {line}\n".encode() if line else b"") and not is_free:
        yield f"status {run.status}, {run.err[:100]!r}, and {status}, {line!r} is wanted"
    if run.status not in (0, 4) and run.out:
        yield f"{len(run.out)} bytes on standard output at status {run.status}"


def wrong_files(run):
    """What is wrong with the files of the folder afterwards."""
    before, after = run.before, run.after
    if run.name != b"migrate" and before.get("journal2.bin") != after.get("journal2.bin"):
        yield "journal2.bin was written to"
    elif before.get("journal2.bin", b"") != after.get("journal2.bin", b"") and run.status not in (0, 5):
        yield "journal2.bin was written to"
    for name in sorted({*before, *after} - {"journal.bin", "journal2.bin", "out.fin"}):
        if (name in before, before.get(name)) != (name in after, after.get(name)):
            yield f"{name} was written to, made or removed"
    if before.get("out.fin") != after.get("out.fin"):
        if run.name not in SENDERS or run.status not in (0, 4):
            yield "out.fin was written to"
        elif not (after.get("out.fin") or b"").startswith(before.get("out.fin") or b""):
            yield "what stood in out.fin is gone"
    if before.get("journal.bin") != after.get("journal.bin"):
        is_empty = "journal.bin" not in before and after.get("journal.bin") == b""
        is_made = is_empty and run.name in OPENERS and (run.status == 6 or run.name == b"follow")
        if not is_made and not (run.name in CHANGERS and run.status in (0, 4, 11, 18)):
            yield "journal.bin was written to"


def wrong_content(run):
    """What is wrong with what a command that ended well printed, sent and entered."""
    if run.status in (0, 4, 11) and run.name in RUNS:
        yield from wrong_history(run)
    if run.name in (b"ship", b"follow"):
        yield from links.wrong(run)
    if run.status != 0:
        return
    journal = read_journal(run.after.get("journal.bin") or b"") if run.name in OPENERS else None
    if run.name in RUNS:
        yield from wrong_report(run, journal)
        yield from wrong_sent(run, journal)
    elif run.name == b"init":
        yield from wrong_journal_made(run)
    elif run.name == b"bookings" and run.out != books.bookings(journal).encode():
        yield "the bookings aren't those of the journal"
    elif run.name == b"statements" and run.appended() != books.statements(journal, day_of(run.words[1])).encode():
        yield "the statements aren't those of the journal"
    elif run.name == b"send":
        yield from wrong_again(run, journal)
    elif run.name == b"reconcile":
        yield from wrong_breaks(run, journal)
    elif run.name in (b"entries", b"check"):
        yield from lists.wrong(run, journal)
    elif run.name == b"page":
        yield from markup.wrong(run, journal)
    elif run.name in DESK:
        yield from desk.wrong(run, journal)
    if run.name == b"return":
        yield from wrong_references(run.appended(), journal, len(journal.entries), len(journal.entries))
    elif run.name == b"trial":
        yield from wrong_trial(run.out)
    if run.out and run.name in SILENT:
        yield f"{len(run.out)} bytes on standard output"


def wrong_journal_made(run):
    home, old = run.words[1], run.before.get("journal.bin", b"")
    tables, _ = table_fault(b"init", run.before, home)
    rows = [
        books.Account(*row[:2], (row[2] + b"XXX")[:11], row[3], int(tables["ccys"][row[3]]), *map(int, row[4:])) for row in tables["accounts"]
    ]
    made = books.put_journal([books.put_head((home + b"XXX")[:11], rows)])
    if run.after.get("journal.bin") != made + old[len(made) :]:
        yield "the journal that was made isn't that of the tables"


def wrong_history(run):
    """What is wrong with the journal after a run."""
    data, written = run.before.get("journal.bin", b""), run.after.get("journal.bin", b"")
    old, new = read_journal(data), read_journal(written)
    if new.fault:
        yield f"the journal doesn't open after the run: {new.fault}"
        return
    if new.entries[: len(old.entries)] != old.entries or written[: old.end] != data[: old.end]:
        yield "entries that stood are others now"
    if run.status == 11 and run.err.split()[:4] != f"corr: full {len(new.entries)} {new.end}".encode().split():
        yield f"the journal is full otherwise than {run.err!r} says"
    if any(it.day != day_of(run.words[1]) for it in new.entries[len(old.entries) :]):
        yield "an entry of another day"
    balances = [it.opening for it in new.accounts]
    for entry in new.entries:
        books.add_entry(entry, balances)
    for account, balance in zip(new.accounts, balances):
        if not account.floor <= balance <= account.ceil:
            yield f"the balance of {account.ident.decode()} is {balance}"


def wrong_report(run, journal):
    """What is wrong with the report of a run."""
    messages, _ = cut(run.before["messages.fin"])
    lines, old = run.out.splitlines(keepends=True), len(read_journal(run.before["journal.bin"]).entries)
    tail = f"MESSAGES {len(messages):06d} ENTRIES {len(journal.entries):08d}\n" + books.totals(journal)
    if b"".join(lines[len(messages) :]) != tail.encode():
        yield "the last lines of the report aren't those of the journal"
    if any(it[3] != it[5] for it in map(bytes.split, lines[len(messages) + 1 :])):
        yield "debits aren't equal to credits"
    named, charges = {}, {ccy: int(much) for ccy, much in rows_of(run.before["charges.csv"])}
    for number, (line, message) in enumerate(zip(lines, messages), 1):
        fields = BECAME.fullmatch(line[:-1])
        if not fields or int(fields[1]) != number:
            yield f"line {number} of the report is {line[:100]!r}"
            return
        place = int(fields[4] or fields[7] or fields[10] or 0)
        named.update({place: None} if place > old else {})
        yield from wrong_line(number, fields, message, place, journal)
        if place > old and not fields[10]:
            yield from wrong_entry(journal, place)
            yield from wrong_charge(journal, place, charges)
    if sorted(named) != list(range(old + 1, len(journal.entries) + 1)):
        yield "not each new entry has a line"
    if run.words[2].lstrip(b"0") == b"1" and list(named) != sorted(named):
        yield "one worker didn't go in the order of the file"


def wrong_line(number, fields, message, place, journal):
    """What is wrong with a line that names an entry."""
    if fields[2] != b"-" * 28 and fields[2] not in message:
        yield f"line {number}: a reference that the message hasn't"
    if not place:
        return
    if place > len(journal.entries) or journal.entries[place - 1].mir != fields[2]:
        yield f"line {number}: an entry of another message"
        return
    entry = journal.entries[place - 1]
    if fields[4]:
        account = journal.accounts[entry.legs[0].account - 1]
        meant = (account.ccy, amount_text(entry.legs[0].amount, account.decimals).encode(), None)
        told = (fields[5], fields[6], entry.outcome)
    else:
        account = journal.accounts[entry.legs[(entry.outcome or (1, 0))[0] - 1].account - 1]
        meant = (account.ident, amount_text((entry.outcome or (1, 0))[1], account.decimals).encode())
        told = (fields[8], fields[9]) if entry.outcome else None
    if not fields[10] and told != meant:
        yield f"line {number}: not what stands at its place"
    text = re.sub(rb"\r?\n", b"\r\n", message)
    if not fields[10] and b"{4:\r\n" + entry.text + b"-}" not in text:
        yield f"line {number}: the entry has another text"


def wrong_entry(journal, place):
    """What is wrong with a new entry, by field 32A of its text, and by 59 where nobody but a customer of ours can be paid."""
    entry = journal.entries[place - 1]
    account, credited, *_ = (journal.accounts[it.account - 1] for it in entry.legs)
    value, ccy, much = re.search(rb"^:32A:(\d{6})([A-Z]{3})([\d,]+)\r$", entry.text, re.M).groups()
    whole, rest = much.split(b",")
    units = int(whole) * 10**account.decimals + int(rest.ljust(account.decimals, b"0") or b"0")
    if (entry.value, account.ccy, entry.legs[0].amount) != (day_of(value), ccy, units):
        yield f"entry {place} isn't what its field 32A says"
    payee = re.search(rb"^:59[AF]?:/([^\r]*)\r$", entry.text, re.M)
    is_ours = not entry.cover and not re.search(rb"^:5[67][A-D]:", entry.text, re.M)
    if is_ours and (not payee or credited.ident != payee[1] or entry.outcome is None and any(it[0] != 4 for it in entry.orders)):
        yield f"entry {place} isn't for the customer of its field 59"


def wrong_charge(journal, place, charges):
    """What is wrong with the legs of a new entry: a charge is taken out of a transfer under SHA and BEN, where its currency has one."""
    entry = journal.entries[place - 1]
    whole, account = entry.legs[0].amount, journal.accounts[entry.legs[0].account - 1]
    is_charged = not entry.cover and re.search(rb"^:71A:(SHA|BEN)\r$", entry.text, re.M)
    charge = charges.get(account.ccy, 0) if is_charged else 0
    meant = [whole, whole - charge] + ([charge] if charge else [])
    fees = [journal.accounts[it.account - 1] for it in entry.legs[2:]]
    if [it.amount for it in entry.legs] != meant or any(it.kind != b"F" for it in fees):
        yield f"entry {place} has another charge than {charge}"


def messages_of(sent):
    """The messages that were sent, and whether they are that and nothing else."""
    found, at = [], 0
    while at < len(sent):
        it = SENT.match(sent, at)
        if not it or sent[it.end() : it.end() + 1] != b"$":
            return found, False
        found.append(it)
        at = it.end() + 1
    return found, True


def wrong_sent(run, journal):
    """What is wrong with what a run sent."""
    old = len(read_journal(run.before["journal.bin"]).entries)
    yield from wrong_references(run.appended(), journal, old + 1, len(journal.entries))


def wrong_again(run, journal):
    yield from wrong_references(run.appended(), journal, *map(int, run.words[1:]))


def wrong_references(sent, journal, first, last):
    """What is wrong with the messages of these entries, by their field 20 and the bank that sends them."""
    messages, is_whole = messages_of(sent)
    if not is_whole:
        yield "out.fin got what is no message"
        return
    entries = list(enumerate(journal.entries, 1))[first - 1 : last]
    wanted = [it for place, entry in entries for it in books.order_references(entry, place)]
    if [it[7].decode() for it in messages] != wanted:
        yield "other messages left than those of the entries"
    if any(it[1] + it[2] != journal.home for it in messages):
        yield "a message of another bank left"


def wrong_breaks(run, journal):
    """What is wrong with the report of a reconciliation."""
    messages, _ = cut(run.before["received.fin"])
    heads, statements = [], []
    for line in run.out.decode().splitlines():
        if line.startswith("STATEMENT "):
            statements.append([line])
        elif statements:
            statements[-1].append(line)
        else:
            heads.append(line)
    if not all(re.fullmatch(r"\d{6} \S{28} REFUSED [A-Z]\d\d( \S+ \d+)?", it) for it in heads):
        yield "a line that is none of a refused message"
        return
    refused = {int(it[:6]) for it in heads}
    made = breaks.pieces(it for number, it in enumerate(messages, 1) if number not in refused)
    if len(made) != len(statements):
        yield f"{len(statements)} statements, and {len(made)} came"
    for lines, pages in zip(statements, made):
        yield from wrong_statement(lines, pages, journal)


def wrong_statement(lines, pages, journal):
    """The same of one statement, of these pages."""
    head = lines[0].encode().split(b" ")
    if len(head) > 3:
        if lines[1:] or head[3] not in (b"GAP", b"NOT", b"DOES", b"UNKNOWN"):
            yield f"{lines[:2]} of a statement that can't be compared"
        return
    numbers = [number for number, it in enumerate(journal.accounts, 1) if it.kind == b"N" and it.ident == head[1]]
    if len(numbers) != 1:
        yield f"a statement of {head[1]!r}, which is no nostro account"
    elif breaks.in_order(lines[1:]) != breaks.compared(journal, numbers[0], day_of(head[2]), pages):
        yield f"the statement of {head[1]!r} is compared otherwise"


def minor(text):
    """The minor units of an amount that was printed."""
    return int(text.replace(b",", b""))


def wrong_trial(report):
    lines = [it.split(b" ") for it in report.splitlines()]
    if any(it[0] == b"TOTAL" and it[3] != it[5] for it in lines):
        yield "debits aren't equal to credits"
    if sum(minor(it[2]) for it in lines if it[0] == b"BALANCE"):
        yield "the balances don't sum to 0"


def wrong(run):
    """Everything that is wrong with a run."""
    if isinstance(run.status, str):
        return [run.status]
    found = [*wrong_end(run), *wrong_files(run)]
    return found or list(wrong_content(run))
