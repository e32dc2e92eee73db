"""Reads and writes journals of both versions by docs/journal.md, and says what `bookings` and `statements` print of them."""
import datetime
import functools
import re
from typing import NamedTuple

EPOCH = datetime.date(1970, 1, 1).toordinal()
FIRST_DAY, LAST_DAY = (datetime.date(*it).toordinal() - EPOCH for it in ((1980, 1, 1), (2079, 12, 31)))
MOST_ENTRIES, MOST_ACCOUNTS, MOST_TEXT, MOST_HEAD, MOST_MINOR = 100_000, 1_000, 32_768, 1_048_576, 10**14
MOST_CHANGES = 1 << 30
PAGE_LINES = 25
# how the header of each version begins
VERSIONS = {1: b"CORRJ1", 2: b"CORRJ2"}
ENTERED, CHANGED, OPENED, LIMITS = b"\0", b"\1", b"\0", b"\1"
BIC = re.compile(rb"[A-Z]{6}[A-Z0-9]{2}[A-Z0-9]{3}")
UETR = re.compile(rb"[0-9a-f]{8}-[0-9a-f]{4}-4[0-9a-f]{3}-[89ab][0-9a-f]{3}-[0-9a-f]{12}")
MIR = re.compile(rb"(\d{6})[A-Z]{6}[A-Z0-9]{2}[A-Z0-9][A-Z0-9]{3}\d{10}")
REFERENCE = re.compile(rb"(?!/)(?!.*//)[A-Za-z0-9 /\-?:().,'+]{1,16}(?<!/)", re.DOTALL)


class Account(NamedTuple):
    ident: bytes
    kind: bytes
    owner: bytes
    ccy: bytes
    decimals: int
    floor: int
    ceil: int
    opening: int


class Leg(NamedTuple):
    """One side of an entry: the account's number, 0 for a debit and 1 for a credit, minor units, a reference or the number of an order."""

    account: int
    side: int
    amount: int
    quote: object


class Entry(NamedTuple):
    """A payment as it was entered; `outcome` is None where it was booked, else the leg that failed and the balance of its account."""

    mir: bytes
    cover: int
    uetr: object
    day: int
    value: int
    outcome: object
    legs: list
    orders: list
    text: bytes


class Limits(NamedTuple):
    """The change of an account's ends: its number, and the new ones. The other change is a new `Account`."""

    number: int
    floor: int
    ceil: int


class Journal(NamedTuple):
    """What a journal's bytes stand for: the accounts after all changes, the entries, and each change with how many entries were before it.

    `fault` is the line of the refusal, after `corr: `, or None; `end` is the closed gate's place.
    """

    home: bytes
    accounts: list
    entries: list
    changes: list
    end: int
    fault: object


class NoRecord(Exception):
    """The bytes are no record."""


def demand(holds):
    if not holds:
        raise NoRecord


def day_of(text):
    """The day of YYMMDD in days since 1970, or None."""
    try:
        year, month, day = (int(text[at : at + 2]) for at in (0, 2, 4))
        return datetime.date(year + (2000 if year < 80 else 1900), month, day).toordinal() - EPOCH
    except ValueError:
        return None


def date_of(day):
    return datetime.date.fromordinal(day + EPOCH)


def day_text(day):
    return date_of(day).strftime("%y%m%d")


def amount_text(minor, decimals):
    """A signed amount as the program prints it."""
    whole, rest = divmod(abs(minor), 10**decimals)
    return f"{'-' if minor < 0 else ''}{whole},{str(rest).zfill(decimals) if decimals else ''}"


class Reader:
    """Reads the parts of a record from its front."""

    def __init__(self, data):
        self.data, self.at = data, 0

    def take(self, count):
        demand(self.at + count <= len(self.data))
        self.at += count
        return self.data[self.at - count : self.at]

    def number(self, count, most=None):
        value = int.from_bytes(self.take(count), "big")
        demand(most is None or value <= most)
        return value

    def signed(self, count):
        return int.from_bytes(self.take(count), "big", signed=True)

    def form(self, count, form):
        text = self.take(count)
        demand(form.fullmatch(text))
        return text

    def day(self):
        day = self.signed(4)
        demand(FIRST_DAY <= day <= LAST_DAY)
        return day

    def end(self):
        demand(self.at == len(self.data))


def read_account(read):
    ident = read.take(read.number(1))
    demand(re.fullmatch(rb"[A-Z0-9]{1,34}", ident))
    kind = read.form(1, re.compile(rb"[CVNF]"))
    owner, ccy = read.form(11, BIC), read.form(3, re.compile(rb"[A-Z]{3}"))
    account = Account(ident, kind, owner, ccy, read.number(1, 4), read.signed(8), read.signed(8), read.signed(8))
    demand(are_ends(account.floor, account.ceil, account.opening))
    return account


def are_ends(floor, ceil, balance):
    return -MOST_MINOR < floor <= balance <= ceil < MOST_MINOR


def are_apart(accounts):
    """Whether accounts may stand in one book, but for the sums of their openings."""
    banks = [(it.kind, it.owner[:8], it.ccy) for it in accounts if it.kind != b"C"]
    is_single = len({it.ident for it in accounts}) == len(accounts) and len(set(banks)) == len(banks)
    return is_single and len(accounts) <= MOST_ACCOUNTS and len({(it.ccy, it.decimals) for it in accounts}) == len({it.ccy for it in accounts})


def version_of(head):
    """The version of which a header says that it is."""
    return next((version for version, front in VERSIONS.items() if head.startswith(front)), None)


def read_head(data):
    """The home bank and the accounts of a header."""
    read = Reader(data)
    demand(read.take(6) in VERSIONS.values())
    home = read.form(11, BIC)
    accounts = [read_account(read) for _ in range(read.number(2, MOST_ACCOUNTS))]
    read.end()
    demand(are_apart(accounts))
    demand(all(sum(it.opening for it in accounts if it.ccy == ccy) == 0 for ccy in {it.ccy for it in accounts}))
    return home, accounts


def read_leg(read):
    account, side, amount = read.number(2, MOST_ACCOUNTS), read.number(1, 1), read.number(8, MOST_MINOR - 1)
    demand(account > 0 and amount > 0)
    if read.number(1, 1):
        return Leg(account, side, amount, read.number(1))
    return Leg(account, side, amount, read.form(read.number(1), REFERENCE))


def read_order(read, legs):
    """The bytes of an order, whose parts are of their form."""
    start, kind = read.at, read.number(1, 5)
    demand(kind > 0)
    read.form(11, BIC)
    if kind == 2:
        read.form(11, BIC)
    if kind <= 3:
        read.number(1, 2)
    else:
        demand(1 <= read.number(1) <= legs)
    if kind == 1 and read.number(1, 1):
        read.form(11, BIC)
    return read.data[start : read.at]


def read_entry(data):
    """The entry of a record of version 1, which is one of version 2 behind its mark."""
    read = Reader(data)
    mir, cover = read.form(28, MIR), read.number(1, 2)
    demand(cover > 0 and day_of(mir[:6]) is not None)
    uetr = read.form(36, UETR) if read.number(1, 1) else None
    day, value = read.day(), read.day()
    outcome = (read.number(1), read.signed(8)) if read.number(1, 1) else None
    legs = [read_leg(read) for _ in range(read.number(1, 3))]
    demand(len(legs) >= 2 and legs[0].side == 0 and len({it.account for it in legs}) == len(legs))
    demand(sum(it.amount if it.side else -it.amount for it in legs) == 0)
    orders = [read_order(read, len(legs)) for _ in range(read.number(1))]
    text = read.take(read.number(4, MOST_TEXT))
    read.end()
    return Entry(mir, cover == 2, uetr, day, value, outcome, legs, orders, text)


def read_change(data):
    """The account that is opened, or the limits that change, of a record behind its mark."""
    read = Reader(data)
    if read.number(1, 1):
        change = Limits(read.number(2), read.signed(8), read.signed(8))
    else:
        change = read_account(read)
    read.end()
    return change


def read_item(data):
    """The entry or the change of a record of version 2."""
    demand(data[:1] in (ENTERED, CHANGED))
    return read_entry(data[1:]) if data[:1] == ENTERED else read_change(data[1:])


def put_account(it):
    out = bytes([len(it.ident)]) + it.ident + it.kind + it.owner + it.ccy + bytes([it.decimals])
    return out + b"".join(n.to_bytes(8, "big", signed=True) for n in (it.floor, it.ceil, it.opening))


def put_head(home, accounts, version=2):
    return VERSIONS[version] + home + len(accounts).to_bytes(2, "big") + b"".join(map(put_account, accounts))


def put_change(it):
    if isinstance(it, Account):
        return OPENED + put_account(it)
    return LIMITS + it.number.to_bytes(2, "big") + b"".join(n.to_bytes(8, "big", signed=True) for n in (it.floor, it.ceil))


def put_item(it):
    """The record of an entry or of a change."""
    return ENTERED + put_entry(it) if isinstance(it, Entry) else CHANGED + put_change(it)


def put_leg(leg):
    quote = bytes([1, leg.quote]) if isinstance(leg.quote, int) else bytes([0, len(leg.quote)]) + leg.quote
    return leg.account.to_bytes(2, "big") + bytes([leg.side]) + leg.amount.to_bytes(8, "big") + quote


def put_entry(it):
    out = it.mir + bytes([2 if it.cover else 1]) + (b"\1" + it.uetr if it.uetr else b"\0")
    out += it.day.to_bytes(4, "big", signed=True) + it.value.to_bytes(4, "big", signed=True)
    out += bytes([1, it.outcome[0]]) + it.outcome[1].to_bytes(8, "big", signed=True) if it.outcome else b"\0"
    out += bytes([len(it.legs)]) + b"".join(map(put_leg, it.legs)) + bytes([len(it.orders)]) + b"".join(it.orders)
    return out + len(it.text).to_bytes(4, "big") + it.text


def put_journal(records):
    """A journal of these records, the header first."""
    return b"".join(b"\1" + len(it).to_bytes(4, "big") + it for it in records) + b"\0"


def frames(data):
    """The gate's place and the record of each whole record, and the place where they end: a closed gate, or damage."""
    at, found = 0, []
    while at < len(data) and data[at]:
        size = int.from_bytes(data[at + 1 : at + 5], "big")
        if at + 5 + size >= len(data):
            break
        found.append((at, data[at + 5 : at + 5 + size]))
        at += 5 + size
    return found, at


def outcome_of(accounts, balances, legs):
    """None where each account can take its leg, else the first leg that fails and the balance of its account."""
    for number, leg in enumerate(legs, 1):
        account, balance = accounts[leg.account - 1], balances[leg.account - 1]
        if not account.floor <= balance + (leg.amount if leg.side else -leg.amount) <= account.ceil:
            return number, balance
    return None


def add_entry(entry, balances):
    if entry.outcome is None:
        for leg in entry.legs:
            balances[leg.account - 1] += leg.amount if leg.side else -leg.amount


class Book:
    """The accounts, the entries and the changes of a journal up to a record."""

    def __init__(self, home, accounts):
        self.home, self.accounts, self.entries, self.changes = home, accounts, [], []
        self.balances, self.mirs = [it.opening for it in accounts], set()

    def enter(self, entry):
        """Takes an entry, which must be one that may come next."""
        demand(len(self.entries) < MOST_ENTRIES and entry.mir not in self.mirs)
        demand(not self.entries or entry.day >= self.entries[-1].day)
        demand(all(it.account <= len(self.accounts) for it in entry.legs))
        demand(len({self.accounts[it.account - 1].ccy for it in entry.legs}) == 1)
        demand(entry.outcome == outcome_of(self.accounts, self.balances, entry.legs))
        add_entry(entry, self.balances)
        self.entries.append(entry)
        self.mirs.add(entry.mir)

    def change(self, what):
        """Takes a change, which must be legal now."""
        demand(len(self.changes) < MOST_CHANGES)
        if isinstance(what, Account):
            demand(what.opening == 0 and are_apart([*self.accounts, what]))
            self.accounts = [*self.accounts, what]
            self.balances.append(0)
        else:
            demand(1 <= what.number <= len(self.accounts))
            demand(are_ends(what.floor, what.ceil, self.balances[what.number - 1]))
            self.accounts = list(self.accounts)
            self.accounts[what.number - 1] = self.accounts[what.number - 1]._replace(floor=what.floor, ceil=what.ceil)
        self.changes.append((len(self.entries), what))

    def take(self, record, version):
        item = read_entry(record) if version == 1 else read_item(record)
        if isinstance(item, Entry):
            self.enter(item)
        else:
            self.change(item)

    def journal(self, end, fault):
        return Journal(self.home, self.accounts, self.entries, self.changes, end, fault)


@functools.lru_cache(maxsize=8)
def read_journal(data, version=2):
    """What a journal of a version stands for."""
    found, end = frames(data)
    try:
        demand(found and len(found[0][1]) <= MOST_HEAD)
        book = Book(*read_head(found[0][1]))
    except NoRecord:
        return Book(b"", []).journal(0, "not a journal")
    if version_of(found[0][1]) != version:
        return book.journal(0, f"version {version_of(found[0][1])}")
    for gate, record in found[1:]:
        try:
            book.take(record, version)
        except NoRecord:
            return book.journal(gate, f"damaged {gate}")
    return book.journal(end, None if data[end : end + 1] == b"\0" else f"damaged {end}")


def bookings(journal):
    """What `bookings` prints."""
    lines = []
    for place, entry in enumerate(journal.entries, 1):
        line = f"{place:08d} {day_text(entry.day)} {entry.mir.decode()} "
        if entry.outcome:
            account = journal.accounts[entry.legs[entry.outcome[0] - 1].account - 1]
            line += f"UNFUNDED {account.ident.decode()} {amount_text(entry.outcome[1], account.decimals)}"
        else:
            accounts = [journal.accounts[it.account - 1] for it in entry.legs]
            line += "BOOKED " + " ".join(
                f"{'DC'[leg.side]} {it.ident.decode()} {amount_text(leg.amount, it.decimals)}" for leg, it in zip(entry.legs, accounts)
            )
        lines.append(line + "\n")
    return "".join(lines)


def totals(journal):
    """The lines of a report after that of the number of messages."""
    lines = ""
    for ccy in sorted({it.ccy for it in journal.accounts}):
        sums, decimals = [0, 0], 0
        for it in journal.accounts:
            decimals = it.decimals if it.ccy == ccy else decimals
        for entry in journal.entries:
            for leg in entry.legs if entry.outcome is None else []:
                sums[leg.side] += leg.amount if journal.accounts[leg.account - 1].ccy == ccy else 0
        debit, credit = (amount_text(it, decimals) for it in sums)
        lines += f"TOTAL {ccy.decode()} DEBIT {debit} CREDIT {credit}\n"
    return lines


def order_references(entry, place):
    """Field 20 of each message that leaves for an entry."""
    return [f"P{place:08d}K{k}" for k in range(1, len(entry.orders) + 1)] if entry.outcome is None else []


def movements(journal, number):
    """Place, entry and leg of what was booked on an account."""
    for place, entry in enumerate(journal.entries, 1):
        for leg in entry.legs if entry.outcome is None else []:
            if leg.account == number:
                yield place, entry, leg


def statement(journal, number, day):
    """The messages of the statement of an account on a day."""
    account = journal.accounts[number - 1]
    before = account.opening + sum(
        leg.amount if leg.side else -leg.amount for _, entry, leg in movements(journal, number) if entry.day < day
    )
    lines = [it for it in movements(journal, number) if it[1].day == day]
    pages = [lines[at : at + PAGE_LINES] for at in range(0, len(lines), PAGE_LINES)] or [[]]
    out, balance = "", before
    for page, lines in enumerate(pages, 1):
        text, balance = page_text(journal, number, day, (page, len(pages)), balance, lines)
        out += text
    return out


def balance_text(account, day, balance):
    mark = "D" if balance < 0 else "C"
    return f"{mark}{day_text(day)}{account.ccy.decode()}{amount_text(abs(balance), account.decimals)}"


def page_text(journal, number, day, which, balance, lines):
    """A page of a statement followed by `$`, and the balance at which it closes."""
    account, home, (page, pages) = journal.accounts[number - 1], journal.home.decode(), which
    owner, opened = account.owner.decode(), max(day - 1, FIRST_DAY) if page == 1 else day
    text = f"{{1:F01{home[:8]}A{home[8:]}0000000000}}{{2:I950{owner[:8]}X{owner[8:]}N}}{{4:\r\n"
    text += f":20:S{day_text(day)}{number:04d}P{page:04d}\r\n:25:{account.ident.decode()}\r\n"
    text += f":28C:{date_of(day).timetuple().tm_yday}/{page}\r\n"
    text += f":60{'F' if page == 1 else 'M'}:{balance_text(account, opened, balance)}\r\n"
    for place, entry, leg in lines:
        quote = f"P{place:08d}K{leg.quote}" if isinstance(leg.quote, int) else leg.quote.decode()
        amount, kind = amount_text(leg.amount, account.decimals), "S202" if entry.cover else "S103"
        mark = ["RC", "RD"] if entry.mir[:-10] == b"800101" + journal.home[:8] + b"R" + journal.home[8:] else ["D", "C"]
        text += f":61:{day_text(entry.value)}{day_text(day)[2:]}{mark[leg.side]}{amount}{kind}{quote}//P{place:08d}\r\n"
        balance += leg.amount if leg.side else -leg.amount
    text += f":62{'F' if page == pages else 'M'}:{balance_text(account, day, balance)}\r\n-}}$"
    return text, balance


def statements(journal, day):
    """What `statements` appends."""
    numbers = [number for number, it in enumerate(journal.accounts, 1) if it.kind == b"V"]
    return "".join(statement(journal, number, day) for number in numbers)
