"""Makes message files, tables, journals and command lines at random, and from the folders of examples/: what a program may be handed."""
import pathlib
import re

import books
from inputs import cut

TOP = pathlib.Path(__file__).resolve().parent.parent
EXAMPLES = TOP / "examples"
TABLES = ["bics.csv", "ccys.csv", "countries.csv", "accounts.csv", "ssi.csv", "charges.csv"]
HOME = b"HOMEUS33"
DAYS = [b"240603"] * 12 + [b"240602", b"240604", b"240701", b"800101", b"791231", b"241231", b"240229"]
AMOUNTS = [b"0,", b"0,01", b"0,1", b"1,", b"00012,5", b"999999999999,99", b"1000000000000,", b"99999999999999,", b"90000000000,", b",5", b"5"]
AMOUNTS += [b"123456789012345,", b"1,234", b"1,2,3", b"100000000000000,", b"99999999999,999", b"1,0000", b"9999999999999,9"]
CCYS = [b"EUR", b"USD", b"JPY", b"KWD", b"GBP", b"XAU", b"EU", b"eur", b"ZZZ"]
TEXTS = [b"", b"/", b"//", b"-", b":", b":20:A", b"{", b"}", b"$", b"-}", b"A" * 35, b"A" * 36, b"/" + b"1" * 34, b"/" + b"1" * 35]
TEXTS += [b"<b>A", b"</td><script>", b"&#60;", b"'\"><img src=x>", b"A & B"]
TEXTS += [b"1/A", b"9/A", b"/C/" + b"X" * 34, b"\xc3\xa9", b"\0", b"\r", b"a'b+c(d)", b"INV:20:P00000001K1", b"*", b"@"]
BICS = [b"HOMEUS33", b"ALPHDEFF", b"BETAFRPP", b"BETAFRPPXXX", b"BETAFRPP500", b"GAMMGB2L", b"CORRBEBB", b"DELTJPJT", b"NOBKDEFF", b"ALPHDEF"]
GROUPS = [b"{3:{121:%s}}" % (b"0f0e0d0c-0b0a-4908-8706-050403020100"), b"{3:{119:COV}}", b"{3:{108:REF}}", b"{3:}", b"{5:}", b"{5:{PDE:}}"]
GROUPS += [b"{5:{TNG:}}", b"{5:{PDM:}}", b"{5:{MAC:0}{CHK:0}}", b"{S:{SAC:}}", b"{4:\r\n-}", b"{1:F01HOMEUS33AXXX0001000007}", b"{}", b"{{}}", b"{2:}"]
PIECES = [b"$", b"\r\n", b"\n", b" ", b"{", b"}", b"{1:", b"-}", b"\0", b"\xff", b"\xef\xbb\xbf", b",", b'"', b'""', b"\r", b":", b"9" * 20]
JOINS = [b"", b"$", b"\r\n", b"$\r\n", b"\n\n", b" $ ", b"\r\n$"]
CELLS = [b"", b"0", b"-0", b"-1", b"+1", b"99999999999999", b"-99999999999999", b"100000000000000", b"9999999999999999", b"EUR", b"JPY", b"*", b"A"]
CELLS += [b"BOOK", b"SERIAL", b"COVER", b"240101", b"240631", b"800101", b"791231", b"240603", b"240604", b"HOMEUS33", b"ALPHDEFFXXX", b"Y", b"V", b"C"]
CELLS += [b"A" * 34, b"A" * 35, b"5", b"4", b" EUR", b'"EUR"', b'"', b"CORRBEBB", b"BETAFRPP500", b"VALPHEUR", b"NCORREUR", b"CUST1"]


def read_all(folder, pattern):
    return [it.read_bytes() for it in sorted(folder.glob(pattern))]


class Samples:
    """What the folders of examples/ have: their tables, messages, statements and lines."""

    def __init__(self):
        base = {it: (EXAMPLES / "tables" / it).read_bytes() for it in TABLES}
        self.banks = [base]
        for folder in sorted(EXAMPLES.glob("*/files")):
            own = {it: (folder / it).read_bytes() for it in TABLES if (folder / it).exists()}
            if own:
                self.banks.append({**base, **own})
        files = read_all(EXAMPLES, "*/files/messages.fin") + read_all(EXAMPLES, "codes/messages/*.fin")
        self.messages = sorted({message for file in files for message in cut(file)[0] if len(message) < 4000})
        self.received = sorted({message for file in read_all(EXAMPLES, "*/files/received.fin") for message in cut(file)[0]})
        texts = b"\n".join(self.messages + self.received)
        self.lines = sorted(set(re.findall(rb"^:\d\d[A-Z]?:[^\r\n]*|^[A-Z0-9/][^\r\n{}]*", texts, re.M)))


def some(dice, chance):
    return dice.random() < chance


def few(dice, most):
    """A small number, seldom a large one."""
    return min(most, int(dice.expovariate(0.5)) + 1)


# bytes


def spoil(dice, data):
    """A text with some bytes turned, taken out, put in or said twice, or cut."""
    data = bytearray(data)
    for _ in range(few(dice, 6)):
        at = dice.randrange(len(data) + 1)
        end = min(len(data), at + dice.choice([1, 1, 2, 5, 30, 400]))
        what = dice.randrange(6)
        if what == 0 and at < len(data):
            data[at] ^= 1 << dice.randrange(8)
        elif what == 1:
            del data[at:end]
        elif what == 2:
            data[at:at] = data[at:end] * few(dice, 5)
        elif what == 3:
            data[at:at] = dice.choice(PIECES)
        elif what == 4 and at < len(data):
            data[at] = dice.randrange(256)
        elif what == 5 and some(dice, 0.3):
            del data[at:]
    return bytes(data)


def shuffle(dice, items, others):
    """A list with items moved, dropped, doubled, or others put in."""
    items = list(items)
    for _ in range(few(dice, 4)):
        at, what = dice.randrange(len(items) + 1), dice.randrange(5)
        if what == 0 and items:
            items.insert(at, items.pop(dice.randrange(len(items))))
        elif what == 1 and items:
            del items[at % len(items)]
        elif what == 2 and items:
            items.insert(at, dice.choice(items))
        elif what >= 3 and others:
            items.insert(at, dice.choice(others))
    return items


# messages


def groups_of(message):
    """The groups of a message."""
    groups, depth, start = [], 0, 0
    for at, byte in enumerate(message):
        depth += (byte == 0x7B) - (byte == 0x7D)
        if depth == 0 and byte == 0x7D:
            groups.append(message[start : at + 1])
            start = at + 1
    return groups + ([message[start:]] if start < len(message) else [])


def turn_field(dice, line):
    """A line with a value at or past a limit in place of what it says."""
    tag = re.match(rb":\d\d[A-Z]?:", line)
    head = tag[0] if tag else b""
    if head in (b":32A:", b":33B:", b":71F:", b":71G:", b":60F:", b":62F:"):
        day = dice.choice(DAYS) if head == b":32A:" else b"C240603" if head[1:2] == b"6" else b""
        return head + day + dice.choice(CCYS) + dice.choice(AMOUNTS)
    if head[3:4] == b"A":
        return head + dice.choice(BICS)
    return head + dice.choice(TEXTS + BICS + AMOUNTS)


def turn_lines(dice, samples, text):
    """Block 4 with other lines."""
    end = dice.choice([b"\r\n", b"\r\n", b"\r\n", b"\n"])
    lines = text.replace(b"\r\n", b"\n").split(b"\n")
    if some(dice, 0.5):
        at = dice.randrange(len(lines))
        lines[at] = turn_field(dice, lines[at])
    else:
        lines = lines[:1] + shuffle(dice, lines[1:-1], samples.lines) + lines[-1:]
    if some(dice, 0.03):
        lines[1:1] = [dice.choice(samples.lines)] * dice.choice([10, 200, 1000])
    return end.join(lines)


def turn_message(dice, samples, message):
    """A message with something changed."""
    what = dice.randrange(4)
    if what == 0:
        return spoil(dice, message)
    groups = groups_of(message)
    if what == 1:
        return b"".join(shuffle(dice, groups, GROUPS))
    return b"".join(turn_lines(dice, samples, it) if it.startswith(b"{4:") else it for it in groups)


def with_number(message, number, day=b"240603"):
    """A received message under a message input reference of its own."""
    return re.sub(rb"(\{2:O\d{7})\d{6}([A-Z0-9]{12}\d{4})\d{6}", lambda it: it[1] + day + it[2] + b"%06d" % number, message, count=1)


class Bank:
    """What a set of tables says of whom a payment can come from and go to, where it can be read."""

    def __init__(self, tables):
        rows = {name: [line.split(b",") for line in data.splitlines()] for name, data in tables.items()}
        self.bics = [it[0][:8] for it in rows["bics.csv"] if it[0][:8] != HOME] or [b"ALPHDEFF"]
        self.accounts = [it for it in rows["accounts.csv"] if len(it) == 7 and len(it[2]) >= 8]
        self.decimals = {it[0]: int(it[1]) for it in rows["ccys.csv"] if len(it) == 2 and it[1].isdigit()}

    def of_kind(self, kind, ccy=None):
        return [it for it in self.accounts if it[1] == kind and ccy in (None, it[3])]


def amount(dice, decimals):
    whole = dice.choice([0, 1, 7, 100, 1234, 9999, dice.randrange(10**5), dice.randrange(10**11)])
    rest = b"" if decimals == 0 else b"%0*d" % (decimals, dice.randrange(1 if whole == 0 else 0, 10**decimals))
    return b"%d," % (whole if rest or whole else 1) + rest


def payee(dice, bank, ccy):
    """The lines that say whom a payment is for."""
    if some(dice, 0.5) and bank.of_kind(b"C", ccy):
        return [b":59:/" + dice.choice(bank.of_kind(b"C", ccy))[0], b"A PAYEE"]
    lines = [b":57A:" + dice.choice(bank.bics) + dice.choice([b"", b"", b"XXX", b"500"]), b":59:/CUST9", b"A PAYEE"]
    return [b":56A:" + dice.choice(bank.bics), *lines] if some(dice, 0.15) else lines


def way(dice, bank, ccy):
    """The lines that say over which account the sender pays."""
    accounts = bank.of_kind(b"V", ccy) + bank.of_kind(b"N", ccy)
    other = dice.choice([b":53A:" + dice.choice(bank.bics), b":54A:" + dice.choice(bank.bics), b":53B:/" + dice.choice(accounts)[0] if accounts else b""])
    return [other] if other and some(dice, 0.2) else []


def transfer(dice, bank, number):
    """A customer transfer that is mostly valid."""
    sender, ccy = sender_of(dice, bank)
    day, much = dice.choice(DAYS), amount(dice, bank.decimals.get(ccy, 2))
    lines = [b":20:REF%d" % number, b":23B:CRED", b":32A:" + day + ccy + much]
    if some(dice, 0.4):
        lines.append(b":33B:" + ccy + much)
    lines += [b":50K:A PAYER"]
    lines += [b":52A:" + dice.choice(bank.bics)] if some(dice, 0.1) else []
    lines += way(dice, bank, ccy) + payee(dice, bank, ccy)
    lines += [b":70:INVOICE", b"SECOND LINE"] if some(dice, 0.2) else []
    lines += [b":71A:" + dice.choice([b"SHA", b"SHA", b"OUR"])]
    lines += [b":72:/INS/" + dice.choice(bank.bics)] if some(dice, 0.1) else []
    return envelope(dice, sender, b"103", number, b"", lines)


def cover(dice, bank, number):
    """A cover payment that is mostly valid."""
    sender, ccy = sender_of(dice, bank)
    lines = [b":20:COV%d" % number, b":21:REF%d" % number]
    lines += [b":32A:" + dice.choice(DAYS) + ccy + amount(dice, bank.decimals.get(ccy, 2))]
    lines += [b":57A:" + dice.choice(bank.bics)] if some(dice, 0.2) else []
    lines += [b":58A:" + dice.choice(bank.bics), b":50K:A PAYER", b":59:/CUST9", b"A PAYEE"]
    return envelope(dice, sender, b"202", number, b"{119:COV}", lines)


def sender_of(dice, bank):
    """Who sends, and in which currency."""
    accounts = bank.of_kind(b"V")
    if accounts and some(dice, 0.9):
        row = dice.choice(accounts)
        return row[2][:8], row[3]
    return dice.choice(bank.bics), dice.choice(CCYS[:4])


def envelope(dice, sender, kind, number, user, lines):
    user += b"{121:0f0e0d0c-0b0a-4908-8706-%012x}" % number if some(dice, 0.3) else b""
    block3 = b"{3:" + user + b"}" if user else b""
    head = b"{1:F01HOMEUS33AXXX0001%06d}{2:O%s1200240603%sAXXX0001%06d2406031205N}" % (number % 10**6, kind, sender, number % 10**6)
    return head + block3 + b"{4:\r\n" + b"\r\n".join(lines) + b"\r\n-}" + (b"{5:{MAC:00000000}}" if some(dice, 0.1) else b"")


def fit_message(dice, bank, number):
    return transfer(dice, bank, number) if some(dice, 0.75) else cover(dice, bank, number)


def any_message(dice, samples, bank, number):
    """A message of one of all sorts."""
    if some(dice, 0.7):
        message = fit_message(dice, bank, number)
    else:
        message = dice.choice(samples.messages)
        message = with_number(message, number) if some(dice, 0.5) else message
    return turn_message(dice, samples, message) if some(dice, 0.25) else message


def once_more(dice, message):
    """A message under the reference of one that came: the same, with another trailer, with another text, or with another UETR."""
    what = dice.randrange(5)
    if what == 0:
        return message + b"{5:{PDM:}}" if b"{5:" not in message else message
    if what == 1:
        return message.replace(b":20:", b":20:X", 1)
    if what == 2:
        return message.replace(b"\r\n-}", b"\r\n:77B:MORE\r\n-}")
    return message.replace(b"{121:0", b"{121:1") if what == 3 else message


def message_file(dice, samples, bank, spoiled):
    """A file of messages, with repeats and conflicts among them."""
    first, count = dice.randrange(1, 900_000), dice.choice([0, 1, 2, 3, 5, 8, 13, 30, 60])
    messages = []
    for number in range(first, first + count):
        if messages and some(dice, 0.12):
            messages.append(once_more(dice, dice.choice(messages)))
        else:
            messages.append(any_message(dice, samples, bank, number))
    return joined(dice, messages, spoiled)


def joined(dice, messages, spoiled):
    join = dice.choice(JOINS)
    data = join.join(messages) + (dice.choice(JOINS) if messages else b"")
    return spoil(dice, data) if spoiled else data


def received_file(dice, samples, pages, spoiled):
    """A file of statements: of examples, and of these pages of the bank's own, in their order or not."""
    own = [it for it in pages if some(dice, 0.8)]
    messages = shuffle(dice, own, pages) if some(dice, 0.4) else own
    for _ in range(dice.choice([0, 0, 1, 2, 4])):
        messages.insert(dice.randrange(len(messages) + 1), dice.choice(samples.received))
    messages = [turn_message(dice, samples, it) if some(dice, 0.15) else it for it in messages]
    return joined(dice, messages, spoiled)


def own_pages(dice, journal):
    """The pages of a statement of a nostro account, as its bank would send it of these books, some lines missing or others."""
    moved = [(leg.account, it.day) for it in journal.entries if it.outcome is None for leg in it.legs]
    moved = [it for it in moved if journal.accounts[it[0] - 1].kind == b"N"]
    numbers = [(number, books.day_of(b"240603")) for number, it in enumerate(journal.accounts, 1) if it.kind == b"N"]
    if not numbers:
        return []
    number, day = dice.choice(moved if moved and some(dice, 0.9) else numbers)
    pages = books.statement(journal, number, day).encode().split(b"$")[:-1]
    made = [received_page(dice, it, journal.accounts[number - 1], some(dice, 0.4)) for it in pages]
    return made


def received_page(dice, page, account, is_other):
    """A page that was sent, as one that was received: each debit a credit, and where it is to be another, with a line more, less or moved."""
    head = b"{1:F01HOMEUS33AXXX0001000001}{2:O9501200240604%sAXXX0001%06d2406041205N}" % (account.owner[:8], dice.randrange(10**6))
    turned, lines = bytes.maketrans(b"CD", b"DC"), page[page.index(b"{4:") :].split(b"\r\n")
    for at, line in enumerate(lines):
        if line[:4] in (b":60F", b":60M", b":62F", b":62M"):
            lines[at] = line[:5] + line[5:6].translate(turned) + line[6:]
        if line[:4] == b":61:":
            lines[at] = line[:14] + line[14:15].translate(turned) + line[15:].split(b"//")[0] + b"//B%d" % at
    if is_other:
        middle = shuffle(dice, lines[5:-2], [b":61:2406030603D18,NCHGFEES", b":61:240603RC0,NMSCNONREF//B1"])
        lines[5:-2] = middle
        lines[-2] = closing(lines, account.decimals)
    return head + b"\r\n".join(lines)


def closing(lines, decimals):
    """The closing balance to which the lines of a page add up, where they can be read."""
    total = 0
    for line in [lines[4], *lines[5:-2]]:
        found = re.match(rb":60[FM]:([CD])\d{6}[A-Z]{3}([\d,]+)$|:61:\d{6}(?:\d{4})?(R?[CD])([\d,]+)", line)
        if found and len((found[2] or found[4]).split(b",")) == 2:
            whole, rest = (found[2] or found[4]).split(b",")
            units = int(whole or b"0") * 10**decimals + int(rest.ljust(decimals, b"0") or b"0")
            total += units if (found[1] or found[3]) in (b"C", b"RD") else -units
    text = books.amount_text(abs(total), decimals).encode()
    return lines[-2][:5] + (b"D" if total < 0 else b"C") + lines[-2][6:15] + text


# tables


def turn_cell(dice, row):
    cells = row.split(b",")
    cells[dice.randrange(len(cells))] = dice.choice(CELLS)
    return b",".join(cells)


def turn_table(dice, data, others):
    """A table with something changed."""
    what = dice.randrange(8)
    if what == 0:
        return spoil(dice, data)
    rows = data.splitlines()
    if what <= 2:
        rows = shuffle(dice, rows, others)
    elif rows:
        at = dice.randrange(len(rows))
        rows[at] = turn_cell(dice, rows[at])
    return dice.choice([b"\n", b"\n", b"\r\n", b"\r", b"\n\n"]).join(rows) + dice.choice([b"", b"\n"])


def tight(dice, data):
    """Accounts with narrow limits, whose openings are as before."""
    rows = [it.split(b",") for it in data.splitlines()]
    for row in rows:
        if some(dice, 0.4) and len(row) == 7:
            opening, narrow = int(row[6]), dice.choice([0, 1, 100, 10**4, 10**7])
            row[4:6] = [b"%d" % max(opening - narrow, 1 - 10**14), b"%d" % min(opening + dice.choice([narrow, 10**9]), 10**14 - 1)]
        elif some(dice, 0.2) and len(row) == 7:
            row[4:6] = [b"-99999999999999", b"99999999999999"]
    return b"\n".join(b",".join(it) for it in rows) + b"\n"


def wide(data):
    """Accounts with limits as wide as there may be, whose openings are as before."""
    rows = [it.split(b",") for it in data.splitlines()]
    return b"".join(b",".join([*row[:4], b"-99999999999999", b"99999999999999", *row[6:]]) + b"\n" for row in rows)


def roads(dice, made):
    """The instructions, and for banks without one of their own a way over the nostro account of each currency."""
    accounts = {row[3]: row for row in Bank(made).of_kind(b"N")}
    others = [row for ccy, row in sorted(accounts.items()) if ccy + b",*," not in made["ssi.csv"]]
    lines = [b"%s,*,%s,%s,%s,800101,791231\n" % (it[3], dice.choice([b"SERIAL", b"COVER"]), it[2], it[0]) for it in others]
    return made["ssi.csv"].rstrip(b"\n") + b"\n" + b"".join(lines)


def charging(dice, made):
    """Charges in some currencies of the accounts, and for most of them an account of fees, where none is there."""
    ccys = sorted({it[3] for it in Bank(made).accounts})
    without = [it for it in ccys if it not in {row[3] for row in Bank(made).of_kind(b"F")}]
    rows = [b"FEES%s,F,HOMEUS33,%s,%d,%d,0\n" % (it, it, dice.choice([0, -10]), dice.choice([10**3, 10**13])) for it in without if some(dice, 0.8)]
    charges = [b"%s,%d\n" % (it, dice.choice([1, 7, 100, 500, 10**5, 10**14 - 1])) for it in ccys if some(dice, 0.7)]
    return {"accounts.csv": made["accounts.csv"].rstrip(b"\n") + b"\n" + b"".join(rows), "charges.csv": b"".join(charges)}


def tables(dice, samples, spoiled):
    """The tables of a folder, of which one is changed where they are to be spoiled."""
    made = dict(dice.choice(samples.banks[:1] * 6 + samples.banks))
    if some(dice, 0.8):
        made["accounts.csv"] = wide(made["accounts.csv"]) if some(dice, 0.6) else tight(dice, made["accounts.csv"])
    if some(dice, 0.6):
        made["ssi.csv"] = roads(dice, made)
    if some(dice, 0.5):
        made |= charging(dice, made)
    if spoiled:
        name = dice.choice(TABLES)
        made[name] = turn_table(dice, made[name], [row for bank in samples.banks for row in bank[name].splitlines()])
    return made


# journals


def turn_record(dice, record, other):
    """The record of an entry or of a change with something changed, or another one."""
    what = dice.randrange(8)
    if what == 0 and other:
        return dice.choice(other)
    if what <= 2:
        return spoil(dice, record)
    try:
        item = books.read_item(record)
    except books.NoRecord:
        return record
    return books.put_item(turn_entry(dice, item) if isinstance(item, books.Entry) else turn_change(dice, item))


def turn_change(dice, change):
    """A change with a part at or past its limit."""
    floor, ceil = dice.choice([-(10**14), 1 - 10**14, -1, 0, 1, 2**63 - 1]), dice.choice([10**14, 10**14 - 1, -1, 0, -(2**63)])
    if isinstance(change, books.Limits):
        return change._replace(**dice.choice([{"number": dice.choice([0, 1, 2, 1000, 1001, 65_535])}, {"floor": floor}, {"ceil": ceil}]))
    parts = [{"floor": floor}, {"ceil": ceil}, {"opening": dice.choice([1, -1])}, {"decimals": dice.choice([0, 4, 5])}, {"ident": b"A" * 34}]
    parts += [{"ident": b""}, {"kind": dice.choice([b"C", b"V", b"F", b"X"])}, {"ccy": dice.choice([b"USD", b"KWD"])}, {"owner": b"ALPHDEFFXXX"}]
    return change._replace(**dice.choice(parts))


def any_change(dice, accounts):
    """A change of these accounts that is mostly legal: wider or narrower limits, or a new account of a customer or a bank."""
    if accounts and some(dice, 0.5):
        number = dice.randrange(1, len(accounts) + 1)
        less, more = (dice.choice([0, 1, 10**6, 10**12]) * dice.choice([1, 1, 1, -1]) for _ in range(2))
        return books.Limits(number, accounts[number - 1].floor - less, accounts[number - 1].ceil + more)
    ccy, decimals = dice.choice([(it.ccy, it.decimals) for it in accounts] + [(b"KWD", 3), (b"USD", 2)])
    ident, kind = b"NEW%d" % dice.randrange(30), dice.choice([b"C", b"C", b"V", b"N", b"F"])
    owner = dice.choice(BICS[:6])[:8] + b"XXX"
    return books.Account(ident, kind, owner, ccy, decimals, dice.choice([0, -(10**6)]), dice.choice([0, 10**13]), 0)


def with_changes(dice, data):
    """A journal with changes of accounts among its entries."""
    records = [record for _, record in books.frames(data)[0]]
    accounts = books.read_journal(data).accounts
    for _ in range(few(dice, 6)):
        records.insert(dice.randrange(1, len(records) + 1), books.put_item(any_change(dice, accounts)))
    return books.put_journal(records)


def with_version_1(data):
    """A journal's header and entries in version 1, without its changes."""
    head, *records = [record for _, record in books.frames(data)[0]]
    try:
        head = books.put_head(*books.read_head(head), version=1)
    except books.NoRecord:
        return data
    return books.put_journal([head, *(it[1:] for it in records if it[:1] == books.ENTERED)])


def desk_words(dice, journal):
    """The words of a command that is given between the runs, mostly one that isn't refused."""
    place, day = b"%d" % dice.randrange(1, len(journal.entries) + 3), dice.choice([b"240604", b"240604", b"240603", b"240601", b"791231"])
    what = dice.choice(["open", "limits", "return", "return", "balances", "customers", "mend", "statements", "bookings"])
    if what == "open":
        it = any_change(dice, journal.accounts)
        it = it if isinstance(it, books.Account) else books.Account(b"CUST9", b"C", HOME + b"XXX", b"EUR", 2, 0, 10**12, 0)
        cells = [it.ident, it.kind, dice.choice([it.owner[:8], it.owner]), it.ccy, b"%d" % it.floor, b"%d" % it.ceil]
        return [b"open-account", *(turn_cell(dice, b",".join(cells)).split(b",") if some(dice, 0.2) else cells)]
    if what == "limits":
        account = dice.choice(journal.accounts) if journal.accounts else None
        floor, ceil = (dice.choice([b"0", b"-1", b"-10000000", b"90000000000", b"-90000000000", b"100000000000000"]) for _ in range(2))
        return [b"set-limits", account.ident if account and some(dice, 0.9) else b"NOBODY", floor, ceil]
    if what == "return":
        return [b"return", place, day]
    if what == "balances":
        return [b"balances"] if some(dice, 0.5) else [b"balances", day]
    if what == "mend":
        return [b"mend", *dice.choice([(b"1", b"100000"), (place, b"100000"), (place, place)])]
    return {"customers": [b"customer-statements", day], "statements": [b"statements", day], "bookings": [b"bookings"]}[what]


def turn_entry(dice, entry):
    """An entry with a part at or past its limit."""
    day = dice.choice([books.FIRST_DAY, books.FIRST_DAY - 1, books.LAST_DAY, books.LAST_DAY + 1, 0, -1, entry.day + 1, entry.day - 1])
    text = dice.choice([b"", b"X" * 32_768, b"X" * 32_769, b"\r\n" * 16_384, b":20:A\r\n", entry.text * 3, b"\0", entry.text[:-1]])
    much = dice.choice([0, 1, 10**14 - 1, 10**14, 2**64 - 1, entry.legs[0].amount + 1])
    quote = dice.choice([0, 1, 255, b"", b"A" * 16, b"A" * 17, b"/A", b"A//B", b"*", b"A B"])
    legs = dice.choice([entry.legs[:1], entry.legs * 2, entry.legs[::-1], [it._replace(amount=much) for it in entry.legs]])
    legs = dice.choice([legs, [it._replace(account=dice.choice([0, 1, 2, 1000, 1001, 65_535])) for it in entry.legs]])
    legs = dice.choice([legs, [entry.legs[0]._replace(quote=quote), *entry.legs[1:]]])
    order = b"\4" + b"ALPHDEFFXXX" + bytes([dice.choice([0, 1, 2, 3])])
    orders = dice.choice([[], [order], [order] * 255, entry.orders * 2, [b"\1ALPHDEFFXXX\0\1GAMMGB2LXXX"], [b"\6ALPHDEFFXXX"]])[:255]
    mir = dice.choice([b"240603ALPHDEFFAXXX0001%06d" % dice.randrange(10**6), b"240631" + entry.mir[6:], entry.mir[:-1] + b"A"])
    outcome = dice.choice([None, (1, 0), (2, 0), (0, 0), (3, -(2**63)), (1, 5_000_000), (255, 2**63 - 1)])
    parts = {"day": day, "value": day, "text": text, "legs": legs, "orders": orders, "mir": mir, "outcome": outcome}
    parts |= {"uetr": dice.choice([None, b"0f0e0d0c-0b0a-4908-8706-050403020100", b"0" * 36]), "cover": not entry.cover}
    name = dice.choice(list(parts))
    return entry._replace(**{name: parts[name]})


def turn_journal(dice, data, other):
    """A journal cut, extended, with bytes or lengths or gates turned, of version 1, or with records changed, moved, dropped, doubled,
    another's, or of changes."""
    what = dice.randrange(13)
    found, end = books.frames(data)
    if what == 0 or not found:
        return spoil(dice, data)
    if what == 1:
        return data[: dice.randrange(len(data))]
    if what == 2:
        return data + dice.choice([b"\0", b"\1", b"\1\0\0\0\0\0", bytes(dice.randrange(256) for _ in range(30)), other])
    if what == 3:
        return with_byte(data, dice.choice([gate for gate, _ in found] + [end]), dice.choice([0, 1, 2, 255]))
    if what == 4:
        return with_length(dice, data, found)
    if what >= 11:
        return with_changes(dice, data)
    if what == 10:
        return with_version_1(data)
    records = [record for _, record in found]
    others = [record for _, record in books.frames(other)[0]]
    if what <= 6 and len(records) > 1:
        at = dice.randrange(1, len(records))
        records[at] = turn_record(dice, records[at], others)
    elif what == 7:
        records[0] = turn_head(dice, records[0], others)
    else:
        records = dice.choice([records[:1], []]) + shuffle(dice, records[1:], others)
    return books.put_journal(records)


def turn_head(dice, record, others):
    """The header with something changed, or another journal's."""
    if some(dice, 0.3) and others:
        return others[0]
    if some(dice, 0.4):
        return spoil(dice, record)
    try:
        home, accounts = books.read_head(record)
    except books.NoRecord:
        return record
    parts = [{"floor": -(10**14)}, {"ceil": 10**14}, {"opening": 0}, {"decimals": 4}, {"decimals": 5}, {"ident": b"A" * 34}, {"ident": b""}]
    parts += [{"kind": b"C"}, {"ccy": b"EUR"}, {"floor": 1 - 10**14, "ceil": 10**14 - 1}, {"owner": b"ALPHDEFFXXX"}, {"ident": b"a"}]
    if accounts:
        at = dice.randrange(len(accounts))
        accounts[at] = accounts[at]._replace(**dice.choice(parts))
    version = dice.choice([1, 2, 2, 2, 2])
    return books.put_head(dice.choice([home, home, b"ALPHDEFF500"]), accounts * dice.choice([1, 1, 1, 2]), version)


def with_byte(data, at, byte):
    return data[:at] + bytes([byte]) + data[at + 1 :]


def with_length(dice, data, found):
    """A journal with another length in front of a record."""
    gate, record = dice.choice(found)
    size = dice.choice([0, 1, len(record) - 1, len(record) + 1, 1 << 16, 1 << 20, (1 << 20) + 1, 1 << 30, (1 << 31) - 1, (1 << 32) - 1])
    return data[: gate + 1] + size.to_bytes(4, "big") + data[gate + 5 :]


# command lines

COMMANDS = [[b"init", HOME], [b"run", b"240603", b"1"], [b"send", b"1", b"100000"], [b"bookings"], [b"statements", b"240603"], [b"reconcile"]]
COMMANDS += [[b"balances"], [b"balances", b"240603"], [b"mend", b"1", b"100000"], [b"return", b"1", b"240603"], [b"customer-statements", b"240603"]]
COMMANDS += [[b"migrate"], [b"set-limits", b"CUST1", b"0", b"1"], [b"open-account", b"CUST3", b"C", b"HOMEUS33", b"EUR", b"0", b"1"]]
COMMANDS += [[b"batch", b"240603", b"1", b"16"], [b"entries", b"240603", b"240603"], [b"check", HOME], [b"page", b"240603"]]
COMMANDS += [[b"ship", b"1", b"1000000"], [b"follow"]]
COMMANDS += [[b"generate", b"3", b"7"], [b"trial", b"3", b"7", b"1"], [b"--help"], [b"--version"], [b"batch"], [b""]]
WORDS = [b"", b"0", b"1", b"01", b"16", b"17", b"0000000000000000001", b"00000000000000000001", b"100000", b"100001", b"50001", b"-1", b"+1", b"1 "]
WORDS += [b"1024", b"1025", b"1000000", b"1000001"]
WORDS += [b"240603", b"240631", b"2406031", b"24060", b"000229", b"010229", b"HOMEUS33", b"HOMEUS33XXX", b"HOMEUS3", b"homeus33", b"--help", b"-"]
WORDS += [b"\xff", b"A" * 4096, b"A" * 4097, b"9999999999999999999", b"18446744073709551616", b"run", b"init", b"\xd9\xa1"]


def command_line(dice):
    """The words of a command, of which some are missing, too many or others."""
    words = list(dice.choice(COMMANDS))
    return words if some(dice, 0.2) else shuffle(dice, words, WORDS)
