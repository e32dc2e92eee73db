"""What the commands of a desk must do: accounts that change, old journals carried over, returned payments, what is mended, balances, and the
statements of customers. By docs/ alone, with no look into the program's code."""
import re

import books
import inputs
from books import Account, Limits, amount_text, day_of, read_journal

MOST_ACCOUNTS = 1_000
NOTED = re.compile(r"^:86:[^\r]*\r\n(?:(?![:-])[^\r]*\r\n)*", re.M)


def table(row, why):
    return 2, f"table accounts {row} {why}"


def as_row(words):
    """The words of `open-account` as a row of accounts.csv, whose opening is 0."""
    return [*words[1:], b"0"]


def opened_account(words, home, ccys):
    """The account that `open-account` opens, of words that are such a row."""
    row = as_row(words)
    return Account(row[0], row[1], (row[2] + b"XXX")[:11], row[3], int(ccys[row[3]]), int(row[4]), int(row[5]), 0)


def row_fault(words, journal, tables):
    """Why the words are no row for the journal's home bank."""
    row = as_row(words)
    try:
        inputs.check_row("accounts", row, {})
    except inputs.Refused as why:
        return table(1, why)
    fault = inputs.account_fault(row, tables, journal.home)
    return table(1, fault) if fault else None


def opening_fault(account, journal):
    """Why an account can't be opened among those of a journal."""
    if len(journal.accounts) == MOST_ACCOUNTS:
        return table(1, "rows")
    for number, other in enumerate(journal.accounts, 1):
        is_other_bank = account.kind == b"C" or (account.kind, account.owner[:8], account.ccy) != (other.kind, other.owner[:8], other.ccy)
        if account.ident == other.ident or not is_other_bank:
            return table(1, f"double {number}")
    if any(account.ccy == it.ccy and account.decimals != it.decimals for it in journal.accounts):
        return table(1, "currency")
    return None


def balances_of(journal):
    """The balance of each account after all entries."""
    balances = [it.opening for it in journal.accounts]
    for entry in journal.entries:
        books.add_entry(entry, balances)
    return balances


def limits_of(words, journal):
    """The change of limits that words name, or the line by which they are refused."""
    numbers = [number for number, it in enumerate(journal.accounts, 1) if it.ident == words[1]]
    if not numbers:
        return None, (13, "unknown account")
    number, floor, ceil = numbers[0], int(words[2]), int(words[3])
    if not books.are_ends(floor, ceil, balances_of(journal)[number - 1]):
        return None, table(number, "limits")
    return Limits(number, floor, ceil), None


def change_of(words, journal, tables):
    """The change that words make of a journal's accounts, or the line by which they are refused."""
    if words[0] == b"set-limits":
        return limits_of(words, journal)
    fault = row_fault(words, journal, tables)
    if fault:
        return None, fault
    account = opened_account(words, journal.home, tables["ccys"])
    return account, opening_fault(account, journal)


def return_reference(home, place):
    """The reference of the entry that takes the payment at a place back."""
    return b"800101" + home[:8] + b"R" + home[8:] + b"%010d" % place


def is_return(journal, entry):
    return entry.mir[:-10] == return_reference(journal.home, 0)[:-10]


def opposite(entry):
    """Account, side and amount of each leg of the return: what was credited is debited first."""
    legs = [it for it in entry.legs if it.side] + [it for it in entry.legs if not it.side]
    return [(it.account, 1 - it.side, it.amount) for it in legs]


def return_fault(words, journal):
    """The line by which a return is refused, where the journal has room."""
    place, day, entries = int(words[1]), day_of(words[2]), journal.entries
    if entries and day < entries[-1].day:
        return 8, f"date back {books.day_text(entries[-1].day)}"
    if place > len(entries) or entries[place - 1].outcome or is_return(journal, entries[place - 1]):
        return 15, f"no payment {len(entries)}"
    reference = return_reference(journal.home, place)
    for at, entry in enumerate(entries, 1):
        if entry.mir == reference:
            return 16, f"returned {at}"
    balances = balances_of(journal)
    for number, (account, side, amount) in enumerate(opposite(entries[place - 1]), 1):
        it, balance = journal.accounts[account - 1], balances[account - 1]
        if not it.floor <= balance + (amount if side else -amount) <= it.ceil:
            return 17, f"unfunded {number} {balance}"
    return None


def foreseen(run, journal, tables):
    """The status and the line of one of these commands over a journal that opens."""
    if run.name in (b"open-account", b"set-limits"):
        return change_of(run.words, journal, tables)[1] or (0, None)
    if run.name == b"return":
        return return_fault(run.words, journal) or (0, None)
    if run.name == b"mend" and run.before.get("out.fin") is None:
        return 3, "read fault 0 1"
    return 0, None


def foreseen_copy(files):
    """The same of `migrate`, which opens a journal of version 1 and makes the second one."""
    journal = read_journal(files.get("journal.bin", b""), 1)
    if journal.fault:
        return (12 if journal.fault.startswith("version ") else 6), journal.fault
    if "journal2.bin" in files and files["journal2.bin"] is None:
        return 5, "second disk fault 0 1"
    second = files.get("journal2.bin", b"")
    return (6, f"exists {second[0]}") if len(second) > 1 and second[0] else (0, None)


def carried_over(data):
    """The journal of version 2 of a journal of version 1."""
    journal = read_journal(data, 1)
    return books.put_journal([books.put_head(journal.home, journal.accounts), *map(books.put_item, journal.entries)])


def decimal(minor, decimals):
    return amount_text(minor, decimals).replace(",", "." if decimals else "")


def balances(journal, day):
    """What `balances` prints, of the entries up to a day."""
    rows = ["id,kind,owner,currency,floor,ceiling,opening,debits,credits,balance\r\n"]
    for number, it in enumerate(journal.accounts, 1):
        sums = [0, 0]
        for _, entry, leg in books.movements(journal, number):
            sums[leg.side] += leg.amount if entry.day <= day else 0
        owner = (it.owner[:8] if it.owner.endswith(b"XXX") else it.owner).decode()
        amounts = [it.floor, it.ceil, it.opening, *sums, it.opening + sums[1] - sums[0]]
        rows.append(f"{it.ident.decode()},{it.kind.decode()},{owner},{it.ccy.decode()},")
        rows[-1] += ",".join(decimal(amount, it.decimals) for amount in amounts) + "\r\n"
    return "".join(rows)


def wrong_change(run, journal):
    """What is wrong with a journal whose accounts were changed."""
    old = read_journal(run.before["journal.bin"])
    tables, _ = inputs_of(run)
    change, _ = change_of(run.words, old, tables)
    if journal.fault or journal.entries != old.entries or journal.changes != [*old.changes, (len(old.entries), change)]:
        yield "the journal isn't the one before with this change more"
    if run.after["journal.bin"][: old.end] != run.before["journal.bin"][: old.end]:
        yield "what stood in the journal is other bytes now"


def inputs_of(run):
    """The tables of `open-account`."""
    tables = {}
    for name in inputs.READS.get(run.name, []):
        tables[name] = inputs.read_table(name, run.before[f"{name}.csv"], tables, None)
    return tables, None


def wrong_copy(run):
    data, old = carried_over(run.before["journal.bin"]), run.before.get("journal2.bin", b"")
    if run.after.get("journal2.bin") != data + old[len(data) :]:
        yield "the copy isn't the journal of version 2"
    elif books.bookings(read_journal(data)) != books.bookings(read_journal(run.before["journal.bin"], 1)):
        yield "the copy has other bookings"


def wrong_return(run, journal):
    """What is wrong with a journal to which a return was added, and with what was printed."""
    old, place = read_journal(run.before["journal.bin"]), int(run.words[1])
    if journal.fault or journal.entries[:-1] != old.entries or journal.changes != old.changes:
        yield "the journal isn't the one before with one entry more"
        return
    entry, payment = journal.entries[-1], old.entries[place - 1]
    legs = [(it.account, it.side, it.amount) for it in entry.legs]
    day = day_of(run.words[2])
    if (entry.mir, entry.day, entry.value, entry.outcome) != (return_reference(journal.home, place), day, day, None):
        yield "the entry isn't the return of the place on the day"
    if legs != opposite(payment):
        yield "the return isn't the payment the other way round"
    if run.out.decode() != books.bookings(journal).splitlines(keepends=True)[-1]:
        yield "what was printed isn't the line of the return"


def mended(run, messages):
    """What `mend` must print: the whole messages of out.fin, and those of the entries that aren't in it, each once."""
    stood = (run.before.get("out.fin") or b"").split(b"$")[:-1]
    return b"".join(it + b"$" for it in [*stood, *(it for it in messages if it not in stood)])


def wrong_notes(run, journal):
    """What is wrong with the statements of customers: without their notes they are those of the accounts."""
    numbers = [number for number, it in enumerate(journal.accounts, 1) if it.kind == b"C"]
    plain = NOTED.sub("", run.appended().decode()).replace("{2:I940", "{2:I950")
    if plain != "".join(books.statement(journal, number, day_of(run.words[1])) for number in numbers):
        yield "the statements without their notes aren't those of the customers' accounts"


def wrong(run, journal):
    """What is wrong with what one of these commands did that ended well."""
    if run.name in (b"open-account", b"set-limits"):
        yield from wrong_change(run, journal)
    elif run.name == b"migrate":
        yield from wrong_copy(run)
    elif run.name == b"return":
        yield from wrong_return(run, journal)
    elif run.name == b"customer-statements":
        yield from wrong_notes(run, journal)
    elif run.name == b"balances":
        day = day_of(run.words[1]) if len(run.words) > 1 else books.LAST_DAY
        if run.out.decode() != balances(journal, day):
            yield "the rows aren't those of the accounts"
