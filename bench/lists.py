"""What `entries` and `check` must print. By docs/ alone, with no look into the program's code."""
import re

from books import day_of, day_text
from desk import decimal, is_return
from inputs import cut

HEADER = "place,day,value_date,mir,type,reference,uetr,currency,amount,debit,credit,fee,outcome,balance\r\n"
CHECKED = re.compile(rb"(\d{6}) (\S{28}) (VALID (103|202COV|900|910|950)|REFUSED [A-Z]\d\d \S+ \d+)")
TYPES = {b"103": b"103", b"202": b"202COV", b"900": b"900", b"910": b"910", b"950": b"950"}


def quoted(text):
    return '"' + text.replace('"', '""') + '"' if re.search(r'[",\r\n]', text) else text


def money_of(journal, entry):
    """The cells of an entry's currency, amount, accounts and charge."""
    accounts = [journal.accounts[it.account - 1] for it in entry.legs]
    decimals, legs = accounts[0].decimals, list(zip(entry.legs, accounts))
    (_, first), *rest = legs
    credit = next(at for at, (leg, _) in enumerate(rest) if leg.side)
    fee = "".join(("" if leg.side else "-") + decimal(leg.amount, decimals) for at, (leg, _) in enumerate(rest) if at != credit)
    amount = sum(it.amount for it in entry.legs if not it.side)
    return [first.ccy.decode(), decimal(amount, decimals), first.ident.decode(), rest[credit][1].ident.decode(), fee]


def entry_row(journal, place, entry):
    """The row of an entry."""
    quote = entry.legs[0].quote
    reference = "" if isinstance(quote, int) else quoted(quote.decode())
    kind = "202COV" if entry.cover or is_return(journal, entry) else "103"
    cells = [f"{place:08d}", day_text(entry.day), day_text(entry.value), entry.mir.decode(), kind, reference, (entry.uetr or b"").decode()]
    cells += money_of(journal, entry)
    if entry.outcome:
        account = journal.accounts[entry.legs[entry.outcome[0] - 1].account - 1]
        cells += ["UNFUNDED", decimal(entry.outcome[1], account.decimals)]
    else:
        cells += ["BOOKED", ""]
    return ",".join(cells) + "\r\n"


def entries(journal, first, last):
    """What `entries` prints of the days from the first to the last."""
    rows = [entry_row(journal, place, it) for place, it in enumerate(journal.entries, 1) if first <= it.day <= last]
    return HEADER + "".join(rows)


def wrong(run, journal):
    """What is wrong with what one of these commands printed that ended well."""
    if run.name == b"entries":
        if run.out.decode() != entries(journal, *map(day_of, run.words[1:])):
            yield "the rows aren't those of the entries"
        return
    messages, _ = cut(run.before["messages.fin"])
    lines = run.out.splitlines(keepends=True)
    if len(lines) != len(messages):
        yield f"{len(lines)} lines for {len(messages)} messages"
    for number, (line, message) in enumerate(zip(lines, messages), 1):
        fields = CHECKED.fullmatch(line[:-1])
        if not fields or int(fields[1]) != number or fields[2] != b"-" * 28 and fields[2] not in message:
            yield f"line {number} is {line[:100]!r}"
            return
        if fields[4] and TYPES.get(re.search(rb"\{2:O(\d{3})", message)[1]) != fields[4]:
            yield f"line {number}: another type than the message's"


def as_run(checked, report):
    """Whether the lines of `check` are the verdicts of a run's report over the same messages."""
    for line, told in zip(checked.splitlines(), report.splitlines()):
        is_refused = re.fullmatch(rb"\d{6} \S{28} REFUSED \S+ \S+ \d+", told) is not None
        is_advice = told.endswith(b" REFUSED P37")
        kind = line.split(b" ")[-1]
        if is_refused and line != told or not is_refused and (b" VALID " not in line or (kind in (b"103", b"202COV")) == is_advice):
            return False
    return True
