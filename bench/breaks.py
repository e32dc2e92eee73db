"""Says by docs/operating.md what `reconcile` prints of a statement that can be compared with the books."""
import re

import books
from books import amount_text, day_of

LINE = re.compile(rb"^:61:(\d{6})(?:\d{4})?(R?[CD])[A-Z]?([\d,]+)[A-Z][A-Z0-9]{3}(.*)$", re.MULTILINE)
BALANCE = re.compile(rb"^:6[02][FM]:([CD])\d{6}[A-Z]{3}([\d,]+)$", re.MULTILINE)


def pieces(pages):
    """The pages of each statement, in the order of their first ones: those of one account up to and with one that has 62F."""
    going, made = {}, []
    for page in pages:
        page = page.replace(b"\r\n", b"\n")
        ident = re.search(rb"^:25:(.*)$", page, re.M)[1]
        if ident not in going:
            going[ident] = []
            made.append(going[ident])
        going[ident].append(page)
        if b"\n:62F:" in page:
            del going[ident]
    return made


def units(text, decimals):
    whole, rest = text.split(b",")
    return int(whole) * 10**decimals + int(rest.ljust(decimals, b"0") or b"0")


def their_lines(pages, decimals):
    """What each line of a statement adds to the other bank's balance, with its mark, value date and reference."""
    for value, mark, much, rest in LINE.findall(b"\n".join(pages)):
        amount = units(much, decimals)
        yield (amount if mark in (b"C", b"RD") else -amount), mark.decode(), day_of(value), rest.split(b"//")[0].decode(), amount


def our_entries(journal, number, day):
    """What each booked entry of a day adds to an account, with its value date and what it quotes."""
    for place, entry, leg in books.movements(journal, number):
        if entry.day == day:
            quote = f"P{place:08d}K{leg.quote}" if isinstance(leg.quote, int) else leg.quote.decode()
            yield place, leg, (leg.amount if leg.side else -leg.amount), entry.value, quote


def compared(journal, number, day, pages):
    """The lines of a statement's report after the first, those of each sort in their order."""
    account = journal.accounts[number - 1]
    theirs, ours = list(their_lines(pages, account.decimals)), list(our_entries(journal, number, day))
    pairs, left = [], []
    for line, (adds, mark, value, quoted, amount) in enumerate(theirs, 1):
        found = next((it for it in ours if it[2] == -adds and it[3:] == (value, quoted)), None)
        if found:
            ours.remove(found)
            pairs.append(f"PAIR {found[0]:08d} {line:05d}")
        else:
            left.append(f"THEIRS {line:05d} {mark} {amount_text(amount, account.decimals)} {quoted}")
    mine = [f"OURS {place:08d} {'DC'[leg.side]} {amount_text(leg.amount, account.decimals)} {quote}" for place, leg, _, _, quote in ours]
    return sorted(pairs) + sorted(mine) + sorted(left) + [gap(journal, number, day, pages)]


def gap(journal, number, day, pages):
    """Both balances together, before the day and after it."""
    account, ends = journal.accounts[number - 1], []
    for is_after, (mark, much) in ((False, BALANCE.findall(pages[0])[0]), (True, BALANCE.findall(pages[-1])[-1])):
        ends.append(units(much, account.decimals) * (1 if mark == b"C" else -1) + account.opening)
        for _, entry, leg in books.movements(journal, number):
            if entry.day < day + is_after:
                ends[-1] += leg.amount if leg.side else -leg.amount
    return "GAP " + " ".join(amount_text(it, account.decimals) for it in ends)


def in_order(lines):
    """The lines of a report, those of each sort in their order."""
    sorts = ("PAIR", "OURS", "THEIRS")
    return sorted(lines, key=lambda it: (sorts.index(it.split(" ")[0]) if it.split(" ")[0] in sorts else 3, it))
