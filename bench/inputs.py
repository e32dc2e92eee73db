"""Says by the pages in docs/ which command words, tables and message files are refused, and with which line."""
import functools
import re

from books import BIC, MOST_MINOR, day_of

MOST_MESSAGE, MOST_MESSAGES, MOST_FILE, MOST_TABLE = 16_384, 50_000, 1 << 26, 1 << 23
ROWS = {"bics": 100_000, "ccys": 1_000, "countries": 1_000, "accounts": 1_000, "ssi": 10_000, "charges": 1_000}
READS = {
    b"init": ["bics", "ccys", "countries", "accounts"],
    b"run": ["bics", "ccys", "countries", "ssi", "charges"],
    b"batch": ["bics", "ccys", "countries", "ssi", "charges"],
    b"page": ["bics", "ccys", "countries", "ssi", "charges"],
    b"check": ["bics", "ccys", "countries"],
    b"reconcile": ["bics", "ccys", "countries"],
    b"open-account": ["bics", "ccys"],
}
FILES = {b"run": "messages.fin", b"batch": "messages.fin", b"page": "messages.fin", b"check": "messages.fin", b"reconcile": "received.fin"}
# commands that a program may lack: it has those that its `--help` lists
LATER = {b"batch", b"entries", b"check", b"page", b"ship", b"follow"}
OFFERED = set()


def offer(help_text):
    """Notes which of these commands a program has."""
    OFFERED.clear()
    OFFERED.update(LATER & set(re.findall(rb"^corr FOLDER (\S+)", help_text, re.M)))


class Refused(Exception):
    """Why a table is refused."""


def is_bic(text):
    return BIC.fullmatch(text + b"XXX" if len(text) == 8 else text) is not None


def is_day(text):
    return re.fullmatch(rb"\d{6}", text) is not None and day_of(text) is not None


def is_number(text, least, most):
    return re.fullmatch(rb"\d{1,19}", text) is not None and least <= int(text) <= most


def is_command(words):
    """Whether the words after the folder are a command."""
    if words and words[0] in LATER:
        return words[0] in OFFERED and is_later(words)
    if words[:1] == [b"init"]:
        return len(words) == 2 and is_bic(words[1])
    if words[:1] == [b"run"]:
        return len(words) == 3 and is_day(words[1]) and is_number(words[2], 1, 16)
    if words[:1] == [b"batch"]:
        return len(words) == 4 and is_day(words[1]) and is_number(words[2], 1, 16) and is_number(words[3], 1, 1_024)
    if words[:1] == [b"return"]:
        return len(words) == 3 and is_number(words[1], 1, 100_000) and is_day(words[2])
    if words[:1] == [b"open-account"]:
        return len(words) == 7
    if words[:1] == [b"set-limits"]:
        return len(words) == 4 and all(re.fullmatch(rb"-?\d{1,15}", it) for it in words[2:])
    if words[:1] in ([b"send"], [b"mend"]):
        return len(words) == 3 and all(is_number(it, 1, 100_000) for it in words[1:]) and int(words[1]) <= int(words[2])
    if words[:1] in ([b"statements"], [b"customer-statements"]) or (words[:1] == [b"balances"] and len(words) > 1):
        return len(words) == 2 and is_day(words[1])
    if words[:1] == [b"generate"]:
        return len(words) == 3 and is_number(words[1], 1, 50_000) and is_number(words[2], 0, 10**19)
    if words[:1] == [b"trial"]:
        return len(words) == 4 and is_number(words[1], 1, 50_000) and is_number(words[2], 0, 10**19) and is_number(words[3], 1, 16)
    return words in ([b"bookings"], [b"reconcile"], [b"balances"], [b"migrate"])


def is_later(words):
    """The same of a command that not each program has."""
    name, rest = words[0], words[1:]
    if name == b"batch":
        return len(rest) == 3 and is_day(rest[0]) and is_number(rest[1], 1, 16) and is_number(rest[2], 1, 1_024)
    if name == b"entries":
        return len(rest) == 2 and all(map(is_day, rest))
    if name == b"check":
        return len(rest) == 1 and is_bic(rest[0])
    if name == b"page":
        return len(rest) == 1 and is_day(rest[0])
    if name == b"ship":
        return len(rest) == 2 and all(is_number(it, 1, 1_000_000) for it in rest) and int(rest[0]) <= int(rest[1])
    return not rest


def is_word(word):
    try:
        word.decode()
    except UnicodeDecodeError:
        return False
    return len(word) <= 4096


class Group:
    """Walks over the groups of a message file."""

    def __init__(self, data):
        self.data = data

    def end(self, at):
        """The place after the group that begins here, or None where it isn't closed."""
        depth = 0
        for found in re.compile(rb"[{}]").finditer(self.data, at):
            depth += 1 if found[0] == b"{" else -1
            if depth == 0:
                return found.end()
        return None

    def message(self, start):
        """Where the message that begins here ends, or its fault."""
        at = start
        while True:
            at = self.end(at)
            if (at or len(self.data)) - start > MOST_MESSAGE or at is None:
                return None
            if self.data[at : at + 1] != b"{" or self.data[at : at + 3] == b"{1:":
                return at
            if len(self.data) - at < 3 and b"{1:".startswith(self.data[at:]):
                return None


@functools.lru_cache(maxsize=2)
def cut(data):
    """The messages of a file, and the place of its fault or None."""
    messages, at, dollars = [], 0, 1
    groups, gap = Group(data), re.compile(rb"[\n\r ]*")
    while at < len(data):
        at = gap.match(data, at).end()
        byte = data[at : at + 1]
        if byte == b"{":
            if data[at : at + 3] != b"{1:":
                return messages, at
            end = groups.message(at)
            if end is None:
                return messages, at
            messages.append(data[at:end])
            at, dollars = end, 0
            continue
        dollars += byte == b"$"
        if byte not in (b"$", b"") or dollars > 1:
            return messages, at
        at += 1
    return messages, None


def rows_of(data):
    """The rows of a table file, each a list of cells."""
    data = data[3:] if data.startswith(b"\xef\xbb\xbf") else data
    rows, at = [], 0
    while at < len(data):
        if data[at : at + 1] in (b"\n", b"\r"):
            at += 1
            continue
        row, at = row_at(data, at)
        rows.append(row)
    return rows


def row_at(data, at):
    """The cells of the row that begins here, and the place after its end."""
    row = []
    while True:
        cell = b""
        if data[at : at + 1] == b'"':
            cell, at = quoted_at(data, at + 1)
        rest = re.compile(rb"[^,\r\n]*").match(data, at)
        row.append(cell + rest[0])
        at = rest.end() + 1
        if data[at - 1 : at] != b",":
            return row, at


def quoted_at(data, at):
    """What a cell has up to its closing quote, and the place after that."""
    cell = b""
    while True:
        end = data.find(b'"', at)
        if end < 0:
            return cell + data[at:], len(data)
        cell += data[at:end]
        if data[end + 1 : end + 2] != b'"':
            return cell, end + 1
        cell, at = cell + b'"', end + 2


FORMS = {
    "bic": is_bic,
    "ccy": re.compile(rb"[A-Z]{3}").fullmatch,
    "country": re.compile(rb"[A-Z]{2}").fullmatch,
    "decimals": re.compile(rb"[0-4]").fullmatch,
    "listed": re.compile(rb"[YN]").fullmatch,
    "id": re.compile(rb"[A-Z0-9]{1,34}").fullmatch,
    "kind": re.compile(rb"[CVNF]").fullmatch,
    "number": re.compile(rb"-?\d{1,15}").fullmatch,
    "charge": lambda it: re.fullmatch(rb"\d{1,15}", it) is not None and 0 < int(it) < MOST_MINOR,
    "bank": lambda it: it == b"*" or is_bic(it),
    "way": re.compile(rb"BOOK|SERIAL|COVER").fullmatch,
    "via": lambda it: it == b"" or is_bic(it),
    "date": is_day,
}
COLUMNS = {
    "bics": ["bic"],
    "ccys": ["ccy", "decimals"],
    "countries": ["country", "listed"],
    "accounts": ["id", "kind", "bic", "ccy", "number", "number", "number"],
    "ssi": ["ccy", "bank", "way", "via", "id", "date", "date"],
    "charges": ["ccy", "charge"],
}


def keys_of(name, row):
    """The keys of a row of its form."""
    if name == "accounts":
        bank = [] if row[1] == b"C" else [(row[1], row[2][:8], row[3])]
        return [row[0], *bank]
    return {"bics": [row[0][:8]], "ssi": []}.get(name, [row[0]])


def account_fault(row, tables, home):
    if row[2][:8] not in tables["bics"] or (row[1] in (b"C", b"F")) != (row[2][:8] == home[:8]):
        return "bic"
    if row[3] not in tables["ccys"]:
        return "currency"
    floor, ceil, opening = map(int, row[4:])
    if not floor <= opening <= ceil or max(abs(floor), abs(ceil), abs(opening)) >= MOST_MINOR:
        return "limits"
    return None


def instruction_fault(number, row, tables, spans):
    if (row[1] != b"*" and row[1][:8] not in tables["bics"]) or (row[3] and row[3][:8] not in tables["bics"]):
        return "bic"
    if row[0] not in tables["ccys"]:
        return "currency"
    start, end = map(day_of, row[5:])
    if start >= end:
        return "span"
    others = spans.setdefault((row[0], row[1]), [])
    for other, other_start, other_end in others:
        if start < other_end and other_start < end:
            return f"overlap {other}"
    others.append((number, start, end))
    return None


def check_row(name, row, seen):
    """Refuses a row that isn't of its form, or that has the key of an earlier one."""
    forms = COLUMNS[name]
    if len(row) != len(forms):
        raise Refused("columns")
    for column, (cell, form) in enumerate(zip(row, forms), 1):
        if not FORMS[form](cell) or (form == "via" and (cell == b"") != (row[2] == b"BOOK")):
            raise Refused(f"value {column}")
    doubles = [seen[it] for it in keys_of(name, row) if it in seen]
    if doubles:
        raise Refused(f"double {min(doubles)}")


def read_table(name, data, tables, home):
    """The rows of a table; raises what the line says after the table's name."""
    rows = rows_of(data) if len(data) <= MOST_TABLE else []
    if len(data) > MOST_TABLE or len(rows) > ROWS[name]:
        raise Refused("0 rows")
    seen, spans = {}, {}
    for number, row in enumerate(rows, 1):
        try:
            check_row(name, row, seen)
            fault = None
            if name == "accounts":
                fault = account_fault(row, tables, home)
            elif name == "ssi":
                fault = instruction_fault(number, row, tables, spans)
            elif name == "charges" and row[0] not in tables["ccys"]:
                fault = "currency"
            if fault:
                raise Refused(fault)
        except Refused as why:
            raise Refused(f"{number} {why}") from None
        for key in keys_of(name, row):
            seen[key] = number
    if name in ("accounts", "ssi"):
        return rows
    return {keys_of(name, it)[0]: it[-1] for it in rows}
