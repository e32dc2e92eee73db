"""Changes of accounts, returns, copies of old journals and packets that are taken, stopped by `kill -9` and given again (see rig/stops)."""
import pathlib
import shutil
import subprocess
import sys
import time

from days import DAY, TOP, call, demand, make_folder

sys.path.insert(0, str(TOP / "bench"))
import books
import forge
import links

# each command, and what it says when what it does was done already: its status and a word of its line
CHANGES = [
    (["open-account", "CUST3", "C", "HOMEUS33", "EUR", "0", "90000000000"], (2, b"double")),
    (["set-limits", "CUST1", "0", "80000000000"], (0, b"")),
]
COPIES = [(["migrate"], (6, b"exists"))]
RETURNS = [(["return", "1", "240604"], (16, b"returned"))]
PACKETS = [(["follow"], (0, b""))]


def read(folder, name):
    path = pathlib.Path(folder, name)
    return path.read_bytes() if path.exists() else b""


def stopped(program, folder, words, after):
    """Starts a command and kills it after so many seconds. Whether it was still going on."""
    going = subprocess.Popen([program, folder, *words], stdout=subprocess.DEVNULL, stderr=subprocess.DEVNULL)
    try:
        going.wait(timeout=after)
    except subprocess.TimeoutExpired:
        going.kill()
        going.wait()
        return True
    return False


def wrong_change(journal, before, after):
    """What is wrong with a journal after a change was stopped: it has it, or not, and all entries."""
    if journal.fault:
        return f"the journal is refused: {journal.fault}"
    if journal.entries != before.entries:
        return "the entries are others"
    if journal.accounts not in (before.accounts, after.accounts):
        return "the accounts are neither those before nor those after"
    return None


class Changed:
    """The journal is changed: it stands as before or with the change, and in the end with it."""

    commands = CHANGES

    def __init__(self, model):
        self.model = model

    def wrong_stop(self, folder, whole):
        journal = books.read_journal(read(folder, "journal.bin"))
        return wrong_change(journal, books.read_journal(read(self.model, "journal.bin")), books.read_journal(read(whole, "journal.bin")))

    def stands(self, folder, whole):
        return books.read_journal(read(folder, "journal.bin")).accounts == books.read_journal(read(whole, "journal.bin")).accounts

    def wrong_end(self, folder, whole):
        wrong = self.wrong_stop(folder, whole)
        return wrong or (None if self.stands(folder, whole) else "the change doesn't stand in the end")


class Returned(Changed):
    """The journal has its entries, and the return or not; in the end it has it."""

    commands = RETURNS

    def wrong_stop(self, folder, whole):
        found, before, after = (books.read_journal(read(it, "journal.bin")) for it in (folder, self.model, whole))
        if found.fault:
            return f"the journal is refused: {found.fault}"
        return None if found.entries in (before.entries, after.entries) else "the entries are neither those before nor those after"

    def stands(self, folder, whole):
        return books.read_journal(read(folder, "journal.bin")).entries == books.read_journal(read(whole, "journal.bin")).entries


class Followed(Changed):
    """The second machine's journal holds a front of the records that were shipped, and in the end all of them."""

    commands = PACKETS

    def records(self, folder):
        data = read(folder, "journal.bin")
        return links.records_of(data) if len(data) > 1 and data[0] else []

    def wrong_stop(self, folder, whole):
        held, sent = self.records(folder), self.records(whole)
        fault = books.read_journal(read(folder, "journal.bin")).fault if held else None
        if fault:
            return f"the journal is refused: {fault}"
        return None if held == sent[: len(held)] else "what is held is no front of what was shipped"

    def stands(self, folder, whole):
        return self.records(folder) == self.records(whole)


class Copied:
    """The old journal stays as it is, whatever stops; in the end the copy is that of a command that was never stopped."""

    commands = COPIES

    def __init__(self, model):
        self.model = model

    def wrong_stop(self, folder, whole):
        return None if read(folder, "journal.bin") == read(self.model, "journal.bin") else "the old journal is another"

    def stands(self, folder, whole):
        return read(folder, "journal2.bin") == read(whole, "journal2.bin")

    def wrong_end(self, folder, whole):
        wrong = self.wrong_stop(folder, whole)
        return wrong or (None if self.stands(folder, whole) else "the copy is another")


def wrong_answer(given, stood, done_already):
    """What is wrong with the answer of the same command after a stop, where its work stood then or not."""
    status, word = done_already if stood else (0, b"")
    if given.returncode != status or word not in given.stderr:
        return f"given again, where it {'stood' if stood else 'did not stand'}, it ended with {given.returncode}: {given.stderr.decode()}"
    return None


def round_of(program, rules, folder, whole, command, after):
    """One command that is stopped and given again: what is wrong, whether it was killed, and whether its work stood."""
    words, done_already = command
    shutil.copytree(rules.model, folder)
    killed = stopped(program, folder, words, after)
    stood = rules.stands(folder, whole)
    wrong = rules.wrong_stop(folder, whole) or wrong_answer(call(program, folder, *words), stood, done_already)
    return wrong or rules.wrong_end(folder, whole), killed, stood


def never_stopped(program, model, folder, words):
    """How long a command takes that isn't stopped; the folder is as it leaves it."""
    shutil.copytree(model, folder)
    start = time.monotonic()
    demand(call(program, folder, *words), "the command that is never stopped")
    return time.monotonic() - start


def make_model(program, model, entries, what):
    """A folder with a journal of so many entries, for copies of version 1; or for packets with those of such a journal alone."""
    make_folder(model, range(1, entries + 1))
    demand(call(program, model, "init", "HOMEUS33"), "init")
    demand(call(program, model, "run", DAY, "4"), "the run before")
    path = pathlib.Path(model, "journal.bin")
    if what == "copies":
        path.write_bytes(forge.with_version_1(path.read_bytes()))
    elif what == "packets":
        (model / "received.fin").write_bytes(links.shipped(path.read_bytes(), 1, 1_000_000))
        path.unlink()


RULES = {"changes": Changed, "returns": Returned, "copies": Copied, "packets": Followed}


def rounds(program, what, runs, entries, moments, top):
    """Rounds over a journal of so many entries, with what they come to; how many are faulty."""
    model, folder = pathlib.Path(top, "model"), pathlib.Path(top, "run")
    make_model(program, model, entries, what)
    rules = RULES[what](model)
    wholes = [pathlib.Path(top, f"whole{at}") for at in range(len(rules.commands))]
    took = [never_stopped(program, model, whole, words) for whole, (words, _) in zip(wholes, rules.commands)]
    early = faulty = done = 0
    for number in range(runs):
        at = moments.randrange(len(wholes))
        wrong, killed, stood = round_of(program, rules, folder, wholes[at], rules.commands[at], moments.uniform(0, took[at]))
        shutil.rmtree(folder)
        early, done = early + killed, done + (killed and stood)
        if wrong:
            faulty += 1
            print(f"{rules.commands[at][0][0]} {number + 1}: {wrong}")
    print(f"{runs} {what} over {entries} entries: {early} killed before their end, {done} of these when all was done; {faulty} faulty")
    return faulty
