"""What scripts of this folder make and call: folders of the tables of examples/ with messages that are all booked, and the program."""
import pathlib
import shutil
import subprocess
import sys

TOP = pathlib.Path(__file__).resolve().parent.parent
SAMPLE = TOP / "examples" / "tables"
PROGRAM = TOP / "crates" / "corr_main" / "out" / "corr_main"
TABLES = ["bics.csv", "ccys.csv", "countries.csv", "accounts.csv", "ssi.csv", "charges.csv"]
DAY = "240603"

# who sends, in which currency, with how many decimals, and who is paid
WAYS = [
    ("ALPHDEFF", "EUR", True, [":59:/CUST1"]),
    ("DELTJPJT", "JPY", False, [":59:/CUST2"]),
    ("ALPHDEFF", "EUR", True, [":57A:BETAFRPP", ":59:/CUST9"]),
    ("BETAFRPP", "EUR", True, [":57A:ALPHDEFF", ":59:/CUST9"]),
]


def reference(number):
    """The message input reference of a message."""
    sender = WAYS[number % len(WAYS)][0]
    return f"{DAY}{sender}AXXX0001{number:06d}"


def message(number):
    """A customer transfer of at most 6,99 with a reference of its own, one of the ways in turn."""
    _, currency, decimals, payee = WAYS[number % len(WAYS)]
    amount = f"{number % 7},{number * 37 % 99 + 1:02d}" if decimals else f"{number % 7 + 1},"
    lines = [
        f"{{1:F01HOMEUS33AXXX{number:010d}}}{{2:O1031200{reference(number)}{DAY}1205N}}{{4:",
        f":20:G{number:06d}",
        ":23B:CRED",
        f":32A:{DAY}{currency}{amount}",
        ":50K:A PAYER",
        *payee,
        "A PAYEE",
        ":71A:SHA",
        "-}$",
    ]
    return "\r\n".join(lines)


def make_folder(folder, numbers):
    """A folder with the tables, and the messages of these numbers."""
    folder.mkdir()
    for name in TABLES:
        shutil.copy(SAMPLE / name, folder / name)
    (folder / "messages.fin").write_text("".join(map(message, numbers)), newline="")


def call(program, folder, *words):
    return subprocess.run([program, folder, *words], stdout=subprocess.PIPE, stderr=subprocess.PIPE, check=False)


def demand(done, what):
    """The lines that a command printed, which had to end well."""
    if done.returncode != 0:
        sys.exit(f"{sys.argv[0]}: {what} ended with {done.returncode}: {done.stderr.decode()}")
    return done.stdout.decode().splitlines()


def wrong_places(entries):
    """What is wrong with the places of entries, which rise by one from 1."""
    if [line.split(" ", 1)[0] for line in entries] != [f"{n:08d}" for n in range(1, len(entries) + 1)]:
        return "the places don't rise by one"
    return None
