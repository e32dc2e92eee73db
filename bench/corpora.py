"""Makes the folders that bench/run times the program over: the same bytes each time."""
import pathlib
import re
import shutil
import subprocess

BENCH = pathlib.Path(__file__).resolve().parent
TABLES = BENCH.parent / "examples" / "tables"
DAY = "240603"
MOST_BYTES = 1 << 26

# a statement of one line, of an account that nobody has
RECEIVED = b"""{1:F01HOMEUS33AXXX0001000001}{2:O9501200240603CORRBEBBAXXX00010000012406031205N}{4:
:20:A
:25:ELSEWHERE
:28C:1
:60F:C240602EUR0,
:61:240603C1,S103REF1
:62F:C240603EUR1,
-}"""


def transfer(number, mt="103", bank="", filling=0):
    """A customer transfer whose customer has no account; to a bank, and with a trailer of so many bytes."""
    lines = [
        f"{{1:F01HOMEUS33AXXX0001{number:06d}}}{{2:O{mt}1200240603ALPHDEFFAXXX0001{number:06d}2406031205N}}{{4:",
        f":20:REF{number}",
        ":23B:CRED",
        ":32A:240603EUR1234,5",
        ":50K:A PAYER",
        *([f":57A:{bank}"] if bank else []),
        ":59:/NOBODY",
        "A PAYEE",
        ":71A:SHA",
        "-}" + ("{5:{MAC:" + "0" * filling + "}}" if filling else ""),
    ]
    return ("\r\n".join(lines) + "$\r\n").encode()


def lay(folder, count=50_000, **more):
    """A folder with the tables of the examples and so many transfers, or as many as a file may have bytes; how many they are."""
    folder.mkdir()
    for table in sorted(TABLES.glob("*.csv")):
        shutil.copy(table, folder)
    left = MOST_BYTES
    with open(folder / "messages.fin", "wb") as file:
        for number in range(1, count + 1):
            message = transfer(number, **more)
            left -= len(message)
            if left < 0:
                return number - 1
            file.write(message)
    return count


def booked(folder, count, *more):
    """A folder with so many messages that are booked, as bench/make_booked has them."""
    if not folder.exists():
        subprocess.run([BENCH / "make_booked", folder, str(count), *map(str, more)], check=True)
    return folder


def entries_in(report):
    """How many entries stand after a run, by the last lines of its report."""
    with open(report, "rb") as file:
        file.seek(max(0, report.stat().st_size - 4096))
        return int(re.search(rb"^MESSAGES \d+ ENTRIES (\d+)$", file.read(), re.M)[1])
