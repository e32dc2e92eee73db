"""Times commands: how long each took, and the most memory that it held."""
import collections
import os
import shutil
import subprocess
import sys
import time

# seconds, and the most memory in MB: the system counts that of the process which starts it too, so that one is kept small
Took = collections.namedtuple("Took", "seconds memory")


def take(words, output=os.devnull, preloaded=None):
    """Runs a command to its end, its standard output into a file; it must end with status 0."""
    actions = [
        (os.POSIX_SPAWN_OPEN, 0, os.devnull, os.O_RDONLY, 0),
        (os.POSIX_SPAWN_OPEN, 1, output, os.O_WRONLY | os.O_CREAT | os.O_TRUNC, 0o644),
    ]
    words = list(map(str, words))
    start = time.perf_counter()
    started = os.posix_spawnp(words[0], words, {**os.environ, **(preloaded or {})}, file_actions=actions)
    _, code, used = os.wait4(started, 0)
    seconds = time.perf_counter() - start
    if code != 0:
        sys.exit(f"bench/run: {' '.join(words)} ended with {os.waitstatus_to_exitcode(code)}")
    return Took(seconds, used.ru_maxrss / 1024)


def fastest(rounds, run):
    """The shortest of so many runs."""
    return min((run() for _ in range(rounds)), key=lambda it: it.seconds)


def middle(times):
    """The middle one of some times: a machine with one busy processor may run it faster for a moment."""
    return sorted(times)[len(times) // 2]


class Place:
    """Where the program works: a folder on a disk, or in memory; with so many seconds, where each sync takes these at least."""

    def __init__(self, name, top, program, sync_seconds=0.0):
        self.name, self.top, self.program = name, top, program
        self.preloaded = slowed(top, sync_seconds) if sync_seconds else None

    def take(self, folder, *words, output=os.devnull):
        """Gives a command over a folder here."""
        return take([self.program, folder, *words], output, self.preloaded)

    def renew(self, folder):
        """A new journal in a folder, and nothing sent."""
        for name in ("journal.bin", "out.fin"):
            (folder / name).unlink(missing_ok=True)
        return take([self.program, folder, "init", "HOMEUS33"])

    def take_anew(self, folder, *words, output=os.devnull):
        """Gives a command over a new journal, the making of which isn't timed."""
        self.renew(folder)
        return self.take(folder, *words, output=output)


def slowed(top, seconds):
    """The environment of a program whose syncs take so long: slow_sync.c, compiled here and preloaded."""
    if not shutil.which("cc"):
        sys.exit("bench/run: cc is not here, and is needed")
    made = top / "slow_sync.so"
    code = os.path.join(os.path.dirname(os.path.abspath(__file__)), "slow_sync.c")
    subprocess.run(["cc", "-O1", "-Wall", "-shared", "-fPIC", "-o", made, code], check=True)
    return {"LD_PRELOAD": str(made), "SYNC_NANOSECONDS": str(round(seconds * 1e9))}
