"""The queues of a standby, by the tools of Debian's amqp-tools, and the program.

CORR is the program (`corr` of the PATH where it isn't set), STANDBY_URL the broker (amqp://localhost), and STANDBY_QUEUE the name before
the dot of both queues (corr): NAME.packets takes the packets of the leader, and NAME.have the numbers that the follower holds.
"""
import os
import subprocess
import sys

CORR = os.environ.get("CORR", "corr")
URL = os.environ.get("STANDBY_URL", "amqp://localhost")
NAME = os.environ.get("STANDBY_QUEUE", "corr")
PACKETS = f"{NAME}.packets"
HAVE = f"{NAME}.have"

# what amqp-get answers where a queue is empty
EMPTY = 2

# the statuses after which the same command may be given later: a file, the report or the disk failed, the journal was in use, or memory
# ran out
PASSING = (3, 4, 5, 7)


class Broken(Exception):
    """The broker didn't take a call."""


def _call(tool, *words, body=None):
    return subprocess.run([tool, "-u", URL, *words], input=body, stdout=subprocess.PIPE, check=False)


def declare():
    """Makes both queues, durable, where they aren't there."""
    for queue in (PACKETS, HAVE):
        if _call("amqp-declare-queue", "-d", "-q", queue).returncode != 0:
            raise Broken(f"{queue} can't be made at {URL}")


def publish(queue, body):
    """Puts a persistent message into a queue."""
    if _call("amqp-publish", "-p", "-r", queue, body=body).returncode != 0:
        raise Broken(f"a message can't be put into {queue}")


def get(queue):
    """Takes one message out of a queue; None where it is empty."""
    done = _call("amqp-get", "-q", queue)
    if done.returncode == EMPTY:
        return None
    if done.returncode != 0:
        raise Broken(f"{queue} can't be read")
    return done.stdout


def consume(queue, *command):
    """Waits for one message, gives it to a command on standard input, and takes it out of the queue where that ends well."""
    if _call_through("amqp-consume", "-q", queue, "-p", "1", "-c", "1", "--", *command) != 0:
        raise Broken(f"{queue} can't be read")


def _call_through(tool, *words):
    return subprocess.run([tool, "-u", URL, *words], check=False).returncode


def corr(folder, *words):
    """A command of the program in a folder; its standard error is passed on, but where another program holds the journal."""
    done = subprocess.run([CORR, folder, *words], stdout=subprocess.PIPE, stderr=subprocess.PIPE, check=False)
    if done.stderr != b"corr: journal is in use\n":
        sys.stderr.buffer.write(done.stderr)
        sys.stderr.flush()
    return done


def give_up(why):
    """Ends the script with status 1."""
    sys.exit(f"{os.path.basename(sys.argv[0])}: {why}")
