"""The packet log of a run: a line for each thing that happened to a packet, read in one pass."""
import os
from typing import Iterator, NamedTuple

LOG = "packets.log"
DROPPED = ("lost", "fullup", "fulldown", "codel", "noport", "sockfull")
ACTS = frozenset(("send", "recv", *DROPPED))
WORDS = {"udp": 7, "tcp": 10}
HEADS = {"udp": 28, "tcp": 40}


class Fault(Exception):
    """What is wrong with what was asked or with a file, in words."""


class Packet(NamedTuple):
    """A line of the log. Without TCP it has no flags, and both numbers are 0."""

    time: int
    host: str
    act: str
    protocol: str
    source: str
    destination: str
    size: int
    flags: str = ""
    sequence: int = 0
    acknowledgement: int = 0


def packet(line: str) -> Packet:
    """The packet of a line without its end; a ValueError or a LookupError where it is none."""
    words = line.split(" ")
    if len(words) != WORDS[words[3]] or words[2] not in ACTS:
        raise ValueError
    words[0], words[6] = int(words[0]), int(words[6])
    if words[3] == "tcp":
        words[8], words[9] = int(words[8]), int(words[9])
    return Packet(*words)


def packets(directory: str) -> Iterator[Packet]:
    """The packets of a data directory, in the order of the log. A last line that isn't whole yet is passed over."""
    path = os.path.join(directory, LOG)
    last = 0
    try:
        with open(path, encoding="ascii", errors="replace", newline="\n") as file:
            for number, line in enumerate(file, 1):
                if line[-1] != "\n":
                    return
                try:
                    found = packet(line[:-1])
                except (ValueError, LookupError):
                    raise Fault(f"{path}:{number}: not a line of a packet log") from None
                if found.time < last:
                    raise Fault(f"{path}:{number}: earlier than the line before it")
                last = found.time
                yield found
    except FileNotFoundError:
        raise Fault(f"{path}: not found") from None
    except OSError as error:
        raise Fault(f"{path}: {error.strerror}") from None
