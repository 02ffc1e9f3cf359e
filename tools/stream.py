"""One TCP stream as one host sees it."""
from typing import Iterable, List, NamedTuple, Optional

from packets import HEADS, Fault, Packet

NUMBERS = 1 << 32


class Segment(NamedTuple):
    """What takes sequence numbers: text, or the start or the end of the stream. `again` where some of it went before."""

    time: int
    begin: int
    end: int
    again: bool


class Moment(NamedTuple):
    """That the stream stood at an offset."""

    time: int
    offset: int


class Offsets:
    """Sequence numbers as offsets from the first one, beyond 2^32 too."""

    def __init__(self, first: int):
        self.first, self.highest = first, 0

    def of(self, number: int) -> int:
        """The offset nearest to the highest one so far."""
        ahead = (number - self.first - self.highest + NUMBERS // 2) % NUMBERS - NUMBERS // 2
        return self.highest + ahead


class Side:
    """The segments of one act at the host: those that it sent, or those that it received."""

    def __init__(self) -> None:
        self.segments: List[Segment] = []
        self.offsets: Optional[Offsets] = None
        self.over = False

    def add(self, packet: Packet) -> None:
        if self.offsets is None:
            self.offsets = Offsets(packet.sequence)
        elif "S" in packet.flags and packet.sequence != self.offsets.first:
            self.over = True  # another connection between the same ends
        length = packet.size - HEADS["tcp"] + ("S" in packet.flags) + ("F" in packet.flags)
        if self.over or length == 0:
            return
        begin = self.offsets.of(packet.sequence)
        again = begin < self.offsets.highest
        self.segments.append(Segment(packet.time, begin, begin + length, again))
        self.offsets.highest = max(self.offsets.highest, begin + length)


class Stream:
    """The first connection from one end to another: segments and acknowledgements as `host` sent or received them, and
    what was dropped on the way, wherever that was."""

    def __init__(self, packets: Iterable[Packet], host: str, source: str, destination: str):
        self.host, self.source, self.destination = host, source, destination
        self.sides = {"send": Side(), "recv": Side()}
        self.answers: List[Packet] = []
        self.drops: List[Packet] = []
        for packet in packets:
            if packet.protocol == "tcp":
                self.add(packet)
        if not self.side.segments:
            raise Fault(f"{host} neither sent nor received segments from {source} to {destination}")

    def add(self, packet: Packet) -> None:
        if (packet.source, packet.destination) == (self.source, self.destination):
            if packet.act not in self.sides:
                self.drops.append(packet)
            elif packet.host == self.host:
                self.sides[packet.act].add(packet)
        elif (packet.destination, packet.source) == (self.source, self.destination) and packet.host == self.host:
            self.answers.append(packet)

    @property
    def act(self) -> str:
        """What the host did with the segments."""
        return "send" if self.sides["send"].segments else "recv"

    @property
    def side(self) -> Side:
        return self.sides[self.act]

    def acknowledged(self) -> List[Moment]:
        """The acknowledgements that came to the sender, or left the receiver."""
        act = "recv" if self.act == "send" else "send"
        found, offsets = [], Offsets(self.side.offsets.first)
        for packet in self.answers:
            if packet.act == act and "A" in packet.flags and "R" not in packet.flags:
                offset = offsets.of(packet.acknowledgement)
                offsets.highest = max(offsets.highest, offset)
                found.append(Moment(packet.time, offset))
        return found

    def dropped(self) -> List[Moment]:
        """Segments of the stream that never came."""
        found, offsets = [], Offsets(self.side.offsets.first)
        for packet in self.drops:
            offset = offsets.of(packet.sequence)
            offsets.highest = max(offsets.highest, offset)
            found.append(Moment(packet.time, offset))
        return found
