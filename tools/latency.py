"""How long packets were on their way."""
from bisect import bisect_right
from typing import Dict, Iterable, List, Optional, Tuple

from packets import Packet


def alike(packet: Packet) -> Tuple:
    """What a packet has in common with a later line about it. Addresses of 127/8 are those of its host alone."""
    inside = packet.host if packet.source.startswith("127.") else ""
    return (inside, packet.source, packet.destination, packet.size, packet.flags, packet.sequence, packet.acknowledgement)


class Latencies:
    """The time from `send` to `recv` of each packet that came, for all hosts or for one that receives.

    The log doesn't number packets. Those that look alike take one route and keep their order, so one that comes is the
    first that is still on its way; what the route loses is lost as it is sent; and what finds a router full was sent as
    long before as the fastest one took, for it didn't wait there.
    """

    def __init__(self, packets: Iterable[Packet], receiver: Optional[str] = None):
        self.times: List[int] = []
        self.receiver = receiver
        self.on_the_way: Dict[Tuple, List[int]] = {}
        self.fastest: Dict[Tuple[str, str], int] = {}
        for packet in packets:
            self.add(packet)
        self.times.sort()

    def add(self, packet: Packet) -> None:
        if packet.act == "fullup":
            return
        key = alike(packet)
        if packet.act == "send":
            self.on_the_way.setdefault(key, []).append(packet.time)
        elif key in self.on_the_way:
            waiting = self.on_the_way[key]
            self.ended(packet, waiting)
            if not waiting:
                del self.on_the_way[key]

    def ended(self, packet: Packet, waiting: List[int]) -> None:
        """Takes the packet of this line from those that look like it."""
        if packet.act == "lost":
            waiting.pop()
        elif packet.act == "fulldown":
            waiting.pop(self.place_before(packet, waiting))
        elif packet.act == "codel":
            waiting.pop(0)
        else:
            self.came(packet, waiting.pop(0))

    def came(self, packet: Packet, sent: int) -> None:
        took = packet.time - sent
        pair = address_pair(packet)
        self.fastest[pair] = min(took, self.fastest.get(pair, took))
        if packet.act == "recv" and self.receiver in (None, packet.host):
            self.times.append(took)

    def place_before(self, packet: Packet, waiting: List[int]) -> int:
        """Which of those on the way has just come to the router."""
        sent = packet.time - self.fastest.get(address_pair(packet), 0)
        return max(bisect_right(waiting, sent) - 1, 0)

    def within(self, share: float) -> int:
        """The time within which so great a share of them came."""
        return self.times[min(int(share * len(self.times)), len(self.times) - 1)]


def address_pair(packet: Packet) -> Tuple[str, str]:
    """The two addresses without their ports."""
    return packet.source.rpartition(":")[0], packet.destination.rpartition(":")[0]
