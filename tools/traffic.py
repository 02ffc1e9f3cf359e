"""What each host sent and received, and what was dropped, over time."""
from collections import Counter, defaultdict
from typing import Dict, Iterable, List, Tuple

from packets import Fault, Packet

MILLISECOND = 1_000_000
SLICES = 100


class Traffic:
    """Bytes by host and packets by the act that dropped them, each by the millisecond in which it happened."""

    def __init__(self, packets: Iterable[Packet]):
        self.sent: Dict[str, Counter] = defaultdict(Counter)
        self.received: Dict[str, Counter] = defaultdict(Counter)
        self.dropped: Dict[str, Counter] = defaultdict(Counter)
        self.end = -1
        for it in packets:
            moment = it.time // MILLISECOND
            if it.act == "send":
                self.sent[it.host][moment] += it.size
            elif it.act == "recv":
                self.received[it.host][moment] += it.size
            else:
                self.dropped[it.act][moment] += 1
            self.end = moment
        if self.end < 0:
            raise Fault("the packet log has no packets")

    def interval(self) -> int:
        """How many milliseconds a slice has, so that at most SLICES of them hold the run: 1, 2 or 5, by a power of ten."""
        scale = 1
        while True:
            for step in (1, 2, 5):
                if self.end < step * scale * SLICES:
                    return step * scale
            scale *= 10

    def hosts(self) -> List[str]:
        """The hosts, from the one with the most bytes on."""
        weight = {host: sum(self.sent[host].values()) + sum(self.received[host].values())
                  for host in {*self.sent, *self.received}}
        return sorted(weight, key=lambda host: (-weight[host], host))


def sliced(counts: Counter, interval: int, end: int) -> List[int]:
    """The counts of milliseconds up to `end`, summed by slices of so many."""
    sums = [0] * (end // interval + 1)
    for moment, count in counts.items():
        sums[moment // interval] += count
    return sums


def megabits(sums: List[int], interval: int) -> List[float]:
    """Bytes of slices as a rate."""
    return [8 * count / (1000 * interval) for count in sums]


def merged(counts: Iterable[Counter]) -> Counter:
    """The sum of several counts."""
    total: Counter = Counter()
    for it in counts:
        total.update(it)
    return total


def chosen(traffic: Traffic, wanted: List[str], limit: int) -> Tuple[List[str], List[str]]:
    """The hosts that get a line of their own, and those that share one."""
    known = traffic.hosts()
    for host in wanted:
        if host not in known:
            raise Fault(f"no packet was sent or received by {host}")
    if wanted:
        return wanted, []
    return sorted(known[:limit]), known[limit:]
