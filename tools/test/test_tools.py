"""Tests of the programs that read packet logs, over small logs."""
import os
import subprocess
import sys
import tempfile
import unittest

TOOLS = os.path.join(os.path.dirname(os.path.abspath(__file__)), "..")
sys.path.insert(0, TOOLS)

from latency import Latencies  # noqa: E402
from packets import Fault, Packet, packet, packets  # noqa: E402
from stream import Offsets, Segment, Stream  # noqa: E402
from traffic import Traffic, chosen, megabits, sliced  # noqa: E402

DATAGRAM = "{time} {host} {act} udp 11.0.0.1:10000 11.0.0.2:7 {size}"
SEGMENT = "{time} {host} {act} tcp 11.0.0.1:80 11.0.0.2:10000 {size} {flags} {number} 5"
ANSWER = "{time} {host} {act} tcp 11.0.0.2:10000 11.0.0.1:80 40 A 5 {number}"
ENDS = ("11.0.0.1:80", "11.0.0.2:10000")


def datagrams(*rows):
    """Packets of rows of a time, a host and an act."""
    return [packet(DATAGRAM.format(time=time, host=host, act=act, size=36)) for time, host, act in rows]


def segment(time, host, act, number, length, flags="A"):
    return packet(SEGMENT.format(time=time, host=host, act=act, number=number, size=length + 40, flags=flags))


def answer(time, host, act, number):
    return packet(ANSWER.format(time=time, host=host, act=act, number=number))


class Logs(unittest.TestCase):
    """Data directories with a text as their log."""

    def setUp(self):
        folder = tempfile.TemporaryDirectory()
        self.addCleanup(folder.cleanup)
        self.folder = folder.name

    def log(self, text):
        with open(os.path.join(self.folder, "packets.log"), "wb") as file:
            file.write(text if isinstance(text, bytes) else text.encode())

    def fault(self):
        with self.assertRaises(Fault) as caught:
            list(packets(self.folder))
        return str(caught.exception).replace(self.folder, "DIR")

    def ran(self, name, *words):
        return subprocess.run([sys.executable, os.path.join(TOOLS, name), *words], cwd=self.folder, capture_output=True, text=True)


class Reading(Logs):
    def test_lines(self):
        self.log("1 a send udp 11.0.0.1:10000 11.0.0.2:7 36\n2 b recv tcp 11.0.0.1:80 11.0.0.2:9 40 SA 4294967295 7\n")
        self.assertEqual(list(packets(self.folder)), [
            Packet(1, "a", "send", "udp", "11.0.0.1:10000", "11.0.0.2:7", 36),
            Packet(2, "b", "recv", "tcp", "11.0.0.1:80", "11.0.0.2:9", 40, "SA", 4294967295, 7)])

    def test_a_line_that_is_being_written(self):
        self.log("1 a send udp 11.0.0.1:10000 11.0.0.2:7 36\n2 b rec")
        self.assertEqual(len(list(packets(self.folder))), 1)

    def test_no_log(self):
        self.assertEqual(self.fault(), "DIR/packets.log: not found")

    def test_lines_that_are_none(self):
        good = "1 a send udp 11.0.0.1:10000 11.0.0.2:7 36"
        for bad in ("", "x", good + " ", good.replace("send", "sent"), good.replace("36", "many"), good.replace("1 a", "one a"),
                    good.replace("udp", "tcp"), good.replace("udp", "sctp"), good + " A 1 2", "\0\xff"):
            with self.subTest(bad):
                self.log(f"{good}\n{bad}\n")
                self.assertEqual(self.fault(), "DIR/packets.log:2: not a line of a packet log")

    def test_a_file_of_bytes(self):
        self.log(bytes(range(256)) * 10)
        self.assertEqual(self.fault(), "DIR/packets.log:1: not a line of a packet log")

    def test_times_that_go_back(self):
        self.log("2 a send udp 11.0.0.1:1 11.0.0.2:7 36\n1 a send udp 11.0.0.1:1 11.0.0.2:7 36\n")
        self.assertEqual(self.fault(), "DIR/packets.log:2: earlier than the line before it")


class Traffics(unittest.TestCase):
    def setUp(self):
        self.traffic = Traffic(datagrams((0, "a", "send"), (999_999, "a", "send"), (999_999, "a", "lost"), (1_000_000, "b", "recv"),
                                         (4_500_000, "c", "send")))

    def test_sums(self):
        self.assertEqual(sliced(self.traffic.sent["a"], 1, self.traffic.end), [72, 0, 0, 0, 0])
        self.assertEqual(sliced(self.traffic.received["b"], 2, self.traffic.end), [36, 0, 0])
        self.assertEqual(self.traffic.dropped, {"lost": {0: 1}})

    def test_rates(self):
        self.assertEqual(megabits([1250], 10), [1.0])

    def test_intervals(self):
        for end, interval in ((99, 1), (100, 2), (200, 5), (499, 5), (500, 10), (59_999, 1000)):
            self.traffic.end = end
            self.assertEqual(self.traffic.interval(), interval, end)

    def test_hosts(self):
        self.assertEqual(self.traffic.hosts(), ["a", "b", "c"])
        self.assertEqual(chosen(self.traffic, [], 2), (["a", "b"], ["c"]))
        self.assertEqual(chosen(self.traffic, ["c"], 2), (["c"], []))
        with self.assertRaisesRegex(Fault, "no packet was sent or received by d"):
            chosen(self.traffic, ["d"], 2)

    def test_no_packets(self):
        with self.assertRaisesRegex(Fault, "no packets"):
            Traffic([])


class Times(unittest.TestCase):
    def times(self, *rows, receiver=None):
        return Latencies(datagrams(*rows), receiver).times

    def test_in_their_order(self):
        self.assertEqual(self.times((0, "a", "send"), (5, "a", "send"), (10, "b", "recv"), (17, "b", "recv")), [10, 12])

    def test_what_the_route_loses(self):
        self.assertEqual(self.times((0, "a", "send"), (5, "a", "send"), (5, "a", "lost"), (10, "b", "recv")), [10])

    def test_what_the_queue_rule_or_a_socket_drops(self):
        for act in ("codel", "noport", "sockfull"):
            self.assertEqual(self.times((0, "a", "send"), (5, "a", "send"), (20, "b", act), (20, "b", "recv")), [15], act)

    def test_what_finds_a_router_full(self):
        found = self.times((0, "a", "send"), (10, "b", "recv"), (20, "a", "send"), (25, "a", "send"), (35, "b", "fulldown"), (60, "b", "recv"))
        self.assertEqual(found, [10, 40])

    def test_what_never_left(self):
        self.assertEqual(self.times((0, "a", "fullup"), (3, "a", "send"), (4, "b", "recv")), [1])

    def test_one_receiver(self):
        self.assertEqual(self.times((0, "a", "send"), (10, "b", "recv"), receiver="c"), [])

    def test_addresses_inside_a_host(self):
        line = "{} {} {} udp 127.0.0.1:1 127.0.0.1:2 28"
        rows = ((0, "a", "send"), (4, "b", "send"), (5, "b", "recv"), (9, "a", "recv"))
        self.assertEqual(Latencies(packet(line.format(*row)) for row in rows).times, [1, 9])

    def test_shares(self):
        found = Latencies([])
        found.times = list(range(100))
        self.assertEqual([found.within(it) for it in (0, 0.5, 0.99, 1)], [0, 50, 99, 99])


class Streams(unittest.TestCase):
    LINES = [segment(0, "a", "send", 4294967295, 0, "S"), segment(1, "b", "recv", 4294967295, 0, "S"), segment(2, "a", "send", 0, 0),
             segment(3, "a", "send", 0, 1000), segment(3, "a", "lost", 0, 1000), segment(4, "a", "send", 1000, 500),
             segment(5, "b", "recv", 1000, 500), answer(5, "b", "send", 0), answer(6, "a", "recv", 0), segment(7, "a", "send", 0, 1000),
             segment(8, "b", "recv", 0, 1000), answer(8, "b", "send", 1000), answer(9, "a", "recv", 1000)]

    def test_at_the_sender(self):
        stream = Stream(self.LINES, "a", *ENDS)
        self.assertEqual(stream.side.segments, [Segment(0, 0, 1, False), Segment(3, 1, 1001, False), Segment(4, 1001, 1501, False),
                                                Segment(7, 1, 1001, True)])
        self.assertEqual(stream.acknowledged(), [(6, 1), (9, 1001)])
        self.assertEqual(stream.dropped(), [(3, 1)])

    def test_at_the_receiver(self):
        stream = Stream(self.LINES, "b", *ENDS)
        self.assertEqual(stream.act, "recv")
        self.assertEqual(stream.side.segments, [Segment(1, 0, 1, False), Segment(5, 1001, 1501, False), Segment(8, 1, 1001, True)])
        self.assertEqual(stream.acknowledged(), [(5, 1), (8, 1001)])

    def test_another_connection_of_the_same_ends(self):
        lines = self.LINES + [segment(20, "a", "send", 77, 0, "S"), segment(21, "a", "send", 78, 10)]
        self.assertEqual(len(Stream(lines, "a", *ENDS).side.segments), 4)

    def test_no_such_stream(self):
        with self.assertRaisesRegex(Fault, "c neither sent nor received segments from 11.0.0.1:80 to 11.0.0.2:10000"):
            Stream(self.LINES, "c", *ENDS)

    def test_offsets_past_the_last_number(self):
        offsets = Offsets(4294967000)
        self.assertEqual(offsets.of(4), 300)
        offsets.highest = 5_000_000_000
        self.assertEqual(offsets.of((4294967000 + 5_000_000_100) % (1 << 32)), 5_000_000_100)


class Programs(Logs):
    TEXT = "0 a send tcp 11.0.0.1:80 11.0.0.2:9 140 A 1 5\n0 a send udp 11.0.0.1:1 11.0.0.2:7 36\n0 a lost udp 11.0.0.1:1 11.0.0.2:7 36\n" \
           "9000000 b recv tcp 11.0.0.1:80 11.0.0.2:9 140 A 1 5\n"
    CALLS = (("plot-packets", "."), ("plot-latency", "."), ("plot-flow", ".", "a", "11.0.0.1:80", "11.0.0.2:9"))

    def test_help(self):
        for name, *_ in self.CALLS:
            ran = self.ran(name, "--help")
            self.assertEqual((ran.returncode, ran.stdout[:len(f"usage: {name}")]), (0, f"usage: {name}"))

    def picture(self, name, words, output):
        ran = self.ran(name, *words, "-o", output)
        self.assertEqual((ran.returncode, ran.stderr), (0, ""))
        with open(os.path.join(self.folder, output), "rb") as file:
            return file.read()

    def test_pictures(self):
        self.log(self.TEXT)
        made = [self.picture(name, words, f"{name}.svg") for name, *words in self.CALLS]
        for (name, *_), picture in zip(self.CALLS, made):
            self.assertTrue(picture.startswith(b"<?xml"), name)
        name, *words = self.CALLS[-1]
        self.assertTrue(self.picture(name, words, "x.png").startswith(b"\x89PNG"))
        self.assertEqual(self.picture(name, words, "again.svg"), made[-1])

    def test_a_line_of_the_distribution(self):
        self.log(self.TEXT)
        self.assertEqual(self.ran("plot-latency", ".").stdout,
                         ".: 1 packets, half within 9.000 ms, 90 % 9.000 ms, 99 % 9.000 ms, all 9.000 ms\n")

    def test_what_is_wrong(self):
        self.log("hello\n")
        for name, *words in self.CALLS:
            ran = self.ran(name, *words)
            self.assertEqual((ran.returncode, ran.stderr), (2, f"{name}: ./packets.log:1: not a line of a packet log\n"))
            ran = self.ran(name, *words, "-o", "x.jpg")
            self.assertEqual((ran.returncode, ran.stderr), (2, f"{name}: x.jpg: a picture's name ends with .svg or .png\n"))
        self.log("")
        told = ("the packet log has no packets", ".: no packet was received",
                "a neither sent nor received segments from 11.0.0.1:80 to 11.0.0.2:9")
        for (name, *words), line in zip(self.CALLS, told):
            self.assertEqual(self.ran(name, *words).stderr, f"{name}: {line}\n")


if __name__ == "__main__":
    unittest.main()
