"""Tests of what examples/real/coap draws, over a small log."""
import importlib.machinery
import importlib.util
import os
import sys
import tempfile
import unittest

EXAMPLE = os.path.join(os.path.dirname(os.path.abspath(__file__)), "../../examples/real/coap")
sys.path.insert(0, os.path.join(EXAMPLE, "../../../tools"))
sys.dont_write_bytecode = True

from packets import Fault  # noqa: E402

ASKS = "{} {} {} udp {}:10000 11.0.0.9:5683 45"
ANSWERS = "{} {} {} udp 11.0.0.9:5683 {}:10000 52"


def module(name):
    """A program of the example as a module."""
    loader = importlib.machinery.SourceFileLoader(name, os.path.join(EXAMPLE, name))
    found = importlib.util.module_from_spec(importlib.util.spec_from_loader(name, loader))
    loader.exec_module(found)
    return found


class Requests(unittest.TestCase):
    def of(self, *lines):
        with tempfile.TemporaryDirectory() as folder:
            with open(os.path.join(folder, "packets.log"), "w", encoding="ascii") as file:
                file.writelines(line + "\n" for line in lines)
            return module("answers").Requests(folder)

    def test_sent_again(self):
        one, two = "11.0.0.1", "11.0.0.2"
        found = self.of(
            ASKS.format(1_000_000_000, "a", "send", one),
            ASKS.format(1_000_000_000, "a", "lost", one),
            ASKS.format(1_500_000_000, "b", "send", two),
            ASKS.format(1_550_000_000, "s", "recv", two),
            ANSWERS.format(1_550_000_001, "s", "send", two),
            ANSWERS.format(1_600_000_000, "b", "recv", two),
            # a second answer to one request
            ANSWERS.format(1_700_000_000, "b", "recv", two),
            ASKS.format(3_000_000_000, "a", "send", one),
            ANSWERS.format(3_500_000_000, "a", "recv", one),
            ASKS.format(4_000_000_000, "b", "send", two),
        )
        self.assertEqual(found.times, [0.1, 2.5])
        self.assertEqual(found.copies, {1: 1, 2: 1})
        self.assertTrue(found.told().endswith(": 3 requests; answered after 1, 2, .. sendings: 1, 1; never: 1"))

    def test_no_requests(self):
        with self.assertRaisesRegex(Fault, "no requests to port 5683"):
            self.of("5 a send udp 11.0.0.1:10000 11.0.0.2:7 36")


if __name__ == "__main__":
    unittest.main()
