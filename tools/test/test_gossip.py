"""Tests of what examples/gossip makes and draws, over a few hosts."""
import importlib.machinery
import importlib.util
import os
import subprocess
import sys
import tempfile
import unittest

EXAMPLE = os.path.join(os.path.dirname(os.path.abspath(__file__)), "../../examples/gossip")
sys.path.insert(0, os.path.join(EXAMPLE, "../../tools"))
sys.dont_write_bytecode = True

from packets import Fault  # noqa: E402


def module(name):
    """A program of the example as a module."""
    loader = importlib.machinery.SourceFileLoader(name, os.path.join(EXAMPLE, name))
    found = importlib.util.module_from_spec(importlib.util.spec_from_loader(name, loader))
    loader.exec_module(found)
    return found


class Curve(unittest.TestCase):
    def setUp(self):
        folder = tempfile.TemporaryDirectory()
        self.addCleanup(folder.cleanup)
        self.run_folder = os.path.join(folder.name, "loss-0.25-seed-3")
        self.curve = module("curve")

    def host(self, name, text):
        folder = os.path.join(self.run_folder, "hosts", name)
        os.makedirs(folder)
        for ending, content in (("stdout", text), ("exit", "running\n")):
            with open(os.path.join(folder, f"gossip.1000.{ending}"), "w", encoding="ascii") as file:
                file.write(content)

    def test_a_run(self):
        self.host("h0", "heard at 1000000000 ns over 0 hops\n")
        self.host("h1", "")
        self.host("h2", "heard at 1500000001 ns over 1 hops\n")
        found = self.curve.gossip(self.run_folder)
        self.assertEqual(found, (0.25, 3, [0.0, 0.500000001], 1))
        self.assertEqual([self.curve.until(found, share) for share in (0, 1 / 3, 0.5)], [0.0, 0.0, 0.500000001])
        self.assertNotEqual(*[self.curve.until(found, 1)] * 2, "not a number")

    def test_what_is_wrong(self):
        with self.assertRaisesRegex(Fault, "hosts: not found"):
            self.curve.gossip(self.run_folder)
        with self.assertRaisesRegex(Fault, "doesn't end as"):
            self.curve.gossip(self.run_folder + "x")
        self.host("h0", "hello\n")
        with self.assertRaisesRegex(Fault, "h0 didn't write when it heard"):
            self.curve.gossip(self.run_folder)
        os.remove(os.path.join(self.run_folder, "hosts", "h0", "gossip.1000.exit"))
        with self.assertRaisesRegex(Fault, "isn't over"):
            self.curve.gossip(self.run_folder)


class Configure(unittest.TestCase):
    def test_light_in_glass(self):
        # New York and San Francisco are about 4,130 km apart
        self.assertAlmostEqual(module("configure").microseconds("New York", "San Francisco") / 1000, 1.3 * 4130 / 200, delta=0.2)

    def test_loss_from_end_to_end(self):
        lines = [line for line in module("configure").graph(0.36) if "packet_loss" in line]
        self.assertEqual(sum("packet_loss 0.200000000" in line for line in lines), 40)
        self.assertEqual(sum("packet_loss 0.360000000" in line for line in lines), 40)

    def test_words(self):
        def ran(*words):
            return subprocess.run([os.path.join(EXAMPLE, "configure"), *words], capture_output=True, text=True)
        self.assertEqual(ran("--hosts", "3").stdout.count("../../guests/gossip"), 3)
        self.assertEqual(ran("--loss", "1.5").returncode, 2)
        self.assertEqual(ran("--hosts", "1").returncode, 2)


if __name__ == "__main__":
    unittest.main()
