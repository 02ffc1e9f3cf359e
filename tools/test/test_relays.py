"""Tests of what examples/relays makes and draws, over a few hosts."""
import importlib.machinery
import importlib.util
import os
import subprocess
import sys
import tempfile
import unittest

EXAMPLE = os.path.join(os.path.dirname(os.path.abspath(__file__)), "../../examples/relays")
sys.path.insert(0, os.path.join(EXAMPLE, "../../tools"))
sys.dont_write_bytecode = True

from packets import Fault  # noqa: E402


def module(name):
    """A program of the example as a module."""
    loader = importlib.machinery.SourceFileLoader(name, os.path.join(EXAMPLE, name))
    found = importlib.util.module_from_spec(importlib.util.spec_from_loader(name, loader))
    loader.exec_module(found)
    return found


class Times(unittest.TestCase):
    def setUp(self):
        folder = tempfile.TemporaryDirectory()
        self.addCleanup(folder.cleanup)
        self.run_folder = os.path.join(folder.name, "3-hops")
        self.times = module("times")

    def host(self, name, program, text):
        folder = os.path.join(self.run_folder, "hosts", name)
        os.makedirs(folder)
        with open(os.path.join(folder, f"{program}.1000.stdout"), "w", encoding="ascii") as file:
            file.write(text)

    def test_a_run(self):
        self.host("client00", "download", "begun at 0 ns: first byte after 2500000000 ns, last after 3000000000 ns\n"
                                          "begun at 1 ns: first byte after 500000000 ns, last after 4000000001 ns\n")
        self.host("client01", "download", "begun at 7 ns: first byte after 1000000000 ns, last after 1000000000 ns\n")
        self.host("guard0", "relay", "")
        self.assertEqual(found := self.times.downloads(self.run_folder + "/"), ("3-hops", [0.5, 1.0, 2.5], [1.0, 3.0, 4.000000001]))
        self.assertEqual((self.times.median(found.first), self.times.median([1.0, 2.0, 3.0, 4.0])), (1.0, 2.0))

    def test_what_is_wrong(self):
        with self.assertRaisesRegex(Fault, "hosts: not found"):
            self.times.downloads(self.run_folder)
        self.host("guard0", "relay", "")
        with self.assertRaisesRegex(Fault, "no downloads"):
            self.times.downloads(self.run_folder)
        self.host("client00", "download", "begun at 0 ns\n")
        with self.assertRaisesRegex(Fault, "stdout:1: not a line of a download"):
            self.times.downloads(self.run_folder)

    def test_a_picture(self):
        self.host("client00", "download", "begun at 0 ns: first byte after 250000000 ns, last after 3000000000 ns\n")
        picture = os.path.join(os.path.dirname(self.run_folder), "it.svg")
        told = subprocess.run([sys.executable, os.path.join(EXAMPLE, "times"), self.run_folder, "-o", picture], capture_output=True, text=True)
        self.assertEqual((told.returncode, told.stderr, told.stdout),
                         (0, "", "3-hops: 1 downloads, half of them had the first byte after 0.25 s and the last after 3.00 s\n"))
        self.assertTrue(os.path.getsize(picture))


class Configure(unittest.TestCase):
    def lines(self, *words):
        """The lines of the programs of a configuration."""
        told = subprocess.run([sys.executable, os.path.join(EXAMPLE, "configure"), *words], capture_output=True, text=True, check=True)
        return [it.strip() for it in told.stdout.splitlines() if "path:" in it]

    def test_rows_of_relays(self):
        found = self.lines("--clients", "5", "--hops", "2")
        self.assertEqual([sum(f"guests/{it}," in line for line in found) for it in ("depot", "relay", "download")], [1, 8, 5])
        guards, middles, clients = found[1:5], found[5:9], found[9:]
        self.assertTrue(all("args: 9001 10.0.2.1:9001 10.0.2.2:9001 10.0.2.3:9001 10.0.2.4:9001," in it for it in guards))
        self.assertTrue(all("args: 9001 10.0.0.1:80," in it for it in middles))
        self.assertEqual([it.split("args: ")[1].split()[0] for it in clients],
                         [f"10.0.1.{number}:9001" for number in (1, 2, 3, 4, 1)])

    def test_none(self):
        self.assertEqual([it.split("args: ")[1].split()[0] for it in self.lines("--clients", "2", "--hops", "0")], ["80,", *["10.0.0.1:80"] * 2])

    def test_numbers_out_of_range(self):
        for words in (["--clients", "0"], ["--clients", "101"], ["--hops", "4"], ["--bytes", "0"]):
            with self.assertRaises(subprocess.CalledProcessError):
                self.lines(*words)


if __name__ == "__main__":
    unittest.main()
