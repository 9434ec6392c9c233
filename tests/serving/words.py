"""Command lines that need no directory."""
import os
import re
import unittest

from harness.files import OLD_FILES, read_file
from harness.places import read
from harness.servers import init, temporary_directory
from serving.runs import PROGRAM, run


class Words(unittest.TestCase):
    """Command lines that need no directory."""

    def test_words_that_are_not_text(self):
        """Of any line: the status is that of other wrong words, and a text says what is wrong."""
        wrong = b"\xff"
        for words in ((wrong,), (b"mem", wrong), (b"init", b"d" + wrong), (b"call", b"--port", b"7411", b"get", wrong)):
            self.assertEqual((2, "", "the words have to be UTF-8\n"), run(*words), words)

    def test_the_version(self):
        """It is that of the newest changes. New files have the version that is written, and README names the toolchain."""
        program, files, toolchain = self.version()
        (newest, *_) = re.findall(r"^## (\d+\.\d+\.\d+) \(\d{4}-\d\d-\d\d\)$", read("CHANGELOG.md"), re.MULTILINE)
        self.assertEqual("dchm " + newest, program)
        with temporary_directory() as room:
            directory = os.path.join(room, "map")
            init(PROGRAM, directory)
            written = read_file(directory, "log-a")[0]
        old = OLD_FILES["log-a"][0]
        self.assertEqual(f"files: reads versions {old} and {written}, writes version {written}", files)
        self.assertIn(f"(`dchm --version`: {toolchain.removeprefix('toolchain: ')})", read("README.md"))

    def version(self):
        status, printed, said = run("--version")
        self.assertEqual((0, ""), (status, said))
        self.assertEqual((0, printed, ""), run("-V"))
        return printed.splitlines()

    def test_an_empty_input_of_the_map_in_memory(self):
        """Nothing is said of it, and no record is written."""
        self.assertEqual((0, "", ""), run("mem"))

    def test_words_of_a_server_that_are_not_allowed(self):
        """Each is told before the directory is looked at, which isn't there."""
        least = ("serve", "nowhere", "--port")
        texts = {"P": "P is a number from 1 to 65535\n", "S": "S is a power of two from 1 to 256\n",
                 "W": "W is a number from 1 to 64\n", "C": "C is a number from 1 to 4294967295\n",
                 "B": "B is a number from 0 to 18446744073709551615\n"}
        for letter, before, words in (
            ("P", (), ("0", "65536", "x", "")),
            ("S", ("7411", "--stripes"), ("0", "3", "512", "65536", "x", "")),
            ("W", ("7411", "--workers"), ("0", "65", "x", "")),
            ("C", ("7411", "--connections"), ("0", "4294967296", "x", "")),
            ("B", ("7411", "--checkpoint-bytes"), ("18446744073709551616", "x", "", "1.5")),
        ):
            for word in words:
                self.assertEqual((2, "", texts[letter]), run(*least, *before, word), (letter, word))
