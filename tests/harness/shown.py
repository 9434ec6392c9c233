"""Plays the commands that a document shows."""
import os
import re
import shlex
import subprocess

from harness.places import read
from harness.servers import first_line, free_port, process, temporary_directory

# How many seconds a command may run.
SECONDS = 60
FENCE = re.compile(r"^```.*?^```", re.MULTILINE | re.DOTALL)
SERVER = re.compile(r"dchm serve .*&$")
PORT = re.compile(r"--port (\d+)")


def commands_in(block):
    """The commands of a block, each with the output that is shown. One with `<<END` goes on to the line `END`."""
    shown, end = [], None
    for line in block.splitlines():
        if end:
            shown[-1][0].append(line)
            end = None if line == end else end
        elif line.startswith("$ "):
            shown.append(([line[2:]], []))
            found = re.search(r"<<'?(\w+)'?", line)
            end = found[1] if found else None
        else:
            shown[-1][1].append(line)
    return [("\n".join(words), "".join(line + "\n" for line in lines)) for words, lines in shown]


def blocks_of(path):
    for fence in FENCE.findall(read(path)):
        body = fence.split("\n", 1)[1].rsplit("```", 1)[0]
        if body.startswith("$ "):
            yield body


class Player:
    """Plays the commands of one document in a directory of its own."""

    def __init__(self, program, path, stack):
        self.stack = stack
        self.program = program
        self.room = stack.enter_context(temporary_directory())
        bin_directory = os.path.join(self.room, ".bin")
        os.mkdir(bin_directory)
        os.symlink(program, os.path.join(bin_directory, "dchm"))
        self.environment = {**os.environ, "PATH": bin_directory + os.pathsep + os.environ["PATH"]}
        self.ports = {shown: str(free_port()) for shown in set(PORT.findall(read(path)))}
        self.server = None

    def with_ports(self, text):
        """The text with free ports in place of those that the document shows."""
        for shown, port in self.ports.items():
            text = re.sub(rf"\b{shown}\b", port, text)
        return text

    def play(self, command, wanted):
        """What is wrong with what the command gives; nothing if it gives what is shown."""
        command, wanted = self.with_ports(command), self.with_ports(wanted)
        if command == "kill -9 %1":
            got = self.kill()
        elif SERVER.fullmatch(command):
            got = self.serve(command)
        else:
            got = self.run(command)
        return None if got == wanted else f"$ {command.splitlines()[0]}: wanted {wanted!r}, got {got!r}"

    def kill(self):
        if self.server is None:
            return "no server\n"
        self.server.kill()
        self.server.wait()
        self.server = None
        return ""

    def serve(self, command):
        words = shlex.split(command.rstrip("&"))
        errors = os.path.join(self.room, ".errors")
        if words[-1].startswith("2>"):
            errors = os.path.join(self.room, words.pop()[2:])
        self.server = self.stack.enter_context(process([self.program, *words[1:]], errors, directory=self.room))
        return first_line(self.server).decode(errors="replace")

    def run(self, command):
        ended = subprocess.run(["bash", "-c", command], cwd=self.room, env=self.environment, stdin=subprocess.DEVNULL,
                               stdout=subprocess.PIPE, stderr=subprocess.STDOUT, timeout=SECONDS)
        return ended.stdout.decode(errors="replace")
