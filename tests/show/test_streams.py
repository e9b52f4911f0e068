"""What amqp_show writes while a stream is read: no line waits for a value that hasn't come."""

import os
import pty
import select
import subprocess
from pathlib import Path

# What is written at once, and the lines of the values that are complete by then. Each ends inside a string of two bytes.
PIECES = ((bytes.fromhex("56 7401 53000000 02"), b"null\ntrue\n"), (b"hi" + bytes.fromhex("53000000 02"), b'"hi"\n'))
# How long a line may take on a busy machine.
SECONDS = 60


def test_lines_before_more_comes(program: Path) -> None:
    """The lines are there while the input is open; nothing else follows at its end."""
    command = [str(program), "--stream", "--json"]
    pipe, nothing = subprocess.PIPE, subprocess.DEVNULL
    with subprocess.Popen(command, stdin=pipe, stdout=pipe, stderr=nothing) as process:
        assert process.stdin and process.stdout
        from_it = process.stdout.fileno()
        for piece, lines in PIECES:
            process.stdin.write(piece)
            process.stdin.flush()
            shown = b""
            while shown != lines and select.select([from_it], [], [], SECONDS)[0] and (more := os.read(from_it, 99)):
                shown += more
            assert shown == lines
        process.stdin.close()
        assert process.stdout.read() == b""


def test_a_terminal_is_waited_for(program: Path) -> None:
    """Standard error says so, as long as nothing is typed."""
    ours, theirs = pty.openpty()
    pipe = subprocess.PIPE
    with subprocess.Popen([str(program), "--hex"], stdin=theirs, stdout=pipe, stderr=pipe) as process:
        assert process.stdout and process.stderr
        assert process.stderr.readline() == b"amqp_show: reading standard input\n"
        os.write(ours, b"7401\n\4")
        assert process.stdout.read() == b"Boolean true\n= a value of 2 bytes\n"
    os.close(theirs)
    os.close(ours)
