"""Runs a command whose standard error is a terminal, and prints what the terminal gets.
usage: on_terminal.py [--slow] FILE COMMAND ..   (FILE takes standard output, which is the terminal too if FILE is `-`)
With --slow the terminal stops twice, for over a second."""
import os
import pty
import subprocess
import sys
import time

# After how many of its pieces a slow terminal stops.
STOPS = 20, 40


def main() -> int:
    is_slow = sys.argv[1] == "--slow"
    output, *command = sys.argv[1 + is_slow:]
    count = 0
    ours, theirs = pty.openpty()
    target = theirs if output == "-" else os.open(output, os.O_WRONLY | os.O_CREAT | os.O_TRUNC)
    with subprocess.Popen(command, stdout=target, stderr=theirs) as process:
        os.close(theirs)
        while True:
            try:
                piece = os.read(ours, 4096)
            except OSError:
                break
            if not piece:
                break
            sys.stdout.buffer.write(piece)
            count += 1
            if is_slow and count in STOPS:
                time.sleep(1.2)
    sys.stdout.buffer.flush()
    return process.returncode


if __name__ == "__main__":
    sys.exit(main())
