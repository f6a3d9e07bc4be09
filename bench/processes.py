"""Runs a program with a limit of processor time, so that it isn't ended for what else the machine does."""

import dataclasses
import os
import signal
import subprocess
import tempfile
import threading

# A process with a limit of seconds of processor time, in all its threads together.
LIMITED = ["/bin/sh", "-c", 'ulimit -t "$0"; exec "$@"']
# One that waits for ever, and so takes no processor time, is killed after so many times the seconds by the clock.
MOST_TIMES = 60


@dataclasses.dataclass
class Ended:
    """How a process ended: its status, which is negative for a signal and None where it took too long, its output, its note, and the seconds of
    user time that it took."""

    status: int | None
    output: bytes
    note: bytes
    seconds: float


def run(words, seconds, given=b"", folder=None, environment=None):
    """Runs a command with this input, which may take so many seconds of processor time."""
    with tempfile.TemporaryFile() as lines, tempfile.TemporaryFile() as output, tempfile.TemporaryFile() as note:
        lines.write(given)
        lines.seek(0)
        child = subprocess.Popen([*LIMITED, str(seconds), *words], cwd=folder, env=environment, stdin=lines, stdout=output, stderr=note)
        killer = threading.Timer(MOST_TIMES * seconds, child.kill)
        killer.start()
        _, how, used = os.wait4(child.pid, 0)
        killer.cancel()
        child.returncode = status = os.waitstatus_to_exitcode(how)
        output.seek(0)
        note.seek(0)
        return Ended(None if status == -signal.SIGXCPU else status, output.read(), note.read(), used.ru_utime)
