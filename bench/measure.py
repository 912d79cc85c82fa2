"""One run of a program, measured: what bench/run, bench/replays and bench/texts share. It needs Python 3.8.

The seconds of the processor are those that all threads of the process used. The peak is that of what is resident, by GNU
time where it is installed; else as the system counts it of the process, which is never less than what the script has
itself."""
import os
import shutil
import subprocess
import tempfile
import time

ROOT = os.path.dirname(os.path.dirname(os.path.abspath(__file__)))
TIME = shutil.which("time")


class Measured:
    """One run of a program: its status, how many bytes it wrote, the seconds by the clock and those of the processor, and
    the peak in KiB."""

    def __init__(self, words, text):
        with tempfile.TemporaryFile() as given:
            given.write(text)
            given.seek(0)
            begun = time.perf_counter()
            child = subprocess.Popen(words, stdin=given, stdout=subprocess.PIPE, stderr=subprocess.DEVNULL)
            with child.stdout as answer:
                self.written = len(answer.read())
            _, status, used = os.wait4(child.pid, 0)
            self.clock = time.perf_counter() - begun
        # What a signal ended has no status of its own.
        child.returncode = self.status = os.WEXITSTATUS(status) if os.WIFEXITED(status) else -os.WTERMSIG(status)
        self.processor, self.peak = used.ru_utime + used.ru_stime, used.ru_maxrss


def peak(program, words, text):
    """Returns the peak of resident memory of one run, in KiB."""
    if not TIME:
        return Measured([program] + words, text).peak
    with tempfile.NamedTemporaryFile("r") as note:
        Measured([TIME, "-q", "-f", "%M", "-o", note.name, program] + words, text)
        # GNU time writes a line about the status first, where it isn't 0.
        return int(note.read().split()[-1])
