"""Runs of programs that end soon: of each text the newest alone, each in a process group of its own."""
import contextlib
import os
import signal
import subprocess
import threading
from pathlib import Path

LAUNCHER = Path(__file__).resolve().parent.parent / "hbird"
# A run that takes more seconds is stopped, and where the program has an option for that, one that takes more steps.
SECONDS, STEPS = 1, "--steps=1000000"


class Runs:
    def __init__(self):
        self.program = os.environ.get("HBIRD") or str(LAUNCHER)
        self.options = [STEPS]
        self.running, self.lock, self.is_open = {}, threading.Lock(), True

    def run(self, name, source):
        """What the program writes on a text, and its status. In place of both, None and why there is no report."""
        out, status = self.run_with(self.options, name, source)
        if out == b"words refused\n" and self.options:
            # A program that has no such option ends by itself too.
            self.options = []
            out, status = self.run_with([], name, source)
        return out, status

    def run_with(self, options, name, source):
        with self.lock:
            if not self.is_open:
                return None, "the server ends"
            self.end(name)
            try:
                process = self.running[name] = subprocess.Popen(
                    [self.program, "run", *options], stdin=subprocess.PIPE, stdout=subprocess.PIPE,
                    stderr=subprocess.DEVNULL, start_new_session=True)
            except OSError as error:
                return None, "%s: %s" % (self.program, error.strerror)
        try:
            answer = process.communicate(source, timeout=SECONDS)[0], process.returncode
        except subprocess.TimeoutExpired:
            answer = None, "no report came within a second, and the run was stopped"
        with self.lock:
            if self.running.get(name) is process:
                self.end(name, is_over=answer[0] is not None)
        return answer

    def end(self, name, is_over=False):
        """Forgets the run of a text, and where it is not over ends it with all that it has started."""
        process = self.running.pop(name, None)
        if process and not is_over:
            with contextlib.suppress(OSError):
                os.killpg(process.pid, signal.SIGKILL)
            process.wait()

    def close(self):
        with self.lock:
            self.is_open = False
            for name in list(self.running):
                self.end(name)
