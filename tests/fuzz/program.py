"""Runs a program in a new process for each input."""

import os
import signal
import tempfile

LONGEST_RUN = 10  # seconds


class Program:
    """Runs the program at a path in a new process each time, for at most `LONGEST_RUN` seconds."""

    def __init__(self, path):
        self.path = path
        self.files = [tempfile.TemporaryFile(buffering=0) for _ in range(3)]
        self.actions = [(os.POSIX_SPAWN_DUP2, file.fileno(), number) for number, file in enumerate(self.files)]
        signal.signal(signal.SIGALRM, lambda *_: os.kill(self.child, signal.SIGKILL))

    def answer(self, data):
        """Returns standard output, standard error and the status, which is -9 if the run took too long."""
        for file in self.files:
            file.seek(0)
            file.truncate()
        source, *sinks = self.files
        source.write(data)
        source.seek(0)
        self.child = os.posix_spawn(self.path, [self.path], os.environ, file_actions=self.actions)
        signal.alarm(LONGEST_RUN)
        _, status = os.waitpid(self.child, 0)
        signal.alarm(0)
        for sink in sinks:
            sink.seek(0)
        return *(sink.read() for sink in sinks), os.waitstatus_to_exitcode(status)
