#!/usr/bin/env python3
"""once.py INPUT OUTPUT COMMAND..: runs the command from the file INPUT to the file OUTPUT. Prints seconds elapsed,
seconds of processor time (in the program and in the kernel) and the maximum of resident bytes.

This is a process of its own with few imports, since the system counts the memory of the process that starts a command
as memory of the command.
"""

import os
import sys
import time

source, sink, *command = sys.argv[1:]
files = [(os.POSIX_SPAWN_OPEN, 0, source, os.O_RDONLY, 0), (os.POSIX_SPAWN_OPEN, 1, sink, os.O_WRONLY | os.O_CREAT | os.O_TRUNC, 0o600)]
start = time.perf_counter()
child = os.posix_spawnp(command[0], command, os.environ, file_actions=files)
_, status, usage = os.wait4(child, 0)
elapsed = time.perf_counter() - start
print(elapsed, usage.ru_utime + usage.ru_stime, usage.ru_maxrss * 1024)
sys.exit(status != 0)
