"""How the benchmarks run a command: least time and greatest memory of several runs.

The time is by the clock, or that of the processor, which other programs disturb less.
"""
import os
import subprocess
import sys
import time

# Runs a command and prints its greatest memory in KiB. A process is counted the memory of the one that started it,
# which is small here.
APART = '''
import os, sys
sink = (os.POSIX_SPAWN_OPEN, 1, os.devnull, os.O_WRONLY, 0)
child = os.posix_spawnp(sys.argv[1], sys.argv[1:], os.environ, file_actions=[sink])
_, status, usage = os.wait4(child, 0)
print(usage.ru_maxrss)
sys.exit(1 if status else 0)
'''


def run(words, path=None):
    """The seconds by the clock and of the processor of one run of a command on a file, which has to end with status 0."""
    with open(path or os.devnull, 'rb') as source, open(os.devnull, 'wb') as sink:
        begun = time.perf_counter()
        child = subprocess.Popen(words, stdin=source, stdout=sink, stderr=subprocess.DEVNULL)
        _, status, usage = os.wait4(child.pid, 0)
        seconds = time.perf_counter() - begun
    child.returncode = os.waitstatus_to_exitcode(status)
    if child.returncode != 0:
        sys.exit(f'{words[0]} ended with status {child.returncode}')
    return seconds, usage.ru_utime + usage.ru_stime


def memory(words, path=None):
    """The greatest memory in MiB of one run of a command on a file."""
    with open(path or os.devnull, 'rb') as source:
        said = subprocess.run([sys.executable, '-S', '-E', '-c', APART] + list(words), stdin=source, stdout=subprocess.PIPE, check=True)
    return int(said.stdout) / 1024


def least(runs, words, path=None):
    """The least time by the clock of so many runs, and the greatest memory of one more."""
    return min(run(words, path)[0] for _ in range(runs)), memory(words, path)


def least_work(rounds, commands):
    """The least time of the processor of each command, which is its words and a file, over so many rounds of all."""
    found = {}
    for _ in range(rounds):
        for words, path in commands:
            found[words, path] = min(found.get((words, path), float('inf')), run(words, path)[1])
    return found
