"""Runs a program, which `measured.py PROGRAM SCRIPT REPLIES SECONDS BYTES` names, from one file to another, and prints how it
ended: its status, its seconds, those of a processor, and the peak of its memory in KiB.

It is a process of its own, since a system counts to the peak of a program what the process had that began it. Nothing is
imported that isn't needed."""
import os
import resource
import sys
import time


def limit(seconds, count):
    resource.setrlimit(resource.RLIMIT_CPU, (seconds, seconds))
    resource.setrlimit(resource.RLIMIT_AS, (count, count))
    resource.setrlimit(resource.RLIMIT_CORE, (0, 0))


def main():
    program, script, replies, seconds, count = sys.argv[1:]
    begun = time.monotonic()
    child = os.fork()
    if child == 0:
        os.dup2(os.open(script, os.O_RDONLY), 0)
        os.dup2(os.open(replies, os.O_WRONLY | os.O_CREAT | os.O_TRUNC), 1)
        limit(int(seconds), int(count))
        try:
            os.execv(program, [program])
        except OSError:
            os._exit(127)
    _, status, used = os.wait4(child, 0)
    status = os.waitstatus_to_exitcode(status)
    print(status, time.monotonic() - begun, used.ru_utime + used.ru_stime, used.ru_maxrss)


main()
