#!/usr/bin/env python3
"""Talks with a program through pipes: the reply to a statement has to come before the next one is sent.

    .ci/talk.py [PROGRAM]    the program that this checkout built, or the one that is named

A statement is sent only when the whole reply to the one before has come. Then a statement comes in two halves, with no
reply between them, and two statements come at once. The end of the script ends the program, with status 1 for the
refusal among them. A program that has not answered after 20 seconds is given up.
"""
import os
import select
import subprocess
import sys
import time

PROGRAM = os.path.join(os.path.dirname(os.path.abspath(__file__)), "..", "crates", "lore", "out", "lore")
SECONDS = 20
TALK = (
    (b'load Guide := { restaurant { name "Chef Chu", price 12 } };', b"ok objects 4 edges 3 nodes 4\n"),
    (b"\nselect Guide.restaurant", b""),
    (b".name;", b'&3 "Chef Chu"\nrows 1\n'),
    (b"menu;", b"refused 5 Syntax\n"),
    (b"select Guide; select Nobody; -- not the end;", b"&1 {}\nrows 1\nrefused 7 UnknownName\n"),
)


def heard(pipe, count, until):
    """At most `count` bytes, as many as come before the time is up."""
    got = b""
    while len(got) < count:
        ready, _, _ = select.select([pipe], [], [], max(0, until - time.monotonic()))
        piece = os.read(pipe.fileno(), count - len(got)) if ready else b""
        if not piece:
            break
        got += piece
    return got


def talk(process):
    """What is wrong with the talk, or None."""
    until = time.monotonic() + SECONDS
    for said, reply in TALK:
        process.stdin.write(said)
        process.stdin.flush()
        got = heard(process.stdout, len(reply), until) if reply else heard(process.stdout, 1, time.monotonic() + 0.2)
        if got != reply:
            return f"to {said!r} it replied {got!r} and not {reply!r}"
    process.stdin.close()
    rest = heard(process.stdout, 1, until)
    if rest:
        return f"behind the end it wrote {rest!r}"
    status = process.wait(max(0.1, until - time.monotonic()))
    return None if status == 1 else f"it ended with status {status} and not 1"


def main():
    process = subprocess.Popen(sys.argv[1:2] or [PROGRAM], stdin=subprocess.PIPE, stdout=subprocess.PIPE, bufsize=0)
    try:
        fault = talk(process)
    except (OSError, subprocess.TimeoutExpired) as error:
        fault = str(error)
    finally:
        process.kill()
        process.wait()
    print(f"talk: {fault}" if fault else "talk: each reply came before the next statement")
    return 1 if fault else 0


sys.exit(main())
