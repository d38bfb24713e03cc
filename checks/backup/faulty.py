#!/usr/bin/env python3
"""A hook over another that goes wrong at an order: faulty.py ORDER FAULT COMMAND ..

FAULT is veto, nonsense, die or hang, in place of the order; late:SECONDS, before it is given; or gone, once it was answered.
"""
import os
import subprocess
import sys
import time


def ends(hook):
    hook.kill()
    os._exit(1)


def meets(hook, order, fault):
    """Does what the fault is in place of the order; whether it was done in its place."""
    if fault == "veto":
        print("veto VSS_E_WRITERERROR_OUTOFRESOURCES", flush=True)
    elif fault == "nonsense":
        print("yes, gladly", flush=True)
    elif fault == "die":
        ends(hook)
    elif fault == "hang":
        while sys.stdin.buffer.readline():
            pass
        hook.stdin.close()
        hook.wait()
        sys.exit(0)
    else:
        if fault.startswith("late:"):
            time.sleep(float(fault[5:]))
        return False
    return True


def run(order, fault, command):
    hook = subprocess.Popen(command, stdin=subprocess.PIPE, stdout=subprocess.PIPE)
    for line in iter(sys.stdin.buffer.readline, b""):
        word = line.split()[0].decode()
        if word == order and meets(hook, order, fault):
            continue
        hook.stdin.write(line)
        hook.stdin.flush()
        if word != "abort":
            sys.stdout.buffer.write(hook.stdout.readline())
            sys.stdout.flush()
        if word == order and fault == "gone":
            ends(hook)
    hook.stdin.close()
    hook.wait()


run(sys.argv[1], sys.argv[2], sys.argv[3:])
