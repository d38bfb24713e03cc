#!/usr/bin/env python3
"""A hook that runs a shell command for an order: commands.py --freeze COMMAND --thaw COMMAND [--ORDER COMMAND ..]

    commands.py --freeze 'fsfreeze -f /srv/data' --thaw 'fsfreeze -u /srv/data'

A command that ends with 0 is ok, and another status a veto. What was frozen is thawed by the command of `thaw`: at that order, at `abort`,
and at the end of the input.
"""
import subprocess
import sys
from itertools import zip_longest

from hook import Refused, serve

ORDERS = ("identify", "prepare_backup", "prepare_snapshot", "freeze", "thaw", "post_snapshot", "backup_complete")


class Commands:
    def __init__(self, words):
        self.name, self.is_frozen = "hook", False
        self.commands = {word[2:]: command for word, command in zip(words[::2], words[1::2])}
        for order in ORDERS:
            if order not in ("freeze", "thaw") and order in self.commands:
                setattr(self, order, lambda order=order: self.run(order))

    def run(self, order):
        command = self.commands[order]
        status = subprocess.run(command, shell=True, stdin=subprocess.DEVNULL, stdout=sys.stderr, check=False).returncode
        if status != 0:
            raise Refused(f"status {status} of {command}", "VSS_E_WRITERERROR_NONRETRYABLE")

    def freeze(self):
        # (a command that fails may have frozen a part)
        self.is_frozen = True
        self.run("freeze")

    def thaw(self):
        # (what is not thawed is tried again: at a veto, at `abort` and at the end)
        self.run("thaw")
        was_frozen, self.is_frozen = self.is_frozen, False
        if not was_frozen:
            raise Refused("it was not frozen")

    def let_go(self):
        if self.is_frozen:
            try:
                self.thaw()
            except Refused as refused:
                print(f"{self.name}: thaw: {refused}", file=sys.stderr)


def wrong_in(words):
    """What is wrong with words, if something is."""
    for word, command in zip_longest(words[::2], words[1::2]):
        if word[:2] != "--" or word[2:] not in ORDERS:
            return f"`{word}` is no option; they are --{', --'.join(ORDERS)}"
        if words[::2].count(word) > 1:
            return f"{word} is given twice"
        if not command:
            return f"behind {word} a command is missing; one of several words stands in quotes"
    missing = [word for word in ("--freeze", "--thaw") if word not in words[::2]]
    return f"{missing[0]} is missing" if missing else None


if __name__ == "__main__":
    if sys.argv[1:] in (["help"], ["--help"], ["-h"]):
        sys.exit(print(__doc__))
    if WRONG := wrong_in(sys.argv[1:]):
        sys.exit(f"commands.py: {WRONG}\n{__doc__}")
    serve(Commands(sys.argv[1:]))
