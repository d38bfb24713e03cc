"""What the hooks of this folder have in common: they read orders, and answer each by one line.

A hook reads `ORDER NTH` and answers `ok` or `veto CODE`. It reads `abort`, lets go whatever it holds, and answers nothing. At the end of its
input it lets go too, so a killed backup holds nobody.
"""
import signal
import sys


class Refused(Exception):
    """An order could not be done: it is vetoed with this code, and what is held is let go."""

    def __init__(self, why, code="VSS_E_WRITERERROR_RETRYABLE"):
        super().__init__(why)
        self.code = code


def answer_to(hook, order):
    """Gives the hook an order, if it has a method of this name, and returns the answer."""
    try:
        getattr(hook, order, lambda: None)()
        return "ok"
    except Refused as refused:
        print(f"{hook.name}: {order}: {refused}", file=sys.stderr)
        hook.let_go()
        return f"veto {refused.code}"


def serve(hook):
    """Answers orders until the input ends. The hook has a name, a method `let_go`, and one for each order that it cares for."""
    for number in (signal.SIGINT, signal.SIGTERM):
        signal.signal(number, lambda *_: sys.exit(1))
    try:
        for line in sys.stdin or ():
            words = line.split() or [""]
            if words[0] == "abort":
                hook.let_go()
            else:
                print(answer_to(hook, words[0]), flush=True)
    finally:
        hook.let_go()
