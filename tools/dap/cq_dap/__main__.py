"""Serves one client at standard input and output."""
import argparse
import os
import signal
import sys

from cq_dap.session import Session


def main() -> None:
    parser = argparse.ArgumentParser(prog="cq-dap", description="A debug adapter for runtimes that link cebdyraq. " + __doc__)
    parser.add_argument("--log", metavar="FILE", help="notes each message")
    args = parser.parse_args()
    signal.signal(signal.SIGTERM, lambda *_: sys.exit(0))  # an editor ends it so; a program that it started ends too
    log = open(args.log, "a", encoding="utf-8") if args.log else None
    source, sink = os.fdopen(os.dup(0), "rb"), os.fdopen(os.dup(1), "wb")
    os.dup2(2, 1)  # nothing else is written among the messages
    Session(source, sink, log).run()


if __name__ == "__main__":
    main()
