"""Runs a script whose threads can be inspected.

    python3 -m cebdyraq run [--serve ADDRESS] [--debug ADDRESS [--suspend]] (SCRIPT | -m MODULE) ARGUMENT..
"""

import argparse
import os
import runpy
import sys


def parsed(words):
    parser = argparse.ArgumentParser(prog="python3 -m cebdyraq", description="Runs a script whose threads can be inspected.")
    run = parser.add_subparsers(dest="command", required=True).add_parser("run", usage=__doc__.splitlines()[2].strip())
    run.add_argument("--serve", metavar="ADDRESS", help="where profilers and monitors connect, by HTTP: 127.0.0.1:6060, or unix:PATH")
    run.add_argument("--debug", metavar="ADDRESS", help="where a debugger attaches, by JDWP")
    run.add_argument("--suspend", action="store_true", help="wait until the first debugger has resumed all threads")
    run.add_argument("-m", dest="module", nargs=argparse.REMAINDER, help="run a module")
    run.add_argument("script", nargs=argparse.REMAINDER)
    options = parser.parse_args(words)
    if not (options.module or options.script):
        run.error("a script or a module is wanted")
    if options.suspend and not options.debug:
        run.error("--suspend wants --debug")
    return options


def at(address, port):
    return f"{address.rpartition(':')[0]}:{port}"


def tell(ports, serve, debug):
    """Says on standard error where the doors listen, as cqlua does."""
    if serve:
        print(f"cebdyraq: serves {f'http://{at(serve, ports.serve)}/' if ports.serve else serve}", file=sys.stderr, flush=True)
    if debug:
        print(f"cebdyraq: a debugger may attach at {at(debug, ports.debug) if ports.debug else debug}", file=sys.stderr, flush=True)


def main():
    options = parsed(sys.argv[1:])
    arguments = options.module or options.script
    try:
        from . import host
    except ImportError as why:
        sys.exit(f"cebdyraq: {why}")
    sys.argv[:] = arguments
    sys.path[0] = os.getcwd() if options.module else os.path.dirname(os.path.abspath(arguments[0]))
    try:
        host.start(options.serve, options.debug, options.suspend, os.path.basename(arguments[0]), sys.path[0],
                   lambda ports: tell(ports, options.serve, options.debug))
    except (OSError, RuntimeError) as why:
        sys.exit(f"cebdyraq: {why}")
    if options.module:
        runpy.run_module(arguments[0], run_name="__main__", alter_sys=True)
    else:
        runpy.run_path(arguments[0], run_name="__main__")


if __name__ == "__main__":
    main()
