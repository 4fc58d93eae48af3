"""Inspects the threads of this CPython 3.11 program: debuggers attach by JDWP, profilers and monitors by HTTP.

    import cebdyraq.host
    ports = cebdyraq.host.start(serve="127.0.0.1:6060", debug="127.0.0.1:5005")

`python3 -m cebdyraq run` does that for a script.
"""

import _thread
import atexit
import gc
import os
import sys
import threading
import types
from typing import Callable, NamedTuple, Optional

if sys.implementation.name != "cpython" or sys.version_info[:2] != (3, 11):
    raise ImportError("cebdyraq.host runs in CPython 3.11 alone")

from . import _host


class Ports(NamedTuple):
    """Where the doors listen: 0 for one that is not open, or at a Unix socket."""

    serve: int
    debug: int


def _define_loaded():
    """Defines what was loaded before: a class for each file, of the functions that are there."""
    files = {}
    for function in gc.get_objects():
        if type(function) is types.FunctionType:
            code = function.__code__
            if not code.co_filename.startswith("<string"):
                files.setdefault(code.co_filename, {})[code] = None
    for codes in files.values():
        _host.define(list(codes))


def start(serve: Optional[str] = None, debug: Optional[str] = None, suspend: bool = False, program: Optional[str] = None,
          path: Optional[str] = None, on_open: Optional[Callable[[Ports], None]] = None) -> Ports:
    """Opens a door for HTTP at `serve`, and one for debuggers at `debug`, as in "127.0.0.1:6060" or "unix:PATH".

    Call it once, on the main thread, before other threads start. With `suspend` it returns when the first debugger has resumed all
    threads. `on_open` is called before that, once the doors are open. `program` is what profiles and debuggers call the program, and
    `path` the folder where debuggers look for its sources.

    An OSError says that an address cannot be had, and a RuntimeError that the library refused, with the name of its code."""
    ports = Ports(*_host.start(program or sys.argv[0] or "python", path or os.path.abspath(sys.path[0] or "."), serve, debug, suspend))
    _thread.start_new_thread = _thread.start_new = threading._start_new_thread = _host.start_new_thread
    atexit.register(_host.end)
    if on_open:
        on_open(ports)
    if debug:
        _define_loaded()
        if suspend:
            _host.await_debugger()
    return ports
