"""A service that is served over HTTP, for pprof and Prometheus, or that debuggers attach to."""

import ctypes
import os
from types import TracebackType
from typing import Optional, Type

from . import _api as api
from ._api import Code
from ._values import Error
from ._variables import Variables, functions


class Server:
    """Serves profiles, stacks and counters of a service (cebdyraq_serve.h), until `end`. With a `path` it listens for debuggers
    instead, which look for source files there. `service` and `signal` are the addresses of the runtime's cq_service and cq_signal;
    the cq_service is used by nobody else while the server is made.

    With `variables` a debugger is told of the runtime's variables, too. With `pops_frames` it may pop frames: the runtime's threads go on
    without those that were popped. With `starts_suspended` the first debugger finds all threads suspended (`await_resumption`).

    `address` is 127.0.0.1:PORT, [::1]:PORT, localhost:PORT, where port 0 is any free one, or unix:PATH. `program` is what a profile
    or a debugger calls the program. What the operating system refuses is raised as an OSError."""

    def __init__(self, library: ctypes.CDLL, service: int, signal: int, address: str, program: str, path: Optional[str] = None,
                 variables: Optional[Variables] = None, pops_frames: bool = False, starts_suspended: bool = False) -> None:
        self._library, self._memory = library, api.Server()
        if variables is not None:
            self._functions = functions(library, variables)
            library.cq_server_variables(ctypes.byref(self._memory), ctypes.byref(self._functions))
        library.cq_server_pops_frames(ctypes.byref(self._memory), pops_frames)
        library.cq_server_starts_suspended(ctypes.byref(self._memory), starts_suspended)
        begin, texts = (library.cq_serve, [address, program]) if path is None else (library.cq_debug_listen, [address, program, path])
        code = begin(ctypes.byref(self._memory), service, signal, *(text.encode() for text in texts))
        if code == Code.SYSTEM:
            raise OSError(ctypes.get_errno(), os.strerror(ctypes.get_errno()), address)
        if code != Code.OK:
            raise Error(code)

    def __enter__(self) -> "Server":
        return self

    def __exit__(self, kind: Optional[Type[BaseException]], error: Optional[BaseException], trace: Optional[TracebackType]) -> None:
        self.end()

    @property
    def port(self) -> int:
        """The port at which it listens, or 0 at a Unix socket."""
        found = ctypes.c_uint16()
        code = self._library.cq_server_port(ctypes.byref(self._memory), ctypes.byref(found))
        if code != Code.OK:
            raise Error(code)
        return found.value

    def await_resumption(self) -> None:
        """Sleeps until a debugger has resumed a thread. Threads that wait for their first debugger call it while they block, before
        their first step."""
        code = self._library.cq_server_await_resumption(ctypes.byref(self._memory))
        if code != Code.OK:
            raise Error(code)

    def tell_classes(self) -> None:
        """Tells the debugger of the classes that were defined before. A thread that has defined one calls it while it blocks, before
        it runs a method of the class. It comes back once the debugger, which may set breakpoints there, has resumed it. Without a
        debugger it returns at once."""
        code = self._library.cq_server_tell_classes(ctypes.byref(self._memory))
        if code != Code.OK:
            raise Error(code)

    def end(self) -> None:
        """Ends it. It may be called again."""
        code = self._library.cq_serve_end(ctypes.byref(self._memory))
        if code != Code.OK:
            raise Error(code)
