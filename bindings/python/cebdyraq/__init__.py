"""An agent's side of Cebdyraq: an environment that inspects the threads of a runtime in the same process.

The runtime uses libcebdyraq.so.2, or has the whole of libcebdyraq.a linked into a shared library of its own:

    cc -shared -fPIC -o libruntime.so runtime.c -Wl,--whole-archive libcebdyraq.a -Wl,--no-whole-archive

It gives the addresses of its cq_service and its cq_signal. An Environment is attached to them:

    library = cebdyraq.load("libruntime.so")
    with cebdyraq.Environment(library, service, signal) as env:
        env.meet()
        for thread in env.get_all_threads():
            print(thread, env.get_stack_trace(thread))

The functions have the names and the rules of cebdyraq.h. They wait asleep, as those of cebdyraq_wait.h do, and other Python
threads run on meanwhile. A `timeout` is in seconds, and None is for ever. A code other than CQ_OK is raised as an Error.
"""

from ._api import Capability, Code, EventKind, StopKind, StopReason
from ._environment import Cancelled, Environment, Posted
from ._library import load
from ._server import Server
from ._values import Error, Event, Frame, LineEntry, MethodName, StackInfo, Stop, ThreadInfo
from ._variables import Value, Variable, Variables

__all__ = ["Cancelled", "Capability", "Code", "Environment", "Error", "Event", "EventKind", "Frame", "LineEntry", "MethodName", "Posted", "Server",
           "StackInfo", "Stop", "StopKind", "StopReason", "ThreadInfo", "Value", "Variable", "Variables", "load"]
