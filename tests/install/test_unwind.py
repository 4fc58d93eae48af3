"""What gdb and perf show of a call of the library (docs/USING.md, "Debuggers and profilers of the system")."""

import re
import unittest

import header
import lib
from installed import compiled, flags, new_folder, prefix, run, wants

ENTRY = re.compile(r"#0 .*cq_next_event \(.*\) at c/cebdyraq_calls\.c:\d+\n"
                   r"#1 .* in cq_wait_next_event \(.*timeout_ns=(?:timeout_ns@entry=)?0.*\) at c/cebdyraq_wait\.c:\d+\n"
                   r"#2 .* in ask \(.*\) at .*stack\.c:\d+\n"
                   r"#3 .*main \(.*\) at .*stack\.c:\d+")


class Unwind(unittest.TestCase):
    @wants("gdb")
    def test_gdb_goes_from_the_entry_of_a_call_to_its_caller(self):
        for static in (False, True):
            program = compiled("stack.c", linked=flags(static))
            said = run("gdb", "-q", "-batch", "-nx", "-ex", "set debuginfod enabled off", "-ex", "set breakpoint pending on", "-ex",
                       "break cq_next_event", "-ex", "run", "-ex", "backtrace", program)
            self.assertRegex(said, ENTRY)

    @wants("readelf")
    def test_the_proved_half_has_no_unwind_table_and_the_c_half_has(self):
        """If this fails, the toolchain gives more than docs/USING.md says."""
        library = prefix() / "lib/libcebdyraq.so"
        symbols = re.findall(r": ([0-9a-f]+) .* FUNC .* (cq_\w+)@", run("readelf", "-W", "--dyn-syms", library))
        addresses = {name: int(at, 16) for at, name in symbols}
        rows = re.findall(r"pc=([0-9a-f]+)\.\.([0-9a-f]+)", run("readelf", "-W", "--debug-dump=frames", library))
        ranges = [(int(start, 16), int(end, 16)) for start, end in rows]
        covered = {name for name, at in addresses.items() if any(start <= at < end for start, end in ranges)}
        of_wait = set(header.prototypes(header.text_of(header.HEADERS[1])))
        of_serve = {"cq_serve", "cq_debug_listen", "cq_serve_end", "cq_server_port", "cq_server_pops_frames", "cq_server_variables",
                    "cq_server_starts_suspended", "cq_server_await_resumption", "cq_server_tell_classes"}
        of_watch = set(header.prototypes(header.text_of("cebdyraq_watch.h")))
        calls = {f"cq_{name}" for name in lib.CALL.findall(header.text_of("cebdyraq_calls.c"))}
        of_variables = {"cq_door_answer"} | {name for name in header.functions() if name.startswith("cq_tell_")}
        of_others = {"cq_version", "cq_open_door", "cq_open_debugger", "cq_set_heap", "cq_define_class_strings", "cq_code_name", "cq_code_text"}
        self.assertEqual(covered, of_wait | of_serve | of_watch | calls | of_variables | of_others)

    @wants("perf")
    def test_perf_names_the_functions(self):
        data = new_folder() / "perf.data"
        said = run("perf", "record", "-q", "-o", data, "-F", "2000", compiled("busy.c"), status=None)
        if not data.is_file():
            raise unittest.SkipTest(f"perf may not record here: {said.strip()}")
        report = run("perf", "report", "-q", "-i", data, "--stdio", "--sort", "symbol", stderr=None)
        self.assertRegex(report, r"\bcq_enter\b")
