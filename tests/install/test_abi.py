"""The ABI of the headers beside that of the last version (docs/ABI.md)."""

import shutil
import unittest

import abi
import header
from installed import new_folder, wants

# A change of a header, what becomes of it there, and whether programs that were compiled before are harmed.
CHANGES = (
    ("a function goes", "uint32_t cq_free(cq_service *service);\n", "", True),
    ("a parameter grows", "cq_enter(cq_thread *thread, uint32_t method)", "cq_enter(cq_thread *thread, uint64_t method)", True),
    ("a struct grows", "uint64_t lost; } cq_event;", "uint64_t lost; uint64_t more; } cq_event;", True),
    ("a handle grows", "void *at; } cq_env;", "void *at; void *more; } cq_env;", True),
    ("a function comes", "bool cq_poll_clear(", "bool cq_comes(cq_thread *thread);\nbool cq_poll_clear(", False),
)


@wants("abidw", "abidiff")
class Abi(unittest.TestCase):
    def test_against_the_last_version(self):
        record = abi.newest_record()
        old, new = record.read_text(), abi.of_headers(header.C)
        major, minor, _ = map(int, record.stem.split("."))
        if major == header.version()[0]:
            self.assertIsNone(abi.harms(old, new), f"This breaks the ABI of {record.stem}: raise the major version.")
            if minor == header.version()[1]:
                self.assertIsNone(abi.differs(old, new), f"This adds to the ABI of {record.stem}: raise the minor version.")

    def test_changes_are_noticed(self):
        old = abi.of_headers(header.C)
        for what, before, after, harm in CHANGES:
            with self.subTest(what):
                folder = new_folder() / "c"
                shutil.copytree(header.C, folder)
                path = folder / "cebdyraq.h"
                self.assertEqual(path.read_text().count(before), 1)
                path.write_text(path.read_text().replace(before, after))
                new = abi.of_headers(folder)
                self.assertIsNotNone(abi.differs(old, new))
                self.assertEqual(abi.harms(old, new) is not None, harm)
