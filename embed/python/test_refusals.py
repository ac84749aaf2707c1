"""Tests of the wrapper where the library runs out of memory: `embed/test` runs them over a library whose growths can be refused."""

import ctypes
import unittest

import ripsawbean
from ripsawbean import Database

LIBRARY = ripsawbean.handles.LIBRARY
CAN_REFUSE = hasattr(LIBRARY, "refuse_after_growths")
if CAN_REFUSE:
    LIBRARY.refuse_after_growths.argtypes, LIBRARY.refuse_after_growths.restype = [ctypes.c_ulong], None
    LIBRARY.refuse_no_growth.restype = ctypes.c_bool

LINES = [
    "0 begin 1", "0 put 1 a%00 " + "v" * 5000, "0 get 1 a%00", "0 scan 1 - -", "0 commit 1", "0 close 1", "0 open - - 0", "0 poll 1 9",
]


@unittest.skipUnless(CAN_REFUSE, "this library's growths can't be refused")
class Refusals(unittest.TestCase):
    def refusing(self, before, call):
        """What a call gives or raises with its growth behind `before` others refused, and whether one was."""
        LIBRARY.refuse_after_growths(before)
        try:
            told = call()
        except ripsawbean.Error as error:
            told = error
        return told, LIBRARY.refuse_no_growth()

    def test_no_memory_for_a_database(self):
        told, was_refused = self.refusing(0, Database)
        self.assertTrue(was_refused)
        self.assertEqual(type(told), ripsawbean.NoMemory)
        self.assertIsInstance(told, MemoryError)

    def test_each_growth_of_calls(self):
        seen, before, any_refused = set(), 0, True
        while any_refused:
            any_refused = False
            with Database() as db:
                position = 0
                for line in LINES:
                    told, was_refused = self.refusing(before, lambda: db.call(line + "\n"))
                    any_refused = any_refused or was_refused
                    if isinstance(told, ripsawbean.NoMemory):
                        # No call was made, and it may be made again.
                        told = db.call(line + "\n")
                        seen.add("no call")
                    elif isinstance(told, ripsawbean.Unwritten):
                        # The call was made; its text can be asked for.
                        again, was_refused = self.refusing(0, db.text)
                        self.assertEqual((type(again), was_refused), (ripsawbean.Unwritten, True))
                        told = db.text()
                        seen.add("no text")
                    if told.answer == "nomemory":
                        self.assertTrue(told.is_refusal)
                        seen.add("an answer")
                        self.assertTrue(str(told).startswith("%d %s => " % (position, line)))
                        position += 1
                        told = db.call(line + "\n")
                    self.assertTrue(str(told).startswith("%d %s => " % (position, line)))
                    self.assertEqual(str(db.text()), str(told))
                    position += 1
                self.assertEqual([type(message).__name__ for message in told.messages], ["Row", "Resolved"])
            before += 1
        self.assertEqual(seen, {"no call", "no text", "an answer"})

    def test_each_growth_of_typed_calls(self):
        key, value, seen, before, any_refused = b"k" * 30, b"v" * 5000, set(), 0, True
        while any_refused:
            any_refused = False
            with Database() as db:
                db.make("open", None, None, 0)
                for call in (
                    lambda: db.begin(1), lambda: db.put(1, key, value), lambda: db.get(1, key), lambda: db.commit(1),
                    lambda: db.close_to(1), lambda: db.poll(1, 9),
                ):
                    told, was_refused = self.refusing(before, call)
                    any_refused = any_refused or was_refused
                    if isinstance(told, ripsawbean.NoMemory):
                        seen.add("no call")
                        told = call()
                    elif isinstance(told, ripsawbean.Unwritten):
                        # The poll was made; its messages can be asked for.
                        again, was_refused = self.refusing(0, db.data)
                        self.assertEqual((type(again), was_refused), (ripsawbean.Unwritten, True))
                        seen.add("no bytes")
                        continue
                    elif told.answer == "nomemory":
                        seen.add("an answer")
                        told = call()
                    self.assertFalse(told.is_refusal)
                self.assertEqual(ripsawbean.messages_of(db.data()), [ripsawbean.Row(key, value, 1), ripsawbean.Resolved(1)])
            before += 1
        self.assertEqual(seen, {"no call", "no bytes", "an answer"})

    def test_each_growth_of_looks(self):
        with Database() as db:
            key, before, kinds, was_refused = b"k" * 30, 0, set(), True
            for line in ("0 begin 1", "0 put 1 %s 1" % key.decode(), "0 commit 1", "0 open - - 1"):
                db.call(line + "\n")
            told, was_refused = self.refusing(0, lambda: db.versions_at(1, [b"a", key]))
            self.assertEqual((type(told), was_refused), (ripsawbean.NoMemory, True))
            self.assertEqual(db.versions_at(1, [b"a", key]), [None, 1])
            while was_refused:
                told, was_refused = self.refusing(before, lambda: db.held_by(0))
                if not isinstance(told, ripsawbean.NoMemory):
                    self.assertEqual(told, [ripsawbean.Held("feed", 1, 1)])
                kinds.add(type(told))
                before += 1
            self.assertEqual(kinds, {ripsawbean.NoMemory, list})

    def test_each_growth_of_a_dump(self):
        with Database() as db:
            before, kinds, was_refused = 0, set(), True
            for line in ("0 begin 1", "0 put 1 %s %s" % ("k" * 30, "v" * 30), "0 del 1 a", "0 commit 1"):
                db.call(line + "\n")
            whole = b"".join(db.dump())
            while was_refused:
                told, was_refused = self.refusing(before, lambda: b"".join(db.dump()))
                if not isinstance(told, ripsawbean.NoMemory):
                    self.assertEqual(told, whole)
                kinds.add(type(told))
                before += 1
            self.assertEqual(kinds, {ripsawbean.NoMemory, bytes})

    def test_each_growth_of_lines_at_once(self):
        before, any_refused = 0, True
        while any_refused:
            any_refused = False
            with Database() as db:
                position, left = 0, LINES
                while left:
                    lines = "".join(line + "\n" for line in left)
                    told, was_refused = self.refusing(1 << 30 if any_refused else before, lambda: db.calls(lines))
                    any_refused = any_refused or was_refused
                    if isinstance(told[-1], ripsawbean.Unwritten):
                        told[-1] = str(db.text())
                    elif isinstance(told[-1], ripsawbean.NoMemory):
                        told.pop()
                    for line, text in zip(left, told):
                        self.assertTrue(text.startswith("%d %s => " % (position, line)), text)
                        position += 1
                    left = left[len(told) :]
            before += 1


if __name__ == "__main__":
    unittest.main()
