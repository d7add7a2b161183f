"""The package, call by call, over the library of FKV_LIB."""
import array
import dataclasses
import errno
import gc
import os
import signal
import subprocess
import sys
import tempfile
import threading
import time
import unittest
import warnings

import fkv
from fkv import _native

try:
    import numpy
except ImportError:
    numpy = None
SMALL = fkv.Shape(bucket_bits=4, page=64, frames=16, mutable_pages=8, sessions=4, overflow=64, disk_pages=4096)
TINY = fkv.Shape(bucket_bits=6, page=4, frames=2, mutable_pages=1, sessions=2, overflow=64, disk_pages=154)


class OverFile(unittest.TestCase):
    def setUp(self):
        warnings.simplefilter("error")
        room = tempfile.TemporaryDirectory(prefix="fkv-python-")
        self.addCleanup(room.cleanup)
        self.room, self.path = room.name, f"{room.name}/counts"

    def open(self, keeping=fkv.Keeping(), shape=None, **how):
        if shape and not os.path.exists(self.path):
            fkv.make_file(self.path, shape)
        return fkv.open(self.path, fkv.Wish(keys=1000, sessions=4), keeping, **how)


class Keys(OverFile):
    def test_one_key(self):
        with self.open() as store, store.join() as session:
            self.assertIsNone(session.get(7))
            self.assertEqual(session.get(7, 3), 3)
            session[7] = 10
            self.assertEqual((session[7], 7 in session, 8 in session), (10, True, False))
            self.assertEqual(session.increment(7), 11)
            self.assertEqual(session.increment(7, 2**64 - 2), 2**64 - 2)
            self.assertEqual((session.raise_to(8, 5), session.raise_to(8, 4), session.raise_to(8, 6)), (5, 5, 6))
            del session[8]
            session.remove(8)
            self.assertEqual(session.serial, 8)
            for call in (lambda: session[8], lambda: session.__delitem__(8)):
                self.assertRaises(KeyError, call)
            self.assertRaises(TypeError, iter, session)

    def test_merges(self):
        most = 2**64 - 2
        with self.open() as store, store.join() as session:
            # a key's value, or None; the merge, its number, and what it gives
            for key, (before, call, number, after) in enumerate([
                (None, session.min, 7, 7), (12, session.min, 7, 7), (7, session.min, 12, 7),
                (None, session.sub, 7, 0), (12, session.sub, 7, 5), (7, session.sub, 12, 0),
                (None, session.and_, 7, 0), (12, session.and_, 10, 8), (most, session.and_, most, most),
                (None, session.or_, 7, 7), (12, session.or_, 10, 14), (most, session.or_, 1, most),
                (None, session.first, 7, 7), (12, session.first, 7, 12), (0, session.first, 7, 0),
            ]):
                if before is not None:
                    session.put(key, before)
                self.assertEqual(session.keep(key), before)
                self.assertEqual((call(key, number), session.get(key), session.keep(key)), (after, after, after))
                self.assertRaises(fkv.ValueReserved, call, key, 2**64 - 1)
                self.assertRaises(OverflowError, call, key, 2**64)
            self.assertIsNone(session.keep(1000))
            self.assertIsNone(session.get(1000))
            self.assertRaises(fkv.Error, session._merge, 6, 1, 1)

    def test_numbers_that_are_none(self):
        with self.open() as store, store.join() as session:
            for key in (-1, 2**64):
                self.assertRaises(OverflowError, session.get, key)
                self.assertRaises(OverflowError, session.put, key, 1)
                self.assertRaises(OverflowError, session.put, 1, key)
                self.assertRaises(OverflowError, session.read_many, [key])
            self.assertRaises(TypeError, session.put, 1.5, 1)
            with self.assertRaises(fkv.ValueReserved) as raised:
                session.put(1, 2**64 - 1)
            self.assertIsInstance(raised.exception, ValueError)
            self.assertEqual(session.serial, 0)

    def test_keys_of_64_bits(self):
        low, high = 7, 2**63 + 2**32 + 7
        with self.open() as store, store.join() as session:
            session.put(low, 1)
            session.put(high, 2**40)
            self.assertEqual(session[high], 2**40)
            session.increment(high, 2**41)
            session.raise_to(high, 2**42)
            self.assertEqual((session[low], session[high], session.read_many([low, high]).tolist()), (1, 2**42, [1, 2**42]))
            session.commit()
            self.assertEqual(sorted(store.pairs()), [(low, 1), (high, 2**42)])
            session.remove(high)
            self.assertEqual((session.get(low), session.get(high)), (1, None))

    def test_many_keys(self):
        with self.open() as store, store.join() as session:
            session.put_many(range(300), array.array("Q", range(1000, 1300)))
            session.increment_many(array.array("Q", [1, 2, 1, 400]))
            session.increment_many([1, 5], [10, 20])
            session.put_many([9, 9, 9], [1, 2, 3])
            self.assertEqual(session.serial, 309)
            keys = array.array("Q", [0, 1, 2, 5, 9, 299, 300, 400])
            wanted = [1000, 1013, 1003, 1025, 3, 1299, fkv.ABSENT, 1]
            self.assertEqual(session.read_many(keys).tolist(), wanted)
            into = array.array("Q", bytes(64))
            self.assertIs(session.read_many(memoryview(keys).toreadonly(), into), into)
            self.assertEqual(into.tolist(), wanted)
            self.assertEqual(session.read_many(memoryview(keys)[::2]).tolist(), wanted[::2])
            self.assertEqual(session.read_many(array.array("L", keys)).tolist(), wanted)
            self.assertEqual(session.read_many([]).tolist(), [])
            session.increment_many([])
            for call in (lambda: session.read_many(b"12345678"), lambda: session.read_many(array.array("q", [1]))):
                self.assertRaises(TypeError, call)
            for call in (lambda: session.put_many([1], [1, 2]), lambda: session.read_many([1], array.array("Q"))):
                self.assertRaises(ValueError, call)
            self.assertRaises(fkv.ValueReserved, session.put_many, [500, 501], [2**64 - 1, 7])
            self.assertEqual(session[501], 7)

    @unittest.skipUnless(numpy, "NumPy isn't there")
    def test_numpy(self):
        with self.open() as store, store.join() as session:
            keys = numpy.arange(100, dtype=numpy.uint64)
            session.put_many(keys, keys * 2)
            into = numpy.empty(100, dtype=numpy.uint64)
            session.read_many(keys, into)
            self.assertTrue((into == keys * 2).all())

    def test_records_in_the_file_alone(self):
        shape = fkv.Shape(bucket_bits=8, page=16, frames=2, mutable_pages=1, sessions=2, overflow=256, disk_pages=4096)
        with self.open(shape=shape) as store, store.join() as session:
            for key in range(1000):
                session[key] = key + 1
            for key in range(0, 1000, 7):
                self.assertEqual(session.increment(key), key + 2)
            session.increment_many(range(1000))
            values = session.read_many(range(1000)).tolist()
            self.assertEqual(values, [key + 2 + (key % 7 == 0) for key in range(1000)])
            self.assertEqual([session[key] for key in range(1000)], values)
            self.assertGreater(store.stats.cold_reads, 0)
            self.assertGreater(store.stats.waited[0], 0)
            its = store.stats
            self.assertEqual(its.begin, 1)
            self.assertTrue(1 < its.head <= its.flushed <= its.read_only <= its.tail)
            self.assertLessEqual(its.overflow, shape.overflow)
            self.assertEqual((its.entries, sum(its.pending)), (0, 0))
            session.commit()
            self.assertEqual(store.stats.entries, 1000)


class Stores(OverFile):
    def test_what_is_kept(self):
        self.assertIn(fkv.version().split()[0], fkv.__version__)
        self.assertIn("FKVSTOR1", fkv.formats())
        with self.open() as store:
            self.assertEqual(store.last_commit, fkv.Commit(0, (0,) * 4))
            with store.join(2) as session:
                session.put(1, 5)
                session.commit()
                session.put(1, 6)
                self.assertEqual((session.serial, session.durable), (2, 1))
                self.assertEqual(list(store.pairs()), [(1, 5)])
                self.assertEqual(store.last_commit, fkv.Commit(1, (0, 0, 1, 0)))
                done = []
                store.save(f"{self.room}/saved", done.append)
                self.assertEqual(done[-1].work, "saving")
                self.assertEqual(done[-1].done, done[-1].total)
                self.assertEqual(store.stats.joined, 4)
        with self.open() as store, store.join(2) as session:
            self.assertEqual((session[1], session.serial), (6, 2))
            session.put(1, 7)
        with fkv.open(f"{self.room}/saved", make=False) as saved, saved.join() as session:
            self.assertEqual(session[1], 5)
        store = self.open(keeping=None)
        with store.join() as session:
            session.put(2, 8)
            self.assertRaises(fkv.NoKeeper, session.tick)
            self.assertRaises(fkv.NoKeeper, session.put, 1, 9)
            self.assertRaises(fkv.NoKeeper, store.commit)
        store.close()
        with self.open() as store:
            with store.join() as session:
                self.assertEqual(session[1], 7)
                session.put(1, 9)
            store.drop()
        self.assertGreater(fkv.renew_file(self.path, f"{self.room}/new"), 1536)
        with fkv.open(f"{self.room}/new") as store, store.join() as session:
            self.assertEqual(session[1], 7)

    def test_what_is_refused(self):
        with self.open() as store:
            self.assertRaises(fkv.AlreadyOpen, self.open)
            self.assertRaises(BlockingIOError, self.open)
            self.assertRaises(fkv.InUse, store.start)
            self.assertRaises(fkv.NoSession, store.join, 4)
            self.assertRaises(OverflowError, store.join, -1)
            session = store.join(0)
            self.assertRaises(fkv.NoSession, store.join, 0)
            self.assertRaises(fkv.InUse, store.close)
            self.assertIsNone(store.keeper_fault)
            session.close()
            session.close()
            for call in (lambda: session[1], session.commit, session.tick, lambda: session.serial):
                self.assertRaises(fkv.Closed, call)
            with self.assertRaises(FileExistsError):
                store.save(self.path)
        store.close()
        self.assertTrue(store.closed and session.closed)
        for call in (store.join, store.commit, lambda: store.stats, lambda: store.shape):
            self.assertRaises(fkv.Closed, call)
        with self.assertRaises(FileNotFoundError) as raised:
            fkv.open(f"{self.room}/none/there")
        self.assertEqual((raised.exception.errno, raised.exception.filename), (errno.ENOENT, f"{self.room}/none/there"))
        self.assertIsInstance(raised.exception, fkv.Error)
        self.assertRaises(fkv.NoFile, fkv.open, f"{self.room}/none", make=False)
        with open(f"{self.room}/text", "w", encoding="utf-8") as file:
            file.write("no store")
        self.assertRaises(fkv.NotAStore, fkv.open, f"{self.room}/text")
        self.assertRaises(fkv.BadShape, fkv.make_file, f"{self.room}/bad", fkv.Shape(0, 3, 2, 1, 1, 0, 1))
        self.assertRaises(fkv.BadShape, fkv.shape_for, fkv.Wish(sessions=32))

    def test_damage(self):
        fkv.make_file(self.path, SMALL)
        with open(self.path, "r+b") as file:
            file.seek(8)
            file.write(b"\xff" * 1000)
        with self.assertRaises(fkv.Error) as raised:
            self.open()
        self.assertIsInstance(raised.exception, (fkv.Damaged, fkv.NotAStore))

    def test_sizes(self):
        shape = fkv.shape_for(fkv.Wish(keys=1000, sessions=3))
        self.assertEqual(shape.sessions, 3)
        self.assertGreaterEqual(fkv.size_of(shape).keys, 1000)
        with self.open(shape=SMALL) as store:
            self.assertEqual(store.shape, SMALL)

    def test_sessions(self):
        with self.open(shape=SMALL) as store:
            sessions = [store.join() for _ in range(SMALL.sessions)]
            for number in (None, SMALL.sessions):
                self.assertRaises(fkv.NoSession, store.join, number)
            self.assertEqual((store.stats.joined, store.stats.kept, len(store.last_commit.points)), (15, 0, 4))
            for session in sessions:
                session.close()
        self.assertRaises(fkv.BadShape, fkv.make_file, f"{self.room}/bad", dataclasses.replace(SMALL, sessions=32))

    def test_memory_that_is_not_kept_warm(self):
        for frames, warms, wanted in ((16, True, 0), (2, False, 0), (2, True, 1)):
            told = threading.Semaphore(0)
            path = f"{self.room}/{frames}{warms}"
            fkv.make_file(path, dataclasses.replace(SMALL, frames=frames, mutable_pages=1))
            for _ in range(2):
                with fkv.open(path, keeping=None) as store:
                    for _ in range(2):
                        store.start(fkv.Keeping(unwarmed=told.release, warms=warms))
                        store.stop()
                self.assertEqual(sum(told.acquire(timeout=0) for _ in range(9)), wanted)

    def text(self):
        with open(self.path, "rb") as file:
            return file.read(8)

    def test_the_front_of_the_log(self):
        made, until = 0, time.monotonic() + 60
        with self.open(fkv.Keeping(commit_ms=5, log_bytes=1 << 14)) as store, store.join() as session:
            while store.stats.begin == 1 and time.monotonic() < until:
                for key in range(100):
                    session.increment(key)
                made += 1
            its = store.stats
            self.assertGreater(its.begin, 1)
            self.assertGreater(its.swept, 0)
        with self.open(fkv.Keeping(log_bytes=fkv.LOG_KEEPS)) as store, store.join() as session:
            self.assertGreaterEqual(store.stats.begin, its.begin)
            self.assertEqual([session[key] for key in range(100)], [made] * 100)

    def test_both_classes(self):
        fkv.make_file(self.path, SMALL)
        self.assertEqual(self.text(), b"FKVSTOR2")
        with open(self.path, "r+b") as file:
            file.write(b"FKVSTOR1")
        with self.open() as store:
            # (its library's session is a user's then, and so are its overflow buckets)
            sessions = SMALL.sessions + 1
            self.assertEqual(store.shape, dataclasses.replace(SMALL, sessions=sessions, overflow=SMALL.overflow + 65 * sessions))
            store.renew()
            self.assertEqual(self.text(), b"FKVSTOR1")
            store.renew(SMALL)
            self.assertEqual(self.text(), b"FKVSTOR2")

    def test_a_log_that_is_full(self):
        with self.open(shape=TINY) as store:
            session = store.join()
            with self.assertRaises(fkv.Full):
                for key in range(1000):
                    session.put(key, 1)
            # (each later update is refused, and reads go on)
            self.assertRaises(fkv.Full, session.tick)
            self.assertRaises(fkv.Full, session.put, 0, 2)
            self.assertEqual(session[0], 1)
            self.assertRaises(fkv.InUse, store.renew)
            session.close()
            self.assertTrue(session.closed)
            store.renew(SMALL)
            self.assertEqual(store.shape.disk_pages, SMALL.disk_pages)
            with store.join() as session:
                session.put(0, 2)
                session.commit()
                self.assertEqual((session[0], session[1]), (2, 1))
                self.assertEqual(session.durable, session.serial)

    def test_hooks(self):
        commits, progress, refused = [], [], []

        def committed(its):
            commits.append(its)
            for call in (lambda: store.stats, store.close):
                try:
                    call()
                except fkv.InUse as why:
                    refused.append(why)

        with self.open(fkv.Keeping(commit_ms=5, committed=committed, progress=progress.append)) as store, store.join(1) as session:
            gc.collect()
            session.put(1, 1)
            until = time.monotonic() + 20
            while session.durable < 1 and time.monotonic() < until:
                session.tick()
            session.put(1, 2)
            session.commit()
        self.assertEqual(commits[-1].points, (0, 2, 0, 0))
        self.assertEqual([it.number for it in commits], list(range(1, len(commits) + 1)))
        self.assertEqual(len(refused), 2 * len(commits))
        self.assertIn("committing", {it.work for it in progress})

    def test_each_call_ticks(self):
        with self.open() as store, store.join() as session:
            for call in (lambda: session.get(1), lambda: session.put(1, 1), lambda: session.remove(1), lambda: session.read_many([1]),
                         lambda: session.put_many([1], [2]), lambda: session.increment_many([1])):
                ticket, until = store.ask_commit(), time.monotonic() + 20
                while not ticket.wait(0) and time.monotonic() < until:
                    call()
                self.assertTrue(ticket.wait(0))

    def test_sleep_and_tickets(self):
        with self.open() as store, store.join() as session:
            ticket = store.ask_commit()
            self.assertFalse(ticket.wait(0.05))
            self.assertTrue(ticket.wait(session=session))
            self.assertRaises(fkv.InUse, store.stop)
            with session.asleep():
                self.assertRaises(fkv.Asleep, session.get, 1)
                store.commit()
                store.stop()
            self.assertIsNone(session.get(1))
            self.assertRaises(fkv.NoKeeper, store.ask_commit)
            store.start()

    def test_a_wait_is_interrupted(self):
        def interrupt(*_):
            raise KeyboardInterrupt

        before = signal.signal(signal.SIGALRM, interrupt)
        self.addCleanup(signal.signal, signal.SIGALRM, before)
        with self.open() as store, store.join() as idle, store.join() as session:
            session.put(1, 1)
            signal.setitimer(signal.ITIMER_REAL, 0.2)
            # (no commit finishes past a session that makes no call)
            self.assertRaises(KeyboardInterrupt, session.commit)
            self.assertEqual(session.durable, 0)
            with idle.asleep():
                session.commit()
            self.assertEqual(session.durable, 1)

    def test_threads(self):
        def add(number, session=None):
            with session or store.join(number) as mine:
                for key in range(2000):
                    mine.increment(key % 50)

        with self.open(fkv.Keeping(commit_ms=10)) as store:
            threads = [threading.Thread(target=add, args=(it,)) for it in range(3)]
            shared = store.join(3)
            both = [threading.Thread(target=lambda: [shared.increment(60) for _ in range(1000)]) for _ in range(2)]
            for it in threads + both:
                it.start()
            for it in both:
                it.join()
            # (no thread ticks for it any more, and an update of another session may wait for a commit)
            with shared.asleep():
                for it in threads:
                    it.join()
            self.assertEqual((shared[60], shared.serial), (2000, 2000))
            self.assertEqual([shared[it] for it in range(50)], [120] * 50)
            shared.close()

    def test_meetings(self):
        told, mutex = [0, 0], threading.Lock()

        def tell(sessions, own):
            for _ in range(200):
                with mutex:
                    mine, other = sessions[own], sessions[1 - own]
                    told[own] = mine.increment(own)
                    mine.meet(other)
                    self.assertEqual(mine.get(1 - own, 0), told[1 - own])

        with self.open() as store, store.join() as first, store.join() as second:
            threads = [threading.Thread(target=tell, args=((first, second), it)) for it in (0, 1)]
            for it in threads:
                it.start()
            for it in threads:
                it.join()
            self.assertEqual(told, [200, 200])
            self.assertRaises(ValueError, first.meet, first)

    def test_what_nobody_closed(self):
        warnings.simplefilter("always")
        with warnings.catch_warnings(record=True) as said:
            store = self.open(fkv.Keeping(committed=lambda _: None))
            session = store.join()
            session.put(1, 1)
            del session, store
            # (the warning of the session keeps it, and so its store)
            self.assertEqual([it.category for it in said], [ResourceWarning])
            said.clear()
            self.assertEqual([it.category for it in said], [ResourceWarning])
        with self.open() as store, store.join() as session:
            self.assertEqual(session[1], 1)

    def test_the_end_of_a_program(self):
        text = "import fkv, sys; s = fkv.open(sys.argv[1], keeping=fkv.Keeping(committed=print)); t = s.join(); t.put(1, 4)"
        ran = subprocess.run([sys.executable, "-W", "ignore", "-c", text, self.path], capture_output=True, text=True, timeout=60, check=False)
        self.assertEqual((ran.returncode, ran.stderr), (0, ""))
        self.assertIn("Commit(number=1", ran.stdout)
        with self.open() as store, store.join() as session:
            self.assertEqual(session[1], 4)

    def test_a_forked_child(self):
        warnings.simplefilter("ignore")
        with self.open() as store, store.join() as session:
            session.put(1, 1)
            child = os.fork()
            if child == 0:
                try:
                    is_closed = store.closed and session.closed
                    session.close()
                    store.close()
                    os._exit(0 if is_closed else 1)
                finally:
                    os._exit(2)
            self.assertEqual(os.waitpid(child, 0)[1], 0)
            session.commit()
            self.assertEqual(session[1], 1)


class Names(unittest.TestCase):
    def test_faults(self):
        for it in fkv.Fault:
            name = _native.lib.fkv_name_of(-it).decode()
            self.assertEqual(name.lower(), it.name.replace("_", "").lower())
        self.assertEqual(_native.lib.fkv_name_of(-len(fkv.Fault) - 1), b"Unknown")


if __name__ == "__main__":
    unittest.main()
