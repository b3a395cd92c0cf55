"""The journal over sqlite: kill -9 at each commit, two clients, a full disk, many plans in a host, asyncio."""
import asyncio
import os
import subprocess
import sys
import threading
import time
import unittest
from datetime import datetime, timedelta, timezone
from pathlib import Path
from zoneinfo import ZoneInfo

from cstn import (Busy, Clock, Contradicts, Did, Event, Follower, Host, Moved, Next, NoProgram, NotKept, Now, Saw,
                  SqliteStore, Add, Verdict)
from cstn.aio import AsyncFollower, AsyncHost
from cstn.journal import in_zone
from tests.support import CLINIC, PLANS, STROKE, TOP, Folder, answers, as_json, drawn

EVENTS: list[Event] = [Did("Antibiotic", 91, "a"), Did("Sample", 5, "s"), Add("Z", "Discharge", 350, key="l"),
                       Now(30, "n"), Saw("i", True, 45, "i"), Did("Review", 211, "r")]


def worker(*words: str, events: list[Event]) -> subprocess.CompletedProcess[str]:
    return subprocess.run([sys.executable, "-B", "-m", "tests.worker", *words], cwd=TOP, input=as_json(events),
                          text=True, capture_output=True, timeout=300, check=False)


class Sqlite(Folder):
    def store(self, name: str = "journals.db") -> SqliteStore:
        store = SqliteStore(os.path.join(self.folder, name))
        self.addCleanup(store.close)
        return store

    def test_it_is_synced_and_written_ahead(self) -> None:
        connection = self.store().connection
        self.assertEqual(connection.execute("pragma journal_mode").fetchone(), ("wal",))
        self.assertEqual(connection.execute("pragma synchronous").fetchone(), (2,))

    def test_a_folder_that_is_not_there(self) -> None:
        with self.assertRaisesRegex(NotKept, "nowhere/ward.db cannot be opened: .*No such file or directory"):
            self.store("nowhere/ward.db")
        self.assertEqual(os.listdir(self.folder), [])

    def test_killed_at_each_commit(self) -> None:
        store = self.store()
        with Follower(CLINIC, store.journal("whole")) as whole:
            whole.tell_all(EVENTS)
            wanted = whole.outlook()
        for point in ("before", "in", "after"):
            for number in range(1, len(EVENTS) + 2):
                name = f"{point} {number}"
                with self.subTest(name):
                    died = worker("sqlite", store.path, name, point, str(number), events=EVENTS)
                    self.assertEqual((died.returncode, died.stderr), (-9, ""))
                    with Follower(CLINIC, store.journal(name)) as follower:
                        known = {it.event.key for it in follower.history()}
                        self.assertLessEqual(set(died.stdout.split()), known)
                        follower.tell_all(EVENTS)
                        self.assertEqual(follower.outlook(), wanted)

    def test_two_clients(self) -> None:
        path = self.store().path
        patients = [drawn(number) for number in range(6)]

        def run(turn: int) -> None:
            store = SqliteStore(path)
            for number, patient in enumerate(patients):
                with Follower(patient.plan, store.journal(f"{number}")) as follower:
                    follower.tell_all(patient.messages if turn else patient.messages[::-1] + patient.messages)
            store.close()

        threads = [threading.Thread(target=run, args=(turn,)) for turn in (0, 1)]
        for thread in threads:
            thread.start()
        for thread in threads:
            thread.join()
        store = self.store()
        for number, patient in enumerate(patients):
            with Follower(patient.plan, store.journal(f"{number}")) as follower:
                self.assertEqual({it.event for it in follower.history()}, set(patient.truth))
                self.assertEqual(follower.outlook().waiting, ())

    def test_many_open_a_new_store_at_once(self) -> None:
        path = os.path.join(self.folder, "new.db")
        code = ("import sys; from cstn import SqliteStore\n"
                "print('ready', flush=True); sys.stdin.read(); print(SqliteStore(sys.argv[1]).plans())")
        clients = [subprocess.Popen([sys.executable, "-B", "-c", code, path], cwd=TOP, stdin=subprocess.PIPE, text=True,
                                    stdout=subprocess.PIPE, stderr=subprocess.STDOUT) for _ in range(6)]
        for client in clients:
            self.addCleanup(client.kill)
            assert client.stdout is not None
            self.assertEqual(client.stdout.readline(), "ready\n")
        for client in clients:
            assert client.stdin is not None
            client.stdin.close()
            client.stdin = None
        self.assertEqual([client.communicate(timeout=300)[0] for client in clients], ["[]\n"] * len(clients))

    def test_a_client_sees_what_another_one_told(self) -> None:
        store = self.store()
        one, two = (Follower(CLINIC, store.journal("a")) for _ in range(2))
        self.addCleanup(one.close)
        self.addCleanup(two.close)
        self.assertEqual(two.next(), Next(0, ("Sample",)))
        one.did("Sample", 5, "s")
        self.assertEqual(two.next(), Next(65, (), ("i",)))
        self.assertTrue(two.did("Sample", 5, "s").again)
        self.assertRaises(Contradicts, two.did, "Sample", 6)
        one.correct("s", Did("Sample", 7))
        self.assertEqual(two.outlook(), one.outlook())
        self.assertEqual(two.outlook().done["Sample"], 7)

    def test_a_client_that_does_not_let_go(self) -> None:
        store = self.store()
        other = SqliteStore(store.path, seconds=0.3)
        self.addCleanup(other.close)
        follower = Follower(CLINIC, other.journal("a"))
        self.addCleanup(follower.close)
        with store.journal("a").held():
            self.assertRaises(Busy, follower.did, "Sample", 5)
        self.assertEqual(follower.did("Sample", 5).version, 2)

    def test_without_a_lock_the_first_one_counts(self) -> None:
        class Unheld:
            def __init__(self, store: SqliteStore) -> None:
                self.journal = store.journal("a")

            def read(self, after: int = 0) -> list[tuple[int, str]]:
                return self.journal.read(after)

            def append(self, version: int, entry: str) -> None:
                self.journal.append(version, entry)

        store = self.store()
        followers = [Follower(CLINIC, Unheld(store)) for _ in range(4)]
        kept: list[int] = []

        def run(follower: Follower, place: int) -> None:
            for at in range(5):
                for _ in range(50):
                    try:
                        kept.append(follower.tell(Now(10 * at + place, f"{place} {at}")).version)
                        break
                    except Moved:
                        time.sleep(0.001)
            follower.close()

        threads = [threading.Thread(target=run, args=it) for it in zip(followers, range(4))]
        for thread in threads:
            thread.start()
        for thread in threads:
            thread.join()
        self.assertEqual(len(kept), 20)
        with Follower(CLINIC, store.journal("a")) as follower:
            self.assertEqual(follower.outlook().now, 43)

    def test_a_document_by_its_digest(self) -> None:
        store = self.store()
        digest = store.keep_document(CLINIC.document)
        self.assertEqual(store.keep_document(CLINIC.document), digest)
        self.assertEqual(store.document(digest), CLINIC.document)
        self.assertRaises(KeyError, store.document, "0")

    @unittest.skipUnless(os.geteuid() == 0 and sys.platform == "linux", "needs root, to mount a small disk")
    def test_a_full_disk(self) -> None:
        small = os.path.join(self.folder, "small")
        os.mkdir(small)
        if subprocess.run(["mount", "-t", "tmpfs", "-o", "size=300k", "none", small], check=False,
                          capture_output=True).returncode:
            self.skipTest("no disk can be mounted")
        self.addCleanup(lambda: subprocess.run(["umount", "-l", small], check=True))
        store = self.store("small/journals.db")
        with Follower(CLINIC, store.journal("a")) as follower:
            follower.did("Sample", 5)
            kept = [Now(6, "0")]
            with self.assertRaises(NotKept):
                for at in range(6, 3000):
                    kept.append(Now(at, f"{at}" * 50))
                    follower.tell(kept[-1])
            self.assertEqual(follower.next(), Next(65, (), ("i",)))
            self.assertEqual(follower.outlook().now, kept[-2].at)
            subprocess.run(["mount", "-o", "remount,size=8m", small], check=True)
            follower.tell(kept[-1])
            self.assertEqual(follower.outlook().now, kept[-1].at)
            self.assertEqual(len(follower.history()), 1 + 1)
        self.assertEqual(Path(store.path).parent.name, "small")


class Hosts(Folder):
    def setUp(self) -> None:
        super().setUp()
        self.path = os.path.join(self.folder, "ward.db")

    def host(self, processes: int = 64) -> Host:
        store = SqliteStore(self.path)
        self.addCleanup(store.close)
        host = Host(store, processes=processes)
        self.addCleanup(host.close)
        return host

    def test_many_plans_in_few_processes(self) -> None:
        host = self.host(processes=3)
        patients = [drawn(number) for number in range(9)]
        for number, patient in enumerate(patients):
            host.create(f"p{number}", patient.plan)

        def run(start: int) -> None:
            for number in range(start, len(patients), 3):
                for event in patients[number].messages:
                    host.follower(f"p{number}").tell(event)

        threads = [threading.Thread(target=run, args=(start,)) for start in range(3)]
        for thread in threads:
            thread.start()
        for thread in threads:
            thread.join()
        living = [it for it in host.followers.values() if it.session is not None]
        self.assertLessEqual(len(living), 6)
        for number, patient in enumerate(patients):
            self.assertEqual({it.event for it in host.follower(f"p{number}").history()}, set(patient.truth))

    def test_a_plan_is_taken_up_from_the_store_alone(self) -> None:
        clock = Clock(datetime.now(timezone.utc) - timedelta(minutes=70), timedelta(seconds=60))
        self.host().create("one", CLINIC, clock).did("Sample", 5)
        again = self.host()
        self.assertEqual(again.plans(), ["one"])
        self.assertEqual(again.follower("one").clock, clock)
        self.assertEqual(again.due(), [("one", Next(65, (), ("i",)))])
        self.assertRaises(KeyError, again.follower, "other")
        with self.assertRaisesRegex(Moved, "the plan 'one' was begun already"):
            again.create("one", STROKE)

    def test_what_is_due(self) -> None:
        host = self.host()
        host.create("a", CLINIC).did("Sample", 5)
        host.create("b", CLINIC)
        self.assertEqual(host.due(10), [("b", Next(0, ("Sample",)))])
        self.assertEqual([name for name, _ in host.due(65)], ["a", "b"])
        self.assertEqual(host.due(), [])
        host.follower("b").did("Sample", 20)
        self.assertEqual([(name, type(it)) for name, it in host.due(10)], [("b", Verdict)])
        self.assertEqual(host.due(65, of=["a"]), [("a", Next(65, (), ("i",)))])
        self.assertRaises(KeyError, host.due, 65, of=["c"])

    def test_what_cannot_be_asked_is_said(self) -> None:
        host = self.host()
        host.create("a", CLINIC)
        host.create("b", CLINIC)
        host.store.journal("a").append(2, "no entry")
        with self.assertLogs("cstn", "WARNING") as log:
            self.assertEqual([name for name, _ in host.due(10)], ["b"])
        self.assertRegex(log.output[0], "the plan 'a' was passed over: Changed")
        self.assertRaises(NoProgram, Host(host.store, program="/nowhere/cstn").due, 10)

    def test_the_zone_is_kept(self) -> None:
        origin = datetime(2026, 10, 24, 22, tzinfo=ZoneInfo("Europe/Paris"))
        self.host().create("one", CLINIC, Clock(origin))
        clock = self.host().follower("one").clock
        assert clock is not None
        self.assertEqual(clock.time_of(540).isoformat(), "2026-10-25T06:00:00+01:00")
        self.assertEqual(in_zone(origin, "Nowhere/None"), origin)

    def test_asyncio(self) -> None:
        async def run() -> list[Next]:
            host = AsyncHost(self.host())
            followers = [await host.create(f"p{number}", plan) for number, plan in enumerate(PLANS)]
            async with AsyncFollower((await host.follower("p0")).follower) as first:
                await first.tell_all([Did("Sample", 5)])
                async with await first.what_if() as trial:
                    await trial.saw("i", True, 45)
                    assert (await trial.outlook()).seen["i"].value
                    assert await trial.mark() == 1 and (await trial.forgive()).forgiven == ()
                    assert await trial.back() == 0 and (await trial.lines())[-1] == "saw 45 i true"
                assert (await first.late("i")).until == 95 and await first.blame() is None
                assert await first.ways_out() == () and await first.by("Review") is not None
                assert await first.until() == 95 and (await first.latest())["Review"] == 125
                assert await first.least_deadline() == 200 and await first.give_way(2) is None
                assert (await first.attempt(Saw("i", False, 9))).is_yes and (await first.use_cap(99)).is_yes
                assert len(await first.history()) == 1 and (await first.rest()).startswith(b"<?xml")
                await first.correct(f"#{2}", Did("Sample", 6))
                assert (await first.now(7)).verdict.is_yes and (await first.verdict()).is_yes
            found = await asyncio.gather(*(follower.next() for follower in followers))
            assert await host.plans() == ["p0", "p1", "p2"] and await host.due(0)
            await host.close()
            return [it for it in found if isinstance(it, Next)]

        self.assertEqual(len(asyncio.run(run())), len(PLANS))


if __name__ == "__main__":
    unittest.main()
