"""Many variants, checked by threads, processes, and two workers of Dask's `distributed`."""
import contextlib
import importlib
import io
import os
import unittest
import warnings
from concurrent.futures import Executor, ProcessPoolExecutor, ThreadPoolExecutor
from typing import Any
from unittest import mock

from cstn import BadDocument, Can, OutOfTime, Plan
from cstn.sweep import Bar, Outcome, Variant, ranges, sweep, variants
from tests.support import CLINIC, EMERGENCY, EXAMPLES, TOP, Folder, reads_plans

try:
    distributed: Any = importlib.import_module("distributed")
except ImportError:
    distributed = None


class Sweeps(Folder):
    def swept(self, executor: Executor) -> None:
        """The same outcomes, in order, as one check after another."""
        found = list(variants(EMERGENCY, deadlines=[190, 195, 240], one_by_one=False))
        said: list[int] = []
        outcomes = list(sweep(found, executor, ahead=4, progress=lambda done, total, outcome: said.append(done)))
        self.assertEqual([it.name for it in outcomes], [it.name for it in found])
        self.assertEqual([it.verdict for it in outcomes],
                         [Plan.read(it.document).check() for it in found])
        self.assertEqual(said, list(range(1, len(found) + 1)))
        self.assertEqual({it.verdict.can for it in outcomes if it.verdict}, {Can.YES, Can.NO})

    def test_by_threads(self) -> None:
        with ThreadPoolExecutor(2) as executor:
            self.swept(executor)

    def test_by_processes(self) -> None:
        with ProcessPoolExecutor(2) as executor:
            self.swept(executor)

    @unittest.skipUnless(distributed, "needs python3-distributed")
    def test_by_workers_of_dask(self) -> None:
        warnings.simplefilter("ignore", DeprecationWarning)
        with mock.patch.dict(os.environ, PYTHONPATH=str(TOP)), \
                distributed.LocalCluster(n_workers=2, threads_per_worker=1, processes=True, dashboard_address=None,
                                         local_directory=self.folder) as cluster, \
                distributed.Client(cluster) as client:
            self.assertEqual(len(client.scheduler_info()["workers"]), 2)
            with client.get_executor() as executor:
                self.swept(executor)

    @unittest.skipUnless(reads_plans(), "the program reads no plans in sentences")
    def test_lengths_of_tasks(self) -> None:
        plan = Plan.of_sentences("deadline 90\ntask Dig 10..25\ntask Fill 5\nstep Look\nLook 2..9 after end of Dig\n")
        found = {it.name: Plan.read(it.document) for it in variants(plan, one_by_one=False)}
        self.assertEqual(list(found), ["as planned", "all at their shortest", "all at their longest",
                                       "tasks at their longest"])
        self.assertEqual([it.most for it in found["tasks at their longest"].limits if it.most < 0], [-25, -5, -2])
        self.assertEqual([it.most for it in found["all at their longest"].limits if it.most < 0], [-25, -5, -9])

    def test_lengths(self) -> None:
        plan = Plan.load(EXAMPLES / "mission.graphml")
        self.assertEqual([(it.says, it.at_least.most, it.at_most.most) for it in ranges(plan)],
                         [("Drive to Sensor", -15, 40), ("Sensor to Drill", -2, 40)])
        found = {it.name: Plan.read(it.document) for it in variants(plan)}
        self.assertEqual(list(found), ["as planned", "all at their shortest", "all at their longest",
                                       "Drive to Sensor at its shortest, 15", "Drive to Sensor at its longest, 40",
                                       "Sensor to Drill at its shortest, 2", "Sensor to Drill at its longest, 40"])
        self.assertEqual([it.name for it in variants(plan, deadlines=[80, 90], one_by_one=False, site="Mars")][::3],
                         ["Mars: as planned, by 80", "Mars: as planned, by 90"])
        self.assertEqual(found["as planned"].digest, plan.digest)
        self.assertEqual([it.most for it in found["all at their longest"].limits if it.id in (1, 2, 3, 5)],
                         [-40, 40, 40, -40])
        self.assertEqual([it.most for it in found["all at their shortest"].limits if it.id in (1, 2, 3, 5)],
                         [-15, 15, 2, -2])

    def test_what_cannot_be_checked_stands_in_its_place(self) -> None:
        slow = self.script("time.sleep(60)")
        with ThreadPoolExecutor(2) as executor:
            found = list(sweep([Variant.of(CLINIC, "ward 1"), Variant("ward 2", b"none"), Variant.of(CLINIC, "ward 3")],
                               executor))
            late = list(sweep([Variant.of(CLINIC, "ward 1")], executor, seconds=0.5, program=slow))
        self.assertEqual([it.verdict is not None for it in found], [True, False, True])
        self.assertIsInstance(found[1].error, BadDocument)
        self.assertIsInstance(late[0].error, OutOfTime)

    def test_the_bar(self) -> None:
        stream, bar = io.StringIO(), Bar(4)
        with contextlib.redirect_stderr(stream):
            bar(1, 2, Outcome("a", None))
            bar(2, 2, Outcome("b", CLINIC.check()))
            Bar()(1, None, Outcome("c", CLINIC.check()))
        self.assertEqual(stream.getvalue(), "\r[##..] 1 of 2, 1 no yes\r[####] 2 of 2, 1 no yes\n\r1 done, 0 no yes")


if __name__ == "__main__":
    unittest.main()
