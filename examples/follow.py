#!/usr/bin/env python3
"""Follows a plan whose result is late and then early, and goes on from its journal after a change of shift.

    examples/follow.py          CSTN of the environment names the program; without it the released one is taken
"""
import os
import sys
import tempfile

TOP = os.path.dirname(os.path.dirname(os.path.realpath(__file__)))
sys.path.insert(0, os.path.join(TOP, "python"))
from cstn import Did, Expect, Follower, Now, Plan, Saw, SqliteStore  # noqa: E402

EVENING = [Did("Sample", 5), Now(65), Expect("i", 90), Saw("i", True, 80)]
NIGHT = [Did("Antibiotic", 91), Did("Review", 211), Did("Discharge", 221)]

plan = Plan.load(os.path.join(TOP, "examples", "clinical-pathway.graphml"))
with tempfile.TemporaryDirectory() as folder:
    for shift in EVENING, NIGHT:
        store = SqliteStore(os.path.join(folder, "ward.db"))
        with Follower(plan, store.journal("patient 12")) as follower:
            print(follower.next())
            for event in shift:
                receipt = follower.tell(event)
                print(f"  {event}: {receipt.verdict}; {follower.next()}")
        store.close()
