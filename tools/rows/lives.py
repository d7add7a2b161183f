"""Lives of a store in a file, each a run of the program: the slot of the commit that stands behind the last one, and what is recovered
of it. A slow program reads both from the file's bytes (tools/openings/slow_opening.py). What has to be there was worked out by hand."""
import os
import subprocess
import sys
import tempfile
from dataclasses import dataclass

sys.path.append(os.path.join(os.path.dirname(os.path.abspath(__file__)), "..", "openings"))
from commits import HOME_COMMITTED, OWING_COMMITTED, SLEEPER_COMMITTED, TWO_POINTS
from rows import SECONDS, STORE, contents, first_other, side_by_side, spelled
from shapes import ONE
from slow_opening import Log, find, newest, shape_of, slot_of

HOME_OPENED = """
    open | open commit 1 points 2 pairs 2
         | pair 1 10
         | pair 524289 20
"""
HOME_LOGGED = """
    open | open commit 2 points 2 pairs 2
         | pair 1 10
         | pair 524289 20
"""


@dataclass(frozen=True)
class Lives:
    name: str
    runs: tuple  # of each life its script and the answers, side by side
    recovered: str  # as the slow program tells it
    named: tuple = ()  # the lost ranges that the slot names: up to which address, and of which version


# a commit of one record in each life
COMMITS = (
    f"{ONE}\n0 up 1 10 | 0 #1 done\nk commit | k commit 1\nk finish | k finished 1 points 1",
    """
    open         | open commit 1 points 1 pairs 1
                 | pair 1 10
    0 up 1 11    | 0 #2 done
    k commit log | k commit 2
    k finish     | k finished 2 points 2
    """,
    """
    open      | open commit 2 points 2 pairs 1
              | pair 1 11
    0 up 1 12 | 0 #3 done
    k commit  | k commit 3
    k finish  | k finished 3 points 3
    """,
)

LIVES = (
    Lives("a commit", COMMITS[:1], "commit 1 tail 2 points 1, checkpoint 1 from 2 triples 1 area 1, lost, entries 1.0:1, pairs 1=10"),
    Lives(
        "a log commit behind it keeps its checkpoint",
        COMMITS[:2],
        "commit 2 tail 3 points 2, checkpoint 1 from 2 triples 1 area 1, lost, entries 1.0:2, pairs 1=11",
    ),
    Lives(
        "the next full commit writes to the other area",
        COMMITS,
        "commit 3 tail 4 points 3, checkpoint 3 from 4 triples 1 area 0, lost, entries 1.0:3, pairs 1=12",
    ),
    Lives(
        "two records of the next version lie in the commit's log, and its slot names no lost range",
        (HOME_COMMITTED,),
        "commit 1 tail 5 points 2, checkpoint 1 from 3 triples 1 area 1, lost 5:2, entries 1.0:2, pairs 1=10 524289=20",
    ),
    Lives(
        "a log commit writes no triples: its slot names the checkpoint of the commit before, and where that one's scan begins",
        (f"{HOME_COMMITTED}\n0 up 1 13 | 0 #6 done\nk commit log | k commit 2\nk finish | k finished 2 points 6",),
        "commit 2 tail 6 points 6, checkpoint 1 from 3 triples 1 area 1, lost, entries 1.0:5, pairs 1=13 524289=21",
    ),
    Lives(
        "what two sessions have updated behind their points, and behind the commit, is not recovered",
        (f"{TWO_POINTS}\n0 up 2 30 | 0 #4 done\n1 up 3 40 | 1 #5 done",),
        "commit 1 tail 4 points 2 3, checkpoint 1 from 3 triples 2 area 1, lost 4:2, entries 1.0:1 2.0:2, pairs 1=15 2=22",
    ),
    Lives(
        "a sleeper wakes in the version behind the third commit, and what it updates then is lost",
        (SLEEPER_COMMITTED,),
        "commit 3 tail 5 points 2 1, checkpoint 3 from 4 triples 2 area 1, lost 5:4, entries 1.0:3 2.0:1, pairs 1=11 2=20",
    ),
    Lives(
        "the update that was pending is in the commit, though it was made behind one in the next version, which waited for it",
        (OWING_COMMITTED,),
        "commit 1 tail 7 points 5 0, checkpoint 1 from 5 triples 4 area 1, lost 7:2, entries 1.0:5 2.0:2 3.0:3 4.0:4, pairs 1=11 2=0 3=0 4=0",
    ),
    Lives(
        "the second life writes over the record that the first one lost",
        (
            f"{ONE}\n0 up 1 10 | 0 #1 done\nk commit | k commit 1\nk finish | k finished 1 points 1\n0 up 1 11 | 0 #2 done",
            """
            open     | open commit 1 points 1 pairs 1
                     | pair 1 10
            0 up 2 5 | 0 #2 done
            0 del 1  | 0 #3 done
            k commit | k commit 2
            k finish | k finished 2 points 3
            """,
        ),
        "commit 2 tail 4 points 3, checkpoint 2 from 4 triples 2 area 0, lost, entries 1.0:3 2.0:2, pairs 2=5",
    ),
    Lives(
        "the log commit of the second life uses the checkpoint of the first one, and its slot names the records that were lost behind it",
        (HOME_COMMITTED, f"{HOME_OPENED}\n0 up 1 13 | 0 #3 done\nk commit log | k commit 2\nk finish | k finished 2 points 3"),
        "commit 2 tail 6 points 3, checkpoint 1 from 3 triples 1 area 1, lost 5:2, entries 1.0:5, pairs 1=13 524289=20",
        ((5, 2),),
    ),
    Lives(
        "nothing is updated in the second life: the entry is where it was, below the lost records",
        (
            HOME_COMMITTED,
            f"{HOME_OPENED}\nk commit log | k commit 2\nk finish | k finished 2 points 2",
            f"""{HOME_LOGGED}
            0 get 524289 | 0 get 524289 pending @1
            k turn       | k turn rest 3
            0 poll       | 0 @1 get 524289 = 20
                         | 0 poll left 0
            """,
        ),
        "commit 2 tail 5 points 2, checkpoint 1 from 3 triples 1 area 1, lost 5:2, entries 1.0:2, pairs 1=10 524289=20",
        ((5, 2),),
    ),
)


def lived(program, folder, text):
    """What one life answers otherwise than it has to; none where it answers so."""
    script, wanted = map(spelled, side_by_side(text))
    run = subprocess.run([program, "--file", STORE], input=script, cwd=folder, capture_output=True, timeout=SECONDS)
    if run.stdout != wanted:
        return first_other(run.stdout, wanted)
    return f"status {run.returncode}, and {run.stderr!r}" if run.returncode or run.stderr else None


def said(image):
    """What is recovered of an image, and the lost ranges that its newest slot names."""
    found = find(image)
    shape = shape_of(image)
    slot = slot_of(image, shape, newest(image)) if shape else None
    return (found[0] if len(found) == 1 else found), tuple(Log(image, shape, slot).slot.lost) if slot else None


def difference(program, lives):
    with tempfile.TemporaryDirectory() as folder:
        for number, text in enumerate(lives.runs, 1):
            if other := lived(program, folder, text):
                return f"life {number}: {other}"
        found = said(contents(os.path.join(folder, STORE)))
    wanted = lives.recovered, lives.named
    return None if found == wanted else f"the file holds {found}, and not {wanted}"


def lives(program):
    """How many there are, and what is otherwise."""
    others = [(it.name, difference(program, it)) for it in LIVES]
    return len(LIVES), [f"{name}: {other}" for name, other in others if other]
