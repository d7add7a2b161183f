"""Commits of both kinds, and sessions that sleep through them."""
from rows import Row, told, whole
from shapes import FOUR, ONE, SMALL, SMALL_TWO, TWO

# two keys of one home, updated before a commit's point and behind it
HOME_COMMITTED = f"""
    {ONE}
    0 up 1 10      | 0 #1 done
    0 up 524289 20 | 0 #2 done
    k commit       | k commit 1
    0 refresh      | 0 refresh prepare 1
    k turn         | k turn in-progress 2
    0 refresh      | 0 refresh in-progress 2
    0 up 1 11      | 0 #3 done
    0 up 524289 21 | 0 #4 done
    0 up 1 12      | 0 #5 done
    k finish       | k finished 1 points 2"""
HOME = f"""{HOME_COMMITTED}
    crash          | crash commit 1 points 2 pairs 2
                   | pair 1 10
                   | pair 524289 20
"""
TWO_POINTS = f"""
    {TWO}
    0 up 1 10   | 0 #1 done
    1 up 2 20   | 1 #1 done
    k commit    | k commit 1
    0 refresh   | 0 refresh prepare 1
    0 add 1 5   | 0 #2 = 15
    k turn      | k turn prepare 1
    1 refresh   | 1 refresh prepare 1
    1 up 2 21   | 1 #2 done
    k turn      | k turn in-progress 2
    0 refresh   | 0 refresh in-progress 2
    0 add 1 100 | 0 #3 = 115
    1 up 2 22   | 1 #3 done
    1 up 1 7    | 1 #4 done
    k finish    | k finished 1 points 2 3"""
STAND = """
    crash       | crash commit 1 points 2 3 pairs 2
                | pair 1 15
                | pair 2 22
"""
NOBODY_STOPS = TWO_POINTS + STAND
SLEEPER_COMMITTED = f"""
    {TWO}
    1 up 2 20 | 1 #1 done
    1 sleep   | 1 sleep
    0 up 1 10 | 0 #1 done
    k commit  | k commit 1
    k finish  | k finished 1 points 1 1
    0 up 1 11 | 0 #2 done
    k commit  | k commit 2
    k finish  | k finished 2 points 2 1
    k commit  | k commit 3
    0 refresh | 0 refresh prepare 3
    k turn    | k turn in-progress 4
    1 wake    | 1 wake in-progress 4
    1 up 2 21 | 1 #2 done
    1 sleep   | 1 sleep
    k finish  | k finished 3 points 2 1"""
SLEEPER = f"""{SLEEPER_COMMITTED}
    crash     | crash commit 3 points 2 1 pairs 2
              | pair 1 11
              | pair 2 20
"""
OWING_COMMITTED = f"""
    {SMALL_TWO}
    {FOUR}
    k turn      | k turn rest 1
    0 refresh   | 0 refresh rest 1
    0 add 1 1   | 0 #5 pending
    k commit    | k commit 1
    0 refresh   | 0 refresh prepare 1
    1 refresh   | 1 refresh prepare 1
    k turn      | k turn in-progress 2
    1 refresh   | 1 refresh in-progress 2
    1 add 1 100 | 1 #1 pending
    0 refresh   | 0 refresh in-progress 2
    0 poll      | 0 poll left 1
    k turn      | k turn wait-pending 2
    1 poll      | 1 poll left 1
    0 poll      | 0 #5 = 11
                | 0 poll left 0
    1 poll      | 1 #1 = 111
                | 1 poll left 0
    k finish    | k finished 1 points 5 0"""
OWING = f"""{OWING_COMMITTED}
    crash       | crash commit 1 points 5 0 pairs 4
                | pair 1 11
                | pair 2 0
                | pair 3 0
                | pair 4 0
"""

COMMITS = [
    told("a crash without a commit", f"{TWO}\ncrash | crash commit 0 points 0 0 pairs 0"),
    told(
        "commits of nothing",
        f"""
        {ONE}
        k commit | k commit 1
        k commit | k refused 10 CommitRunning
        k finish | k finished 1 points 0
        k finish | k finish nothing
        crash    | crash commit 1 points 0 pairs 0
        """,
    ),
    told(
        "an update behind a commit is lost",
        f"""
        {ONE}
        0 up 1 10 | 0 #1 done
        0 get 1   | 0 get 1 = 10
        k commit  | k commit 1
        k finish  | k finished 1 points 1
        0 up 1 11 | 0 #2 done
        crash     | crash commit 1 points 1 pairs 1
                  | pair 1 10
        """,
    ),
    told("a commit that stops nobody, and a point for each session", NOBODY_STOPS),
    told(
        "updates behind the points and behind the commit are gone",
        f"""{TWO_POINTS}
        0 up 2 30 | 0 #4 done
        1 up 3 40 | 1 #5 done
        {STAND}
        """,
    ),
    told("a session that sleeps through two commits and wakes in a third", SLEEPER),
    told("records of the next version are left out", HOME),
    told("a commit waits for the update that a session owes", OWING),
    told(
        "a life goes on where the one before it was committed",
        f"""
        {ONE}
        0 up 1 10 | 0 #1 done
        k commit  | k commit 1
        k finish  | k finished 1 points 1
        0 up 1 11 | 0 #2 done
        crash     | crash commit 1 points 1 pairs 1
                  | pair 1 10
        0 up 2 5  | 0 #2 done
        0 del 1   | 0 #3 done
        k commit  | k commit 2
        k finish  | k finished 2 points 3
        crash     | crash commit 2 points 3 pairs 1
                  | pair 2 5
        """,
    ),
    told(
        "keys are deleted, set again and deleted again",
        f"""
        {ONE}
        0 del 9  | 0 #1 done
        0 up 9 1 | 0 #2 done
        k commit | k commit 1
        k finish | k finished 1 points 2
        0 del 9  | 0 #3 done
        crash    | crash commit 1 points 2 pairs 1
                 | pair 9 1
        0 del 9  | 0 #3 done
        k commit | k commit 2
        k finish | k finished 2 points 3
        crash    | crash commit 2 points 3 pairs 0
        """,
    ),
    told(
        "a session that turns late holds up the commit alone",
        f"""
        {TWO}
        0 up 1 10 | 0 #1 done
        k commit  | k commit 1
        k turn    | k turn prepare 1
        0 refresh | 0 refresh prepare 1
        k turn    | k turn prepare 1
        1 refresh | 1 refresh prepare 1
        k turn    | k turn in-progress 2
        """,
    ),
    told(
        "a session falls asleep in prepare",
        f"""
        {TWO}
        1 up 2 20 | 1 #1 done
        k commit  | k commit 1
        1 refresh | 1 refresh prepare 1
        1 up 2 21 | 1 #2 done
        1 sleep   | 1 sleep
        k turn    | k turn prepare 1
        0 refresh | 0 refresh prepare 1
        k turn    | k turn in-progress 2
        1 wake    | 1 wake in-progress 2
        1 up 2 22 | 1 #3 done
        k finish  | k finished 1 points 0 2
        crash     | crash commit 1 points 0 2 pairs 1
                  | pair 2 21
        """,
    ),
    told(
        "an update that waited ends in prepare, and its record is copied behind the point",
        f"""
        {SMALL_TWO}
        {FOUR}
        k turn      | k turn rest 1
        0 refresh   | 0 refresh rest 1
        0 add 1 1   | 0 #5 pending
        1 refresh   | 1 refresh rest 1
        k commit    | k commit 1
        0 refresh   | 0 refresh prepare 1
        k turn      | k turn prepare 1
        0 poll      | 0 #5 = 11
                    | 0 poll left 0
        1 refresh   | 1 refresh prepare 1
        k turn      | k turn in-progress 2
        1 refresh   | 1 refresh in-progress 2
        1 add 1 100 | 1 #1 = 111
        """,
    ),
    told(
        "two updates of one home end in prepare, and its record is copied behind the point of both",
        f"""
        {SMALL_TWO}
        {FOUR}
        k turn      | k turn rest 1
        0 refresh   | 0 refresh rest 1
        1 refresh   | 1 refresh rest 1
        0 add 1 1   | 0 #5 pending
        1 add 1 2   | 1 #1 pending
        k commit    | k commit 1
        0 refresh   | 0 refresh prepare 1
        1 refresh   | 1 refresh prepare 1
        k turn      | k turn in-progress 2
        0 poll      | 0 #5 = 11
                    | 0 poll left 0
        1 poll      | 1 #1 = 13
                    | 1 poll left 0
        1 refresh   | 1 refresh in-progress 2
        1 add 1 100 | 1 #2 = 113
        0 get 1     | 0 get 1 = 113
        """,
    ),
    told(
        "thirty-two sessions, and none more",
        f"""
        shape 4 16 4 2 32 0 64
        31 up 1 10 | 31 #1 done
        32 get 1   | 32 refused 19 NoSession
        k commit   | k commit 1
        k finish   | k finished 1 points{' 0' * 31} 1
        crash      | crash commit 1 points{' 0' * 31} 1 pairs 1
                   | pair 1 10
        """,
    ),
]

LOG_COMMITS = [
    told(
        "a log commit behind a full one",
        f"""{HOME_COMMITTED}
        0 up 1 13    | 0 #6 done
        k commit log | k commit 2
        k finish     | k finished 2 points 6
        crash        | crash commit 2 points 6 pairs 2
                     | pair 1 13
                     | pair 524289 21
        """,
    ),
    told(
        "a log commit behind a crash that lost records",
        f"""{HOME}
        0 up 1 13    | 0 #3 done
        k commit log | k commit 2
        k finish     | k finished 2 points 3
        crash        | crash commit 2 points 3 pairs 2
                     | pair 1 13
                     | pair 524289 20
        """,
    ),
    told(
        "a log commit of nothing behind a crash that lost records",
        f"""{HOME}
        k commit log | k commit 2
        k finish     | k finished 2 points 2
        crash        | crash commit 2 points 2 pairs 2
                     | pair 1 10
                     | pair 524289 20
        0 get 524289 | 0 get 524289 pending @1
        k turn       | k turn rest 3
        0 poll       | 0 @1 get 524289 = 20
                     | 0 poll left 0
        crash        | crash commit 2 points 2 pairs 2
                     | pair 1 10
                     | pair 524289 20
        """,
    ),
    told(
        "the copy that a log commit stands on is not written over",
        f"""
        {ONE}
        0 up 1 10    | 0 #1 done
        k commit     | k commit 1
        k finish     | k finished 1 points 1
        0 up 1 11    | 0 #2 done
        k commit log | k commit 2
        k finish     | k finished 2 points 2
        0 up 1 12    | 0 #3 done
        crash 3
        k commit     | k commit 3
        k finish     | crash commit 2 points 2 pairs 1
                     | pair 1 11
        """,
        "--torn 165",
    ),
    told(
        "nine losses, and no room for one more",
        ONE
        + "".join(
            f"""
            k commit log | k commit {number}
            0 refresh    | 0 refresh prepare {number}
            k turn       | k turn in-progress {number + 1}
            0 refresh    | 0 refresh in-progress {number + 1}
            0 up 1 1     | 0 #1 done
            k finish     | k finished {number} points 0
            crash        | crash commit {number} points 0 pairs 0
            """.rstrip()
            for number in range(1, 10)
        )
        + """
        0 get 1      | 0 get 1 absent
        k commit log | k refused 21 LostFull
        k commit     | k commit 10
        k finish     | k finished 10 points 0
        k commit log | k commit 11
        k finish     | k finished 11 points 0
        k finish     | k finish nothing
        """,
    ),
]

# under seeds each report of a crash agrees with the replay of what the points keep
INTERLEAVED = [("nobody stops", NOBODY_STOPS), ("a sleeper", SLEEPER), ("one home", HOME), ("an update is owed", OWING)]
AGREES = "check recovered equals replay\n"


def interleaved():
    for name, text in INTERLEAVED:
        for seed in range(100):
            row = told(f"{name}, seed {seed}", text, f"--check --seed {seed}")
            yield Row(row.name, row.script, AGREES, words=row.words, ends=True)


# One turn reads one record from the device, so each round of a finish ends one of the sums that wait for theirs.
SERVED = ["k turn", "0 refresh", "k turn", "0 poll"]


def rounds(sums, wanted):
    """So many sums of keys whose records have left memory, and a commit that has to wait for them."""
    lines = [SMALL]
    for key in range(1, 73):
        lines += [f"0 up {key} {key}", *(SERVED if key % 4 == 0 else [])]
    lines += [*SERVED, "0 refresh", *(f"0 add {key} 1" for key in range(1, sums + 1)), "k commit", "k finish"]
    return Row(f"a finish with {sums} sums that wait", whole(lines), whole([wanted]), ends=True)


# two rounds more take the commit to its end, and 64 are all that a finish makes
ROUNDS = [rounds(62, "k finished 1 points 134"), rounds(63, "k finish not finished")]


def commits():
    return [*COMMITS, *LOG_COMMITS, *ROUNDS, *interleaved()]
