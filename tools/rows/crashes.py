"""Crashes and failures at each device call of a commit, and twenty commits with a crash behind each."""
from rows import Row, told, whole
from shapes import ONE

CRASHES = [
    told(
        "the device fails for good, and sessions go on in memory",
        f"""
        {ONE}
        0 up 1 10 | 0 #1 done
        fail 1
        k commit  | k commit 1
        k finish  | k refused 14 Device
        0 up 1 11 | 0 #2 done
        0 get 1   | 0 get 1 = 11
        k turn    | k refused 13 Broken
        k commit  | k refused 13 Broken
        crash     | crash commit 0 points 0 pairs 0
        """,
    ),
    told(
        "a crash whose call doesn't come is taken at the end",
        f"""
        {ONE}
        0 up 1 10 | 0 #1 done
        crash 3
        crash 1000
        0 up 2 20 | 0 #2 done
        k commit  | k commit 1
        k finish  | k finished 1 points 2
        0 up 1 11 | 0 #3 done
                  | crash commit 1 points 2 pairs 2
                  | pair 1 10
                  | pair 2 20
        """,
    ),
    told(
        "a crash in place of a failure, and a failure in place of a crash",
        f"""
        {ONE}
        fail 1
        crash 1
        k commit | k commit 1
        k finish | crash commit 0 points 0 pairs 0
        crash 1
        fail 2
        k commit | k commit 1
        k finish | k refused 14 Device
        """,
    ),
    told(
        "a torn write of a gate that is closed opens nothing",
        f"""
        {ONE}
        0 up 1 10 | 0 #1 done
        k commit  | k commit 1
        k finish  | k finished 1 points 1
        0 up 1 11 | 0 #2 done
        crash 8
        k commit  | k commit 2
        k finish  | crash commit 1 points 1 pairs 1
                  | pair 1 10
        0 up 1 12 | 0 #2 done
        crash 5
        k commit  | k commit 2
        k finish  | crash commit 1 points 1 pairs 1
                  | pair 1 10
        """,
        "--torn 165",
    ),
]

KINDS = ("commit", "commit log")
# what stands when the swept commit is asked for
HISTORIES = [(), ("commit",), ("commit log",), ("commit", "commit log"), ("commit log", "commit"), ("commit", "commit")]
OPEN = 165  # the byte that opens a gate
TORN = (0, OPEN, 255)
AGREES = ["check recovered equals replay"]


def calls_of(number, kind, has_records):
    """The device calls of a commit in a life without a crash. Each write is synced before the next is made, and the copy is synced
    also where there is none. The gate of the slot is shut where it stands open: commit 1 has a slot that has never been opened, each
    other one that of an older commit."""
    calls = ["records", "sync"] if has_records else []
    calls += ["copy of the index"] if has_records and kind == "commit" else []
    calls += ["sync"]
    calls += ["gate is shut", "sync"] if number > 1 else []
    return [*calls, "slot", "sync", "gate is opened", "sync"]


def is_kept(calls, call, torn):
    """Whether the commit stands where the device fails at this call and is crashed.

    Until the gate is written its slot is closed, or open with an older commit, and nothing that the newest commit needs is written
    over: so that one stands, whatever the torn bytes hold. As long as the write of the gate isn't synced the gate is a torn byte, and
    open where torn bytes hold what opens a gate; all else of the commit is synced by then. Behind the last sync nothing can be torn."""
    return call > len(calls) or (call > calls.index("gate is opened") and torn == OPEN)


def report(number, point, pairs):
    """Of a crash of a store of one session, with its check."""
    return [f"crash commit {number} points {point} pairs {len(pairs)}", *(f"pair {key} {pairs[key]}" for key in sorted(pairs)), *AGREES]


def swept(history, kind, call, torn, way):
    """A commit behind others of these kinds, each of one update. The device fails at the call of this number: by `crash J`, or by
    `fail J` and a crash behind it, with one more commit in the next life."""
    script, answers = [ONE], []
    number = len(history) + 1
    for n, earlier in enumerate(history, 1):
        script += [f"0 up 1 {10 * n}", f"k {earlier}", "k finish"]
        answers += [f"0 #{n} done", f"k commit {n}", f"k finished {n} points {n}"]
    calls = calls_of(number, kind, True)
    script += [f"0 up 1 {10 * number}", f"{way} {call}", f"k {kind}", "k finish"]
    answers += [f"0 #{number} done", f"k commit {number}"]
    if call > len(calls):
        answers += [f"k finished {number} points {number}"]
    elif way == "fail":
        # and from then on it is broken, though the device would work again
        script += ["k turn", f"k {kind}", "k finish", "0 get 1"]
        answers += ["k refused 14 Device", "k refused 13 Broken", "k refused 13 Broken", "k refused 13 Broken", f"0 get 1 = {10 * number}"]
    stands = number if is_kept(calls, call, torn) else number - 1
    pairs = {1: 10 * stands} if stands else {}
    answers += report(stands, stands, pairs)
    if way == "fail":
        script += ["crash", "0 up 2 7", f"k {kind}", "k finish", "crash"]
        answers += [f"0 #{stands + 1} done", f"k commit {stands + 1}", f"k finished {stands + 1} points {stands + 1}"]
        answers += report(stands + 1, stands + 1, {**pairs, 2: 7})
    name = f"a {kind} behind {len(history)}, {way} {call}, torn bytes of {torn}"
    return Row(name, whole(script), whole(answers), words=("--check", "--torn", str(torn)))


def sweeps():
    for history in HISTORIES:
        for kind in KINDS:
            last = len(calls_of(len(history) + 1, kind, True))
            for call in range(1, last + 2):
                yield from (swept(history, kind, call, torn, way) for torn in TORN for way in ("crash", "fail"))


def of_nothing():
    """A first commit without an update has no record and no copy to write."""
    for kind in KINDS:
        calls = calls_of(1, kind, False)
        for call in range(1, len(calls) + 2):
            for torn in TORN:
                answers = ["k commit 1"] + ["k finished 1 points 0"] * (call > len(calls))
                answers += report(int(is_kept(calls, call, torn)), 0, {})
                name = f"a {kind} of nothing, crash {call}, torn bytes of {torn}"
                yield Row(name, whole([ONE, f"crash {call}", f"k {kind}", "k finish"]), whole(answers), words=("--check", "--torn", str(torn)))


# a commit that stands, and the next one in each of its phases
UNDER_WAY = f"""
    {ONE}
    0 up 1 10 | 0 #1 done
    k commit  | k commit 1
    k finish  | k finished 1 points 1
    0 up 1 11 | 0 #2 done
    k commit  | k commit 2
    0 refresh | 0 refresh prepare 2
    k turn    | k turn in-progress 3
    0 refresh | 0 refresh in-progress 3
    k turn    | k turn wait-pending 3
    k turn    | k turn wait-flush 3
    0 refresh | 0 refresh wait-flush 3
"""


def under_way():
    """The first commit stands where the life ends behind so many lines of the second one."""
    lines = UNDER_WAY.strip().splitlines()
    crash = ["crash | crash commit 1 points 1 pairs 1", "| pair 1 10", f"| {AGREES[0]}"]
    for count in range(4, len(lines) + 1):
        for torn in TORN:
            yield told(f"{count} lines of a commit, torn bytes of {torn}", whole([*lines[:count], *crash]), f"--check --torn {torn}")


def twenty():
    """Twenty commits, of which every third copies the index, each with an update in prepare, one behind the point and a crash behind
    it. The crash loses the update behind the point. From the second life on the sum waits for its record, which is on the disk."""
    script, answers, pairs, point = [ONE], [], {}, 0
    for number in range(1, 21):
        kind = KINDS[number % 3 > 0]
        pairs[1] = pairs.get(1, 0) + number
        pairs[10 + number % 7] = number
        steps = [("0 add 1 {0}", "0 #{1} pending"), ("k turn", "k turn rest {0}"), ("0 poll", "0 #{1} = {3}\n0 poll left 0")]
        steps = steps if number > 1 else [("0 add 1 {0}", "0 #{1} = {3}")]
        steps += [
            (f"k {kind}", "k commit {0}"),
            ("0 refresh", "0 refresh prepare {0}"),
            (f"0 up {10 + number % 7} {number}", "0 #{2} done"),
            ("k turn", "k turn in-progress {4}"),
            ("0 refresh", "0 refresh in-progress {4}"),
            ("0 up 1 999", "0 #{5} done"),
            ("k finish", "k finished {0} points {2}"),
            ("crash", ""),
        ]
        values = (number, point + 1, point + 2, pairs[1], number + 1, point + 3)
        script += [asked.format(*values) for asked, _ in steps]
        answers += [answer.format(*values) for _, answer in steps if answer]
        point += 2
        answers += report(number, point, pairs)
    for torn in TORN:
        yield Row(f"twenty commits, torn bytes of {torn}", whole(script), whole(answers), words=("--check", "--torn", str(torn)))


def crashes():
    return [*CRASHES, *sweeps(), *of_nothing(), *under_way(), *twenty()]
