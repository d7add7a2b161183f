"""A store near its last commit, which a renewal lets live on; and one whose serials are spent, which it doesn't."""
from files import Pair, need, played, renew
from samples import Commit, Sample

NUMBER = 8189
VERSION = 1 << 48
LAST_SERIAL = 2**48 - 1


def aged_store(point=2):
    """Two keys, and the two newest commits that a store of that age has."""
    commits = (
        Commit(NUMBER - 1, 1, 2, (1,), triples=()),
        Commit(NUMBER, 1, 3, (point,), triples=()),
    )
    records = (((NUMBER - 1) * VERSION, 1, 10), (NUMBER * VERSION, 2, 20))
    return Sample(commits=commits, records=records).image()


def lives_on(folder):
    pair = Pair(folder, aged_store())
    pairs = ["pair 1 10", "pair 2 20", "pair 3 30"]
    first = "open\n0 up 3 30\nk commit\nk finish\nk commit\n"
    wanted = [
        f"open commit {NUMBER} points 2 pairs 2",
        *pairs[:2],
        "0 #3 done",
        f"k commit {NUMBER + 1}",
        f"k finished {NUMBER + 1} points 3",
        "k refused 6 VersionsSpent",
    ]
    need("one commit more", played(pair.old, first), (0, wanted))
    spent = [f"open commit {NUMBER + 1} points 3 pairs 3", *pairs, "k refused 6 VersionsSpent"]
    need("another commit", played(pair.old, "open\nk commit\n"), (0, spent))
    status, output, _ = renew(pair.old, pair.new)
    need("a renewal", (status, output.splitlines()[-1]), (0, "commits left 0 now 8189"))
    need("the old store behind it", played(pair.old, "open\nk commit\n"), (0, spent))
    going_on = ["open commit 1 points 3 pairs 3", *pairs, "0 #4 done", "k commit 2", "k finished 2 points 4"]
    need("the new store", played(pair.new, "open\n0 up 4 40\nk commit\nk finish\n"), (0, going_on))
    need("it behind that", played(pair.new, "open\n"), (0, ["open commit 2 points 4 pairs 4", *pairs, "pair 4 40"]))


def stay_spent(folder):
    pair = Pair(folder, aged_store(LAST_SERIAL))
    need("a renewal", renew(pair.old, pair.new)[0], 0)
    for path, number in ((pair.old, NUMBER), (pair.new, 1)):
        lines = [f"open commit {number} points {LAST_SERIAL} pairs 2", "pair 1 10", "pair 2 20", "0 refused 7 SerialsSpent"]
        need("spent serials", played(path, "open\n0 up 1 1\n"), (0, lines))


def aged(folder):
    """How many of these there are; it ends the program where one goes wrong."""
    checks = (lives_on, stay_spent)
    for check in checks:
        check(folder)
    return len(checks)
