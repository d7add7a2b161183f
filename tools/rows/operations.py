"""Operations of sessions, requests that wait, and how much a script may hold."""
from rows import Row, told, whole
from shapes import FOUR, LARGE_ONE, LARGE_TWO, ONE, SEVEN, SMALL, SMALL_TWO

MOST = 2**64 - 1

# a page that is full is flushed, and its frame can be used again
TURNED = whole(["k turn | k turn rest 1", "0 refresh | 0 refresh rest 1"] * 3)

# `answers_are_not_refusals` is shown by these: memory and device are there, and the lines are answered.
OPERATIONS = [
    told("a value is set and read", f"{ONE}\n0 up 1 10 | 0 #1 done\n0 get 1 | 0 get 1 = 10"),
    Row("the last line needs no end", f"{ONE}\n0 up 1 10\n0 get 1", "0 #1 done\n0 get 1 = 10\n"),
    told(
        "a sum, and one that begins anew",
        f"""
        {ONE}
        0 add 5 7 | 0 #1 = 7
        0 add 5 7 | 0 #2 = 14
        0 del 5   | 0 #3 done
        0 get 5   | 0 get 5 absent
        0 add 5 1 | 0 #4 = 1
        """,
    ),
    told(
        "the greatest value, and one above it",
        f"""
        {ONE}
        0 up 1 {MOST}     | 0 refused 2 ValueReserved
        0 up 1 {MOST - 1} | 0 #1 done
        0 add 1 1         | 0 #2 = {MOST - 1}
        0 max 1 5         | 0 #3 = {MOST - 1}
        0 max 2 0         | 0 #4 = 0
        """,
    ),
    told(
        "two keys of one home",
        f"""
        {ONE}
        0 up 3 30      | 0 #1 done
        0 up 524291 40 | 0 #2 done
        0 del 3        | 0 #3 done
        0 get 3        | 0 get 3 absent
        0 get 524291   | 0 get 524291 = 40
        """,
    ),
    told(
        "an index that is full",
        "shape 0 16 4 2 1 0 64\n"
        + whole(f"0 up {key} 1 | 0 #{key} done" for key in range(1, 8))
        + "0 up 8 1 | 0 refused 4 IndexFull\n0 up 1 2 | 0 #8 done",
    ),
    told(
        "an overflow bucket takes one more",
        "shape 0 16 4 2 1 1 64\n" + whole(f"0 up {key % 9 + key // 9} 1 | 0 #{key} done" for key in range(1, 10)),
    ),
    told(
        "a log that is full, and a session that the shape hasn't",
        """
        shape 4 4 2 1 1 0 1
        0 up 1 1 | 0 #1 done
        0 up 2 2 | 0 #2 done
        0 up 3 3 | 0 #3 done
        0 up 4 4 | 0 refused 5 LogFull
        0 up 1 5 | 0 #4 done
        9 get 1  | 9 refused 19 NoSession
        """,
    ),
    told(
        "an index and a log that are full",
        "shape 0 8 2 1 1 0 1\n"
        + whole(f"0 up {key} {10 * key} | 0 #{key} done" for key in range(1, 8))
        + f"""
        0 up 8 {MOST}   | 0 refused 2 ValueReserved
        0 up 8 80       | 0 refused 4 IndexFull
        0 add 32769 1   | 0 refused 5 LogFull
        0 get 8         | 0 get 8 absent
        0 get 32769     | 0 get 32769 absent
        0 up 1 11       | 0 #8 done
        0 get 1         | 0 get 1 = 11
        """,
    ),
    told("a number is printed as a number", f"# a comment\n\n{ONE}\n007 get 1 | 7 refused 19 NoSession\n  0  get   1 | 0 get 1 absent"),
    told(
        "zeros before a number, and the greatest session",
        f"""
        {ONE}
        000 up 001 010              | 0 #1 done
        007 get 1                   | 7 refused 19 NoSession
        18446744073709551615 max 1 2 | 18446744073709551615 refused 19 NoSession
        crash 0018446744073709551615
        0 get 1                     | 0 get 1 = 10
                                    | crash commit 0 points 0 pairs 0
        """,
    ),
    Row("spaces before a line, and more than one between words", f"{ONE}\n  0  get   1\n", "0 get 1 absent\n"),
]

PENDING = [
    told(
        "a read that waits for the disk",
        f"""
        {SMALL}
        {SEVEN}
        k turn    | k turn rest 1
        0 refresh | 0 refresh rest 1
        k turn    | k turn rest 1
        0 refresh | 0 refresh rest 1
        k turn    | k turn rest 1
        0 up 8 80 | 0 #8 done
        0 get 1   | 0 get 1 pending @1
        k turn    | k turn rest 1
        0 poll    | 0 @1 get 1 = 10
                  | 0 poll left 0
        0 get 8   | 0 get 8 = 80
        """,
    ),
    told(
        "an update waits until all have seen that its page is read-only",
        f"""
        {SMALL_TWO}
        {FOUR}
        k turn    | k turn rest 1
        0 refresh | 0 refresh rest 1
        0 add 1 1 | 0 #5 pending
        k turn    | k turn rest 1
        0 poll    | 0 poll left 1
        1 refresh | 1 refresh rest 1
        k turn    | k turn rest 1
        0 poll    | 0 #5 = 11
                  | 0 poll left 0
        0 get 1   | 0 get 1 = 11
        """,
    ),
    told(
        "who has a request left doesn't sleep",
        f"""
        {SMALL}
        {SEVEN}
        0 up 8 80 | 0 #8 pending
        0 sleep   | 0 refused 11 PendingLeft
        0 poll    | 0 poll left 1
        k turn    | k turn rest 1
        0 refresh | 0 refresh rest 1
        k turn    | k turn rest 1
        0 refresh | 0 refresh rest 1
        k turn    | k turn rest 1
        0 poll    | 0 #8 done
                  | 0 poll left 0
        0 sleep   | 0 sleep
        0 get 8   | 0 refused 12 Asleep
        0 wake    | 0 wake rest 1
        0 wake    | 0 refused 20 Awake
        """,
    ),
    told(
        "a session turns pages beside the keeper",
        f"""
        {SMALL}
        {SEVEN}
        0 up 8 80 | 0 #8 pending
        0 refresh | 0 refresh rest 1
        0 poll    | 0 poll left 1
        k turn    | k turn rest 1
        0 refresh | 0 refresh rest 1
        0 poll    | 0 poll left 1
        0 poll    | 0 #8 done
                  | 0 poll left 0
        """,
    ),
    told(
        "one turn of a session for two updates that find no room",
        f"""
        {SMALL}
        {SEVEN}
        0 up 8 80 | 0 #8 pending
        0 up 9 90 | 0 #9 pending
        0 refresh | 0 refresh rest 1
        k turn    | k turn rest 1
        0 refresh | 0 refresh rest 1
        0 poll    | 0 poll left 2
        0 poll    | 0 #8 done
                  | 0 #9 done
                  | 0 poll left 0
        """,
    ),
    told(
        "records on the disk come one after another, and one of another key of the home is none",
        f"""
        {SMALL}
        {SEVEN}
        k turn       | k turn rest 1
        0 refresh    | 0 refresh rest 1
        k turn       | k turn rest 1
        0 refresh    | 0 refresh rest 1
        k turn       | k turn rest 1
        0 refresh    | 0 refresh rest 1
        0 up 8 80    | 0 #8 done
        0 get 1      | 0 get 1 pending @1
        0 add 2 5    | 0 #9 pending
        0 get 524289 | 0 get 524289 pending @2
        k turn       | k turn rest 1
        0 poll       | 0 @1 get 1 = 10
                     | 0 poll left 2
        k turn       | k turn rest 1
        0 poll       | 0 #9 = 25
                     | 0 poll left 1
        k turn       | k turn rest 1
        0 poll       | 0 @2 get 524289 absent
                     | 0 poll left 0
        0 get 2      | 0 get 2 = 25
        """,
    ),
    told(
        "sixty-four requests wait, and no more, until a poll has finished some",
        f"{SMALL}\n{SEVEN}\n"
        + whole(f"0 up {key} {key} | 0 #{key} pending" for key in range(8, 72))
        + f"""
        0 up 72 {MOST} | 0 refused 2 ValueReserved
        0 up 72 72     | 0 refused 3 PendingFull
        0 del 1        | 0 refused 3 PendingFull
        0 get 1        | 0 refused 3 PendingFull
        0 sleep        | 0 refused 11 PendingLeft
        0 wake         | 0 refused 20 Awake
        0 refresh      | 0 refresh rest 1
        0 poll         | 0 poll left 64
        k turn         | k turn rest 1
        0 refresh      | 0 refresh rest 1
        0 poll         | 0 poll left 64
        0 up 72 72     | 0 refused 3 PendingFull
        0 poll         | 0 #8 done
                       | 0 #9 done
                       | 0 #10 done
                       | 0 #11 done
                       | 0 poll left 60
        0 sleep        | 0 refused 11 PendingLeft
        0 get 1        | 0 get 1 pending @1
        0 get 8        | 0 get 8 = 8
        """,
    ),
    told(
        "an update that waits goes on waiting where the log gets full",
        f"""
        shape 4 4 2 1 2 0 2
        {FOUR}
        k turn    | k turn rest 1
        0 refresh | 0 refresh rest 1
        0 add 1 1 | 0 #5 pending
        1 up 5 10 | 1 #1 done
        1 up 6 10 | 1 #2 done
        1 up 7 10 | 1 #3 done
        1 up 8 10 | 1 refused 5 LogFull
        1 refresh | 1 refresh rest 1
        k turn    | k turn rest 1
        0 poll    | 0 poll left 1
        0 sleep   | 0 refused 11 PendingLeft
        """,
    ),
    told(
        "frames are used again up to the end of the log, and each record is on the device",
        "shape 4 4 2 1 1 0 8\n"
        + "".join(f"0 up {key} {key} | 0 #{key} done\n" + TURNED * (key % 4 == 3) for key in range(1, 32))
        + "0 up 32 32 | 0 refused 5 LogFull\n"
        + "".join(
            f"""
            0 get {key} | 0 get {key} pending @{key}
            k turn      | k turn rest 1
            0 poll      | 0 @{key} get {key} = {key}
                        | 0 poll left 0
            """
            for key in range(1, 24)
        )
        + "0 get 24 | 0 get 24 = 24",
    ),
    told(
        "each drain slot is held",
        "shape 4 4 64 1 2 0 64\n"
        + "".join(
            whole(f"0 up {key} {key} | 0 #{key} done" for key in range(4 * turn - 3, 4 * turn + 1))
            + f"k turn | k turn rest 1{' drain full' * (turn == 9)}\n"
            for turn in range(1, 10)
        )
        + """
        k commit  | k refused 9 DrainFull
        0 refresh | 0 refresh rest 1
        1 refresh | 1 refresh rest 1
        k turn    | k turn rest 1
        k commit  | k commit 1
        """,
    ),
]

# merges stand behind `large` alone
MERGES = [
    told(
        "merges of keys without a value",
        f"""
        {LARGE_ONE}
        0 keep 1      | 0 #1 absent
        0 get 1       | 0 get 1 absent
        0 min 2 7     | 0 #2 = 7
        0 sub 3 7     | 0 #3 = 0
        0 and 4 7     | 0 #4 = 0
        0 or 5 7      | 0 #5 = 7
        0 first 6 7   | 0 #6 = 7
        0 get 2       | 0 get 2 = 7
        0 get 3       | 0 get 3 = 0
        0 get 4       | 0 get 4 = 0
        0 get 5       | 0 get 5 = 7
        0 get 6       | 0 get 6 = 7
        """,
    ),
    told(
        "merges of a key with a value",
        f"""
        {LARGE_ONE}
        0 up 1 12     | 0 #1 done
        0 keep 1      | 0 #2 = 12
        0 min 1 20    | 0 #3 = 12
        0 min 1 10    | 0 #4 = 10
        0 or 1 5      | 0 #5 = 15
        0 and 1 6     | 0 #6 = 6
        0 sub 1 2     | 0 #7 = 4
        0 first 1 9   | 0 #8 = 4
        0 sub 1 5     | 0 #9 = 0
        0 first 1 9   | 0 #10 = 0
        0 del 1       | 0 #11 done
        0 keep 1      | 0 #12 absent
        0 first 1 9   | 0 #13 = 9
        0 get 1       | 0 get 1 = 9
        """,
    ),
    told(
        "merges and the greatest value, and the one above it",
        f"""
        {LARGE_ONE}
        0 min 1 {MOST}       | 0 refused 2 ValueReserved
        0 sub 1 {MOST}       | 0 refused 2 ValueReserved
        0 and 1 {MOST}       | 0 refused 2 ValueReserved
        0 or 1 {MOST}        | 0 refused 2 ValueReserved
        0 first 1 {MOST}     | 0 refused 2 ValueReserved
        0 or 1 {MOST - 1}    | 0 #1 = {MOST - 1}
        0 or 1 1             | 0 #2 = {MOST - 1}
        0 and 1 {MOST - 1}   | 0 #3 = {MOST - 1}
        0 up 1 {2**63}       | 0 #4 done
        0 or 1 {2**63 - 1}   | 0 #5 = {MOST - 1}
        0 sub 1 1            | 0 #6 = {MOST - 2}
        0 keep {MOST}        | 0 #7 absent
        """,
    ),
    told(
        "merges of two sessions, and a commit that keeps them",
        f"""
        {LARGE_TWO}
        0 min 1 30 | 0 #1 = 30
        1 min 1 20 | 1 #1 = 20
        0 or 2 1   | 0 #2 = 1
        1 or 2 2   | 1 #2 = 3
        1 keep 3   | 1 #3 absent
        k commit   | k commit 1
        k finish   | k finished 1 points 2 3
        0 sub 1 5  | 0 #3 = 15
        crash      | crash commit 1 points 2 3 pairs 2
                   | pair 1 20
                   | pair 2 3
        """,
    ),
    *(
        told(
            f"merges that wait for the disk, behind {opening}",
            f"""
            {opening}
            0 up 1 12   | 0 #1 done
            0 up 2 20   | 0 #2 done
            0 up 3 30   | 0 #3 done
            0 up 4 40   | 0 #4 done
            0 up 5 50   | 0 #5 done
            0 up 6 60   | 0 #6 done
            0 up 7 70   | 0 #7 done
            k turn      | k turn rest 1
            0 refresh   | 0 refresh rest 1
            k turn      | k turn rest 1
            0 refresh   | 0 refresh rest 1
            k turn      | k turn rest 1
            0 refresh   | 0 refresh rest 1
            k turn      | k turn rest 1
            0 up 8 80   | 0 #8 done
            0 sub 1 2   | 0 #9 pending
            0 keep 2    | 0 #10 pending
            k turn      | k turn rest 1
            0 poll      | 0 #9 = 10
                        | 0 poll left 1
            k turn      | k turn rest 1
            0 poll      | 0 #10 = 20
                        | 0 poll left 0
            """,
        )
        for opening in ("large 4 4 2 1 1 0 64", "large 11 4 2 1 1 0 64")
    ),
]

LIMITS = [
    Row("an empty script", "", ""),
    Row("lines that say nothing", "\n  \n# open\n", ""),
    Row("a line of 200 bytes", "#" * 200, ""),
    Row("a line of 200 bytes and its end", "#" * 200 + "\n", ""),
    Row("65,536 lines", "\n" * 65536, ""),
    Row("65,536 lines that are answered", ONE + "\n9 get 1" * 65535, "9 refused 19 NoSession\n" * 65535),
]


def operations():
    return [*OPERATIONS, *PENDING, *MERGES, *LIMITS]
