"""Lives of a counter over one file, each ended by `kill -9`, and what the next opening has to find."""
import os
import random
import re
import subprocess
import sys
import threading
import time

# So many kills, and more until half of them have struck while a commit runs. One at least has lost adds.
KILLS = 20
# Within so many seconds of a commit's beginning a kill is aimed at it. Each that comes too late shortens this.
REACH, SHORTER = 0.002, 0.8
MOST_LIVES = 10 * KILLS
# A life that hasn't begun to add by then, or ends by itself, is a failure.
SECONDS = 20
WORKERS = 4


class Life:
    """A counter that runs, and what it has written."""

    def __init__(self, command, nicer=19):
        self.lines, self.news = [], threading.Condition()
        # (its threads may keep all processors, and who kills it wants one at once)
        self.process = subprocess.Popen(command, stdin=subprocess.DEVNULL, stdout=subprocess.PIPE, stderr=subprocess.PIPE, preexec_fn=lambda: os.nice(nicer))
        self.reader = threading.Thread(target=self.read)
        self.reader.start()

    def read(self):
        for line in self.process.stdout:
            with self.news:
                self.lines.append(line.decode())
                self.news.notify_all()
        with self.news:
            self.news.notify_all()

    def wait_for(self, begins):
        """Waits until one more line begins so."""
        until = time.monotonic() + SECONDS
        with self.news:
            at = len(self.lines)
            while not any(it.startswith(begins) for it in self.lines[at:]):
                left = until - time.monotonic()
                if left <= 0 or not self.reader.is_alive():
                    self.process.kill()
                    said = self.process.stderr.read().decode(errors="replace")
                    sys.exit(f"a counter ended, or wrote no line `{begins.strip()}`: {''.join(self.lines[-5:])}{said}")
                self.news.wait(min(left, 0.5))

    def kill(self):
        """Kills it, and gives all that it had written. A line that was cut is none."""
        self.process.kill()
        status = self.process.wait()
        self.reader.join()
        if status != -9:
            sys.exit(f"a counter ended with status {status} before it was killed: {self.process.stderr.read().decode(errors='replace')}")
        return [it for it in self.lines if it.endswith("\n")]


class Told:
    """What a life had told before it was killed."""

    def __init__(self, lines):
        self.durable, self.given = [0] * WORKERS, [0] * WORKERS
        self.number, self.points, self.is_in_commit = None, None, False
        for line in lines:
            numbers = [int(it) for it in re.findall(r"\d+", line)]
            if line.startswith("told"):
                worker, durable, given = numbers
                self.durable[worker], self.given[worker] = durable, given
            elif line.startswith(("opened", "finished")):
                self.number, self.points, self.is_in_commit = numbers[0], numbers[1:], False
            elif line.startswith("begins"):
                self.is_in_commit = True


def play(command, reach, dice):
    """Plays a life, and kills it so many seconds behind the beginning of a commit, at most; or at any time while it adds."""
    life = Life(command)
    life.wait_for("told")
    if reach:
        for _ in range(dice.randrange(3)):
            life.wait_for("begins")
        life.wait_for("begins")
        time.sleep(dice.random() * reach)
    else:
        time.sleep(dice.random() * 0.15)
    return life.kill()


def looked(command):
    """The number, the points and the sum's line of a store, by an opening that adds nothing."""
    ran = subprocess.run([*command, "check"], stdin=subprocess.DEVNULL, capture_output=True, text=True, timeout=SECONDS)
    found = re.search(r"^opened (\d+) points ([\d ]+)\nsum (\d+) (\w+)$", ran.stdout, re.M)
    if ran.returncode or not found:
        sys.exit(f"the store can't be opened behind a kill: {ran.stdout}{ran.stderr}status {ran.returncode}")
    return int(found[1]), [int(it) for it in found[2].split()], int(found[3]), found[4]


def complaints(told, number, points, total, word):
    """What was lost, or what is there that shouldn't be."""
    for worker in range(WORKERS):
        if points[worker] < told.durable[worker]:
            yield f"session {worker} was told that its updates up to {told.durable[worker]} are durable, and the store has them up to {points[worker]}"
        if points[worker] < told.points[worker]:
            yield f"commit {told.number} was told with point {told.points[worker]} of session {worker}, and the store has its updates up to {points[worker]}"
    if not told.number <= number <= told.number + 1:
        yield f"commit {told.number} was the last that was told, and the store opens at commit {number}"
    if number == told.number and points != told.points:
        yield f"commit {number} was told with points {told.points}, and the store opens with {points}"
    if total != sum(points) or word != "agrees":
        yield f"the values' sum is {total}, and the points {points} are {sum(points)} together ({word})"


def lives(name, command, seed):
    """Plays lives until enough of them were killed, and in commits. What came of it, in words."""
    dice, kills, in_commits, lost, reach = random.Random(seed), 0, 0, 0, REACH
    while kills < KILLS or 2 * in_commits < kills or not lost:
        if kills == MOST_LIVES:
            sys.exit(f"{name}: of {kills} kills only {in_commits} struck while a commit ran, and {lost} while adds were in flight")
        is_aimed = 2 * in_commits <= kills
        told = Told(play(command, reach if is_aimed else None, dice))
        number, points, total, word = looked(command)
        wrong = [*complaints(told, number, points, total, word)]
        if wrong:
            sys.exit("\n".join(f"{name}, seed {seed}, kill {kills + 1}: {it}" for it in wrong))
        kills += 1
        in_commits += told.is_in_commit
        reach *= SHORTER if is_aimed and not told.is_in_commit else 1
        lost += any(given > point for given, point in zip(told.given, points))
    return f"{name}: {kills} kills, {in_commits} while a commit ran, {lost} with adds in flight that were lost; {sum(points)} adds in {number} commits are there"
