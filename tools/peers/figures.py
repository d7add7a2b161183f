"""What a run of the driver has told, as ratios and medians."""
from math import exp, log
from statistics import median

OWN = "fkv"
MIXES = {
    "get": "get (YCSB C)",
    "upsert": "upsert",
    "add": "add",
    "A": "YCSB A",
    "B": "YCSB B",
    "F": "YCSB F, by adds",
}
# On a machine that is too busy a thread may hardly be let run. A cell with fewer calls a thread counts for nothing.
LEAST_CALLS = 1000
SHARES = ["50 %", "90 %", "99 %", "99.9 %", "99.99 %", "most"]


def mean(numbers):
    """The geometric mean, as ratios want it."""
    return exp(sum(log(it) for it in numbers) / len(numbers))


def by_clock(cell):
    return cell["rate"]


def by_processor(cell):
    return cell["calls"] / cell["processor"]


def thousands(number):
    return f"{number:,}"


class Figures:
    def __init__(self, told):
        self.told = told
        played = [it for it in told["lines"] if "part" in it]
        self.cells = [it for it in played if it["calls"] >= LEAST_CALLS * it["threads"]]
        self.dropped = len(played) - len(self.cells)
        self.recovered = [it for it in told["lines"] if "recovered" in it]
        self.end = next(it for it in told["lines"] if "skipped" in it)
        self.index = {}
        for cell in self.cells:
            key = (cell["part"], cell["peer"], cell["keys"], cell["zipf"], cell["mix"], cell["threads"], cell["commits"])
            self.index.setdefault(key, {})[cell["round"]] = cell
        self.sizes = sorted({it["keys"] for it in self.cells})
        self.threads = sorted({it["threads"] for it in self.cells if it["part"] == "plain"})
        self.mixes = [it for it in MIXES if any(cell["mix"] == it for cell in self.cells)]
        # In the order in which the driver has them.
        self.peers = list(dict.fromkeys(it["peer"] for it in self.cells if it["peer"] != OWN))
        self.durable = [it for it in self.peers if any(cell["peer"] == it and cell["commits"] != "none" for cell in self.cells)]

    def rounds(self, part, peer, keys, zipf, mix, threads, commits="none"):
        return self.index.get((part, peer, keys, zipf, mix, threads, commits), {})

    def ratio(self, by, part, peer, keys, zipf, mix, threads, commits="none"):
        """How many times the peer's calls a second fkv has, in the median round; None where nothing was measured."""
        own, other = (self.rounds(part, it, keys, zipf, mix, threads, commits) for it in (OWN, peer))
        both = [by(own[it]) / by(other[it]) for it in own if it in other]
        return median(both) if both else None

    def over_spreads(self, by, part, peer, keys, mix, threads, commits="none"):
        found = [self.ratio(by, part, peer, keys, zipf, mix, threads, commits) for zipf in (False, True)]
        found = [it for it in found if it]
        return mean(found) if found else None

    def value(self, get, part, peer, keys, zipf, mix, threads, commits="none"):
        rounds = self.rounds(part, peer, keys, zipf, mix, threads, commits)
        return median(get(it) for it in rounds.values()) if rounds else None

    def kept(self, by, keys, zipf, mix, threads, commits):
        """The share of its throughput that fkv keeps with commits, in the median round."""
        plain, committed = (self.rounds("pair", OWN, keys, zipf, mix, threads, it) for it in ("none", commits))
        both = [by(committed[it]) / by(plain[it]) for it in committed if it in plain]
        return median(both) if both else None

    def delays(self, peer, keys, zipf, mix, threads, commits, which):
        """Nanoseconds by share of the calls, each in the median round; None where too few calls were timed."""
        rounds = [it[which] for it in self.rounds("timed", peer, keys, zipf, mix, threads, commits).values()]
        rounds = [it[1:] for it in rounds if it[0] >= 1000]
        return [median(column) for column in zip(*rounds)] if rounds else None

    def bytes(self, peer, keys, zipf, mix, threads, commits):
        """Bytes that are written for a million updates, with a commit each 50 ms."""
        return self.value(lambda it: 1e6 * it["bytes"] / max(it["updates"], 1), "pair", peer, keys, zipf, mix, threads, commits)

    def others(self):
        """Processors that were busy with something else, on average over all cells."""
        wall = sum(it["wall"] for it in self.cells)
        return max(sum(it["busy"] - it["process"] for it in self.cells) / wall, 0)

    def share(self):
        """The share of a processor that a thread of fkv got, by how many of them there were."""
        plain = [it for it in self.cells if it["peer"] == OWN and it["part"] == "plain"]
        shares = {n: [it["processor"] / it["wall"] / n for it in plain if it["threads"] == n] for n in self.threads}
        return {n: median(found) for n, found in shares.items() if found}

    def beside(self, keys, zipf, commits):
        """Processors that fkv's keeper takes while commits run, on average over all cells of these keys."""
        cells = [it for it in self.cells if (it["peer"], it["keys"], it["zipf"], it["commits"]) == (OWN, keys, zipf, commits)]
        return sum(it["process"] - it["processor"] for it in cells) / sum(it["wall"] for it in cells) if cells else None

    def commit_time(self, peer, commits, keys):
        """Milliseconds that a commit takes, on average over all cells of this size."""
        cells = [it for it in self.cells if it["peer"] == peer and it["commits"] == commits and it["keys"] == keys and it["finished"]]
        return 1000 * sum(it["committing"] for it in cells) / sum(it["finished"] for it in cells) if cells else None
