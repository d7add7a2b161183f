"""The section of a page that tells what a run of the driver has told."""
import os
import time

from figures import LEAST_CALLS, MIXES, OWN, SHARES, Figures, by_clock, by_processor, mean, thousands

TITLE = "## Beside other stores"
# The cells by which the library is judged.
JUDGED_SIZES, JUDGED_MIXES, JUDGED_THREADS = (4096, 65536), ("get", "upsert", "add"), (2, 4)
LEAST_KEPT, MOST_LATER = 0.9, 2
HOW = {"whole": "", "quick": " (`QUICK=1`)", "tiny": " (`--tiny`: these figures mean nothing)"}


def table(head, rows):
    return "\n".join("| " + " | ".join(row) + " |" for row in (head, ["---"] * len(head), *rows))


def told(number):
    """A ratio to two or three digits."""
    return "-" if number is None else f"{number:.0f}" if number >= 10 else f"{number:.1f}" if number >= 2 else f"{number:.2f}"


def joined(numbers):
    return " / ".join(told(it) for it in numbers)


def spread(zipf):
    return "Zipf" if zipf else "uniform"


def threads_told(numbers):
    return " / ".join(str(it) for it in numbers) + (" thread" if list(numbers) == [1] else " threads")


def bytes_told(number):
    if number is None:
        return "-"
    for unit, size in (("GB", 1e9), ("MB", 1e6), ("kB", 1e3)):
        if number >= size:
            return f"{number / size:.3g} {unit}"
    return f"{number:.0f} B"


def time_told(nanoseconds):
    if nanoseconds is None:
        return "-"
    for unit, size in (("s", 1e9), ("ms", 1e6), ("µs", 1e3)):
        if nanoseconds >= size:
            return f"{nanoseconds / size:.3g} {unit}"
    return f"{nanoseconds:.0f} ns"


def machine():
    with open("/proc/cpuinfo") as file:
        model = next((it.split(":", 1)[1].strip() for it in file if it.startswith("model name")), "unknown")
    return f"{os.cpu_count()} processors ({model})"


def conditions(figures):
    told_run = figures.told
    before, after = (it[0] for it in told_run["load"])
    share = ", ".join(f"{100 * it:.0f} % with {threads_told([n])}" for n, it in figures.share().items()) or "none"
    others = figures.others()
    verdict = "The machine was idle but for it." if others < 0.2 else "So figures by the clock say little, and those by processor time hide what waiting for a lock costs."
    lines = [
        f"Measured on {time.strftime('%d %B %Y', time.gmtime(told_run['begun'])).lstrip('0')}, on {machine()}, in {told_run['seconds'] / 60:.1f} minutes{HOW[told_run['how']]}."
        f" The load was {before:.1f} before and {after:.1f} after it. Beside the run {others:.1f} processors were busy. A thread of fkv got this share of a processor: {share}. {verdict}"
    ]
    if told_run["versions"]:
        lines.append(f"Debian's packages: {', '.join(told_run['versions'])}.")
    if told_run["missing"]:
        lines.append(f"Left out, since packages are missing: {', '.join(told_run['missing'])}.")
    if figures.end["skipped"]:
        lines.append(f"The time was spent before {figures.end['skipped']} cells, which are left out.")
    if figures.dropped:
        lines.append(f"In {figures.dropped} cells a thread made fewer than {thousands(LEAST_CALLS)} calls. They are left out.")
    return "\n\n".join(lines)


def ratios(figures, by, part="plain", peers=None, commits="none"):
    peers = peers or figures.peers
    rows = []
    for keys in figures.sizes:
        for mix in figures.mixes:
            columns = [[figures.over_spreads(by, part, peer, keys, mix, n, commits) for n in figures.threads] for peer in peers]
            if any(it for column in columns for it in column):
                rows.append([thousands(keys), MIXES[mix]] + [joined(it) for it in columns])
    return table(["keys", "calls", *peers], rows)


def judged(figures, by, words):
    """Where the library is ahead of the peers with locks, and by how much it isn't."""
    cells = [
        (figures.ratio(by, "plain", peer, keys, zipf, mix, n), peer, keys, zipf, mix, n)
        for keys in JUDGED_SIZES for mix in JUDGED_MIXES for n in JUDGED_THREADS for zipf in (False, True) for peer in figures.peers
    ]
    cells = [it for it in cells if it[0]]
    if not cells:
        return f"By {words} nothing was measured."
    behind = sorted(it for it in cells if it[0] < 1)
    text = f"**By {words}** the library is ahead in {len(cells) - len(behind)} of {len(cells)} cells of get, upsert and add, with 2 and 4 threads, 4,096 and 65,536 keys. All peers have locks."
    if not behind:
        return text
    by_peer = {}
    for ratio, peer, *cell in behind:
        by_peer.setdefault(peer, []).append((ratio, *cell))
    rows = []
    for peer, found in sorted(by_peer.items(), key=lambda it: it[1][0][0]):
        ratio, keys, zipf, mix, n = found[0]
        rows.append([peer, str(len(found)), told(mean([it[0] for it in found])), f"{told(ratio)}: {mix}, {thousands(keys)} keys, {spread(zipf)}, {threads_told([n])}"])
    return f"{text} It is behind here:\n\n" + table(["peer", "cells", "times the peer's calls in these", "least"], rows)


def cold(figures):
    """The cells that begin cold, of one mix and number of threads a row, beside those that don't."""
    its = [it for it in figures.cells if it["part"] == "cold"]
    if not its:
        return ""
    rows = []
    for keys in figures.sizes:
        for mix in figures.mixes:
            for n in sorted({it["threads"] for it in its if it["mix"] == mix}):
                for part, words in (("plain", "touched"), ("cold", "cold")):
                    found = [figures.value(by_processor, part, peer, keys, False, mix, n) for peer in (OWN, *figures.peers)]
                    if any(found):
                        rows.append([thousands(keys), MIXES[mix], str(n), words] + ["-" if it is None else f"{1e9 / it:.0f}" for it in found])
    return (
        "The same cells cold: no key is touched before the calls begin, behind cells of other peers. Uniform keys, ns of processor a call:\n\n"
        + table(["keys", "calls", "threads", "begun", OWN, *figures.peers], rows)
        + "\n"
    )


def own(figures):
    rows = []
    for keys in figures.sizes:
        for mix in figures.mixes:
            row = [thousands(keys), MIXES[mix]]
            for zipf in (False, True):
                rates = [figures.value(by_clock, "plain", OWN, keys, zipf, mix, n) for n in figures.threads]
                calls = [figures.value(by_processor, "plain", OWN, keys, zipf, mix, n) for n in figures.threads]
                row.append(" / ".join("-" if it is None else f"{it / 1e6:.1f}" for it in rates))
                row.append(" / ".join("-" if it is None else f"{1e9 / it:.0f}" for it in calls))
            rows.append(row)
    return table(["keys", "calls", "uniform: million a second", "ns of processor a call", "Zipf: million a second", "ns of processor a call"], rows)


def kept(figures, commits):
    """The share that is kept, and how many processors the keeper takes, of the mixes and threads that were played."""
    own_cells = [it for it in figures.cells if (it["part"], it["peer"], it["commits"]) == ("pair", OWN, commits)]
    mixes = [it for it in figures.mixes if any(cell["mix"] == it for cell in own_cells)]
    threads = sorted({it["threads"] for it in own_cells})
    rows = []
    for keys in figures.sizes:
        for zipf in (False, True):
            row = [thousands(keys), spread(zipf)]
            for mix in mixes:
                shares = [figures.kept(by_clock, keys, zipf, mix, n, commits) for n in threads]
                row.append(" / ".join("-" if it is None else f"{100 * it:.0f}" for it in shares))
            rows.append(row + [told(figures.beside(keys, zipf, commits))])
    return f"With {commits} commits and {threads_told(threads)}:\n\n" + table(["keys", "spread", *(MIXES[it] for it in mixes), "keeper"], rows)


def commit_times(figures):
    columns = [(OWN, "log"), (OWN, "full"), *((it, "log") for it in figures.durable)]
    rows = [[thousands(keys)] + [told(figures.commit_time(peer, commits, keys)) for peer, commits in columns] for keys in figures.sizes]
    return table(["keys", "fkv, log commits", "fkv, full commits", *figures.durable], rows)


def kept_judged(figures):
    places = [(keys, zipf) for keys in figures.sizes for zipf in (False, True) if keys == 4096 or (keys == 65536 and zipf)]
    told_of = []
    for words, by in (("the clock", by_clock), ("processor time", by_processor)):
        cells = [(figures.kept(by, *place, mix, n, "log"), place, mix, n) for place in places for mix in figures.mixes for n in figures.threads]
        cells = [it for it in cells if it[0]]
        below = sorted(it for it in cells if it[0] < LEAST_KEPT)
        if cells:
            least, (keys, zipf), mix, n = min(cells)
            told_of.append(
                f"By {words} at least 90 % is kept in {len(cells) - len(below)} of {len(cells)} cells at 4,096 keys, and at 65,536 by Zipf."
                f" The least is {100 * least:.0f} %: {MIXES[mix]}, {thousands(keys)} keys, {spread(zipf)}, {threads_told([n])}."
            )
    later = []
    for keys, zipf in places:
        for mix in figures.mixes:
            for n in figures.threads:
                plain, committed = (figures.delays(OWN, keys, zipf, mix, n, it, "all") for it in ("none", "log"))
                if plain and committed:
                    later.append((committed[3] / plain[3], keys, zipf, mix, n))
    if later:
        most, keys, zipf, mix, n = max(later)
        told_of.append(
            f"The 99.9th percentile with log commits is at most twice that without in {sum(it[0] <= MOST_LATER for it in later)} of {len(later)} of these cells."
            f" The most is {told(most)} times: {MIXES[mix]}, {thousands(keys)} keys, {spread(zipf)}, {threads_told([n])}."
        )
    return " ".join(told_of) or "Of commits nothing was measured."


def later(figures):
    """How many times as late the 99.9th percentile comes with log commits."""
    timed = [it for it in figures.cells if (it["part"], it["peer"]) == ("timed", OWN)]
    mixes = [it for it in figures.mixes if any(cell["mix"] == it for cell in timed)]
    threads = sorted({it["threads"] for it in timed})
    rows = []
    for keys in figures.sizes:
        for zipf in (False, True):
            row = [thousands(keys), spread(zipf)]
            for mix in mixes:
                both = [[figures.delays(OWN, keys, zipf, mix, n, it, "all") for it in ("none", "log")] for n in threads]
                row.append(joined([committed[3] / plain[3] if plain and committed else None for plain, committed in both]))
            rows.append(row)
    return f"With {threads_told(threads)}:\n\n" + table(["keys", "spread", *(MIXES[it] for it in mixes)], rows)


def delays(figures, n):
    """Percentiles of YCSB A: of fkv, and of the other stores with commits."""
    rows = []
    for peer in (OWN, *figures.durable):
        for keys in figures.sizes:
            for zipf in (False, True) if peer == OWN else (True,):
                for commits, which, words in (("none", "all", "none"), ("log", "all", "each 50 ms"), ("log", "in_commit", "one in hand")):
                    found = figures.delays(peer, keys, zipf, "A", n, commits, which)
                    if found and (peer == OWN or words != "none"):
                        rows.append([peer, thousands(keys), spread(zipf), words] + [time_told(it) for it in found])
    return table(["store", "keys", "spread", "commits", *SHARES], rows)


def written(figures, n):
    columns = [(OWN, "log"), (OWN, "full"), *((it, "log") for it in figures.durable)]
    rows = []
    for keys in figures.sizes:
        for zipf in (False, True):
            found = [figures.bytes(peer, keys, zipf, "upsert", n, commits) for peer, commits in columns]
            if any(found):
                rows.append([thousands(keys), spread(zipf)] + [bytes_told(it) for it in found])
    return table(["keys", "spread", "fkv, log commits", "fkv, full commits", *figures.durable], rows)


def recovered(figures, spelled):
    columns = [(OWN, "log"), (OWN, "full"), (OWN, "cold"), *((it, "log") for it in figures.durable)]
    rows = []
    for keys in figures.sizes:
        found = [[spelled(it) for it in figures.recovered if (it["recovered"], it["commits"], it["keys"]) == (peer, commits, keys)] for peer, commits in columns]
        if any(found):
            rows.append([thousands(keys)] + [it[0] if it else "-" for it in found])
    return table(["keys", "fkv, log commits", "fkv, full commits", "fkv, opened cold", *figures.durable], rows)


def opening_told(it):
    return f"{time_told(1e9 * it['seconds'])} / {time_told(1e9 * it['processor'])}"


def alone(figures):
    """Where fkv's cells with commits have a process of their own."""
    if figures.told["how"] != "whole":
        return ""
    pair, timed = (1 + max(it["round"] for it in figures.cells if (it["part"], it["keys"]) == (part, 4096)) for part in ("pair", "timed"))
    return (
        " A cell lasts 30 ms, and is played three times. With 4,096 and 65,536 keys fkv's cells with commits and of timed calls are played by a process that has no "
        f"other store. Those with commits last 100 ms there, as the one beside each, and are played {pair} times; timed ones last 150 ms, {timed} times. Elsewhere both last 130 ms, three times."
    )


def shared(figures):
    """Which cells of a table of both come from processes of their own."""
    return " The peers' cells share a process; fkv's have their own." if alone(figures) else ""


def beginning(figures):
    return f"""{TITLE}

`make bench-peers` plays the same calls over the C library and over what a program would use in its place, and writes this page. `make bench-peers QUICK=1` plays fewer of them, in a minute.

{conditions(figures)}

- **Keys** are 64-bit words in no order, and so are values. Each call's key is drawn before anything is timed, the same for all. Zipf has the exponent 0.99, and its ranks are scattered over the keys, as those of YCSB are.
- **Calls.** YCSB A has half upserts and half gets, B one upsert in twenty calls. F has an add in half of its calls, in place of a read and a write. A thread that calls is bound to a processor, by its number and the round: the cells of a round run on the same ones. No other thread is bound. Before the clock runs each thread gets each key once, and then calls for an eighth of the cell. All peers have huge pages for large blocks of memory (`glibc.malloc.hugetlb=1`). A cell with commits begins after one. Before the first of them fkv's log has gone round memory once, as it has after some seconds.{alone(figures)}
- **fkv** spreads the keys itself. Each session refreshes after 256 calls; after 64 while it sees a commit, and after 8 until all have gone over to its version. An update that lost to another session is polled at once. Memory has room for eight records of each key, and for 2^20 of each thread at least, in pages of 65,536 records. The index has a bucket for each four keys.
- **Maps** are `std::unordered_map` behind one mutex and in 64 shards, libcuckoo, TBB and dashmap. dashmap comes twice: as it is, and with 512 shards and each key as its own hash.
- **LMDB** has one transaction behind a mutex, which a commit ends. By call each update is a transaction, gets wait for nobody, and a commit syncs.
- **RocksDB** keeps its log in memory up to a commit. **LevelDB** writes it, and a commit syncs. **SQLite** has one transaction behind a mutex, which a commit ends.
"""


def throughput(figures, pictures, threads):
    return f"""### Throughput

Each number is how many times the peer's calls the library makes: above 1 it is ahead. It is the median of the rounds, and the geometric mean of uniform and Zipf. The numbers are those of {threads}, without commits.

{judged(figures, by_clock, "the clock")}

{judged(figures, by_processor, "processor time")}

![Throughput by the clock]({pictures}/clock.svg)

By the clock:

{ratios(figures, by_clock)}

![Throughput by processor time]({pictures}/processor.svg)

By processor time of the threads that call:

{ratios(figures, by_processor)}

The library's own figures, with {threads}:

{own(figures)}

{cold(figures)}"""


def committed(figures, pictures):
    return f"""### Commits each 50 ms

{kept_judged(figures)}

![Throughput that is kept]({pictures}/kept.svg)

The share of throughput that is kept, in percent, by the clock. The last column is how many processors the keeper takes beside the threads that call. If gets keep next to nothing, their records lie in the file alone: memory lets go of what wasn't updated for long, and a get that waits for the file takes as long as one right after an opening.

{kept(figures, "log")}

{kept(figures, "full")}

How many times the peer's calls the library makes, both with a commit each 50 ms, by the clock.{shared(figures)}

{ratios(figures, by_clock, "pair", figures.durable, "log")}

How many milliseconds a commit takes:

{commit_times(figures)}
"""


def delayed(figures, pictures, n):
    return f"""### How long a call takes

Each call is timed until it has taken effect. So a call that waits for the device, or for a commit, counts until it is through. A session's refresh counts to the call after it.

How many times as late the 99.9th percentile of fkv comes with a log commit each 50 ms as without:

{later(figures)}

![How long a call takes]({pictures}/delays.svg)

Calls of YCSB A with {threads_told([n])}. `one in hand` counts the calls alone that a commit meets. Rows of fewer than 1,000 calls are left out:

{delays(figures, n)}
"""


def stored(figures, pictures, n):
    return f"""### Bytes

What is handed to the system for each million upserts, with {threads_told([n])} and a commit each 50 ms. A faster store makes more updates between two commits. If it updates in place, it writes each key once for all of them.

![Bytes written]({pictures}/bytes.svg)

{written(figures, n)}

### Time to recover

A store is loaded, {thousands(figures.told["calls"])} adds follow with four commits among them, and the process ends without closing it. Another process opens it and reads one value. The file is in the system's memory. The numbers are by the clock, and the processor time of the process.

![Time to recover]({pictures}/recover.svg)

{recovered(figures, opening_told)}

How long a get takes right after that, one after another. fkv's memory has the newest records then, here all. A store that is opened cold (`FKV_COLD`) has none in memory, and reads each from the file.

{recovered(figures, lambda it: time_told(1e9 * it["each"]))}
"""


def trims(figures):
    """What adds take where the log's front is given back, beside a log that is kept."""
    if not figures.told.get("trims"):
        return ""
    rows = [
        [name, told(it["rate"] / 1e6), told(it["commits"]), told(it["processors"]), bytes_told(it["disk"]), f"{100 * it['long']:.4f} %"]
        for name, it in zip(("is given back", "is kept"), figures.told["trims"])
    ]
    given, kept_whole = figures.told["trims"]
    return f"""### The log's front, given back

Four threads add to 65,536 keys, uniform, with a log commit each 50 ms and what the sweeps want of full ones (`tools/trimming`). The store is one of `fkv_shape_for`, and its log has as much room as it has unless a program says more. The keys' records are {bytes_told(65536 * 24)} together. **It keeps {100 * given["rate"] / kept_whole["rate"]:.0f} % of the rate.**

{table(["the log's front", "million adds a second", "commits a second", "processors of the keeper", "the file, at most", "calls of 5 ms or more"], rows)}
"""


def section(figures, pictures):
    """The text. `pictures` is the folder of the pictures, as the page names it."""
    threads = threads_told(figures.threads)
    n = 2 if 2 in figures.threads else figures.threads[0]
    parts = [
        beginning(figures),
        throughput(figures, pictures, threads),
        committed(figures, pictures),
        delayed(figures, pictures, n),
        stored(figures, pictures, n),
        trims(figures),
    ]
    return "\n".join(it for it in parts if it)


def write_page(told_run, path, pictures):
    """Puts the section into the page, in place of the one that is there. It returns what it says of the aims."""
    figures = Figures(told_run)
    text = section(figures, os.path.relpath(pictures, os.path.dirname(path)))
    page = "# Speed of the library\n\n"
    if os.path.exists(path):
        with open(path) as file:
            page = file.read()
    before, found, rest = page.partition(TITLE + "\n")
    at = rest.find("\n## ")
    after = rest[at + 1 :] if found and at >= 0 else ""
    if before and not before.endswith("\n\n"):
        before = before.rstrip("\n") + "\n\n"
    with open(path, "w") as file:
        file.write(before + text + ("\n" + after if after else ""))
    return "\n\n".join([conditions(figures), judged(figures, by_clock, "the clock"), judged(figures, by_processor, "processor time"), kept_judged(figures)])
