"""The pictures of a run, as SVG."""
import os
from math import ceil, floor, log10

from drawing import Drawing, scale_of
from figures import MIXES, OWN, Figures, by_clock, by_processor, thousands

BY_THREADS = {1: "#8fbfe8", 2: "#3f83c4", 4: "#0b3d75"}
BY_STORE = {OWN: "#0b3d75", "LMDB": "#d9770f", "LMDB (by call)": "#e3b04b", "RocksDB": "#3f9a4d", "LevelDB": "#8e62a8", "SQLite": "#a33b3b"}
OTHER = "#666666"
# Dots of smaller ratios are put here.
LEAST_RATIO = 0.2
RATIO_MIXES = ("get", "upsert", "add", "A")


def spread(zipf):
    return "Zipf" if zipf else "uniform"


def threads_key(drawing, x, y, threads):
    for n in threads:
        drawing.dot(x, y - 4, BY_THREADS.get(n, OTHER))
        x = drawing.text(x + 9, y, f"{n} thread{'s' if n > 1 else ''}") + 18


def ratio_ticks(most):
    near = [it for it in (0.25, 0.5, 1, 2, 4, 8, 16, 32) if it <= most]
    return near if most < 32 else [it for it in (0.25, 1, 4, 16, 64, 256, 1024) if it <= most]


def ratio_panel(drawing, place, y, row, peers, found, most):
    """For each peer a row of dots, one for each number of threads. `found` has the ratios by peer and threads."""
    height = row * len(peers)
    for tick in ratio_ticks(most):
        drawing.line(place(tick), y, place(tick), y + height, "#444444" if tick == 1 else "#dddddd", 1.5 if tick == 1 else 1)
        drawing.text(place(tick), y + height + 13, f"{tick:g}", size=10, color=OTHER, anchor="middle")
    for k, peer in enumerate(peers):
        at = y + row * (k + 0.5)
        dots = [(n, place(max(it, LEAST_RATIO))) for n, it in found(peer) if it]
        if dots:
            drawing.line(min(x for _, x in dots), at, max(x for _, x in dots), at, "#c5d3e0", 2)
        for n, x in dots:
            drawing.dot(x, at, BY_THREADS.get(n, OTHER))


def ratios(figures, by, words, path):
    """How many times each peer's calls the library makes: a panel for each mix and size."""
    mixes = [it for it in RATIO_MIXES if it in figures.mixes]
    label, width, row, top, gap = 216, 190, 17, 62, 44
    height = row * len(figures.peers)
    drawing = Drawing(label + (width + 16) * len(mixes) + 16, top + (height + gap) * len(figures.sizes))
    drawing.text(12, 22, f"Times the peer's calls a second, by {words}, without commits", size=15, bold=True)
    threads_key(drawing, 16, 44, figures.threads)
    drawing.text(330, 44, "right of the line at 1 the library is ahead", color=OTHER)

    def found(keys, mix):
        return lambda peer: [(n, figures.over_spreads(by, "plain", peer, keys, mix, n)) for n in figures.threads]

    all_found = [it for keys in figures.sizes for mix in mixes for peer in figures.peers for _, it in found(keys, mix)(peer) if it]
    most = max(all_found + [8])
    for i, keys in enumerate(figures.sizes):
        y = top + 14 + i * (height + gap)
        for k, peer in enumerate(figures.peers):
            drawing.text(label - 8, y + row * (k + 0.5) + 4, peer, anchor="end")
        for j, mix in enumerate(mixes):
            x = label + j * (width + 16)
            drawing.text(x, y - 6, f"{MIXES[mix]}, {thousands(keys)} keys", bold=True)
            ratio_panel(drawing, scale_of(LEAST_RATIO, most * 1.25, x, x + width), y, row, figures.peers, found(keys, mix), most)
    drawing.save(path)


def kept(figures, path):
    """The share of its throughput that the library keeps with log commits, by mix."""
    places = [(keys, zipf) for keys in figures.sizes for zipf in (False, True)]
    width, height, top, left = 270, 160, 72, 52
    drawing = Drawing(left + (width + 40) * 2, top + (height + 56) * len(figures.sizes))
    drawing.text(12, 22, "Throughput that is kept with a log commit each 50 ms, by the clock", size=15, bold=True)
    threads_key(drawing, 16, 44, sorted({it["threads"] for it in figures.cells if it["part"] == "pair"}))
    for i, (keys, zipf) in enumerate(places):
        x, y = left + (i % 2) * (width + 40), top + 10 + (i // 2) * (height + 56)
        drawing.text(x, y - 6, f"{thousands(keys)} keys, {spread(zipf)}", bold=True)
        for share in (0, 0.25, 0.5, 0.75, 0.9, 1):
            at = y + height * (1 - share / 1.25)
            drawing.line(x, at, x + width, at, "#a33b3b" if share == 0.9 else "#dddddd")
            if share != 0.9 or i % 2 == 0:
                drawing.text(x - 6, at + 4, f"{100 * share:.0f} %", size=10, color="#a33b3b" if share == 0.9 else OTHER, anchor="end")
        step = width / len(figures.mixes)
        for j, mix in enumerate(figures.mixes):
            middle = x + step * (j + 0.5)
            drawing.text(middle, y + height + 16, MIXES[mix].split(" (")[0].split(",")[0].removeprefix("YCSB "), anchor="middle")
            for k, n in enumerate(figures.threads):
                share = figures.kept(by_clock, keys, zipf, mix, n, "log")
                if share:
                    drawing.dot(middle + (k - (len(figures.threads) - 1) / 2) * 11, y + height * (1 - min(share, 1.2) / 1.25), BY_THREADS.get(n, OTHER))
    drawing.save(path)


def store_key(drawing, x, y, names):
    for name, color, dashed in names:
        drawing.line(x, y - 4, x + 22, y - 4, color, 2.5, dashed)
        x = drawing.text(x + 28, y, name) + 18


def delays(figures, path):
    """Percentiles of single calls of YCSB A, of the library and of the stores on the device."""
    n = 2 if 2 in figures.threads else figures.threads[0]
    lines = [(OWN, "none", "all", "fkv, no commits", True), (OWN, "log", "all", "fkv, commits", False)]
    lines += [(it, "log", "all", it, False) for it in figures.durable]
    shares, width, height, top, left = ["50", "90", "99", "99.9", "99.99", "most"], 330, 230, 74, 60
    drawing = Drawing(left + (width + 60) * len(figures.sizes), top + height + 50)
    drawing.text(12, 22, f"How long a call takes: YCSB A by Zipf, {n} threads, a commit each 50 ms", size=15, bold=True)
    store_key(drawing, 16, 46, [(words, BY_STORE.get(peer, OTHER), dashed) for peer, _, _, words, dashed in lines])
    for i, keys in enumerate(figures.sizes):
        x, y = left + i * (width + 60), top + 10
        drawing.text(x, y - 6, f"{thousands(keys)} keys", bold=True)
        found = [(figures.delays(peer, keys, True, "A", n, commits, which), peer, dashed) for peer, commits, which, _, dashed in lines]
        found = [it for it in found if it[0]]
        if not found:
            continue
        low, high = min(it[0][0] for it in found), max(it[0][-1] for it in found)
        place = scale_of(low / 1.5, high * 1.5, y + height, y)
        for power in range(floor(log10(low / 1.5)) + 1, ceil(log10(high * 1.5))):
            drawing.line(x, place(10**power), x + width, place(10**power), "#dddddd")
            unit, size = next((unit, size) for unit, size in (("s", 9), ("ms", 6), ("µs", 3), ("ns", 0)) if power >= size)
            drawing.text(x - 6, place(10**power) + 4, f"{10 ** (power - size)} {unit}", size=10, color=OTHER, anchor="end")
        across = [x + 16 + (width - 32) * k / (len(shares) - 1) for k in range(len(shares))]
        for at, share in zip(across, shares):
            drawing.text(at, y + height + 16, share + (" %" if share != "most" else ""), size=10, color=OTHER, anchor="middle")
        for values, peer, dashed in found:
            drawing.path([(at, place(it)) for at, it in zip(across, values)], BY_STORE.get(peer, OTHER), dashed)
    drawing.save(path)


def bars(title, groups, told, path):
    """Bars on a logarithmic scale, in groups: each a name and the values by store."""
    groups = [(name, [it for it in values if it[1]]) for name, values in groups]
    groups = [it for it in groups if it[1]]
    label, width, row, top = 190, 420, 17, 44
    drawing = Drawing(label + width + 90, top + sum(26 + row * len(values) for _, values in groups) + 12)
    drawing.text(12, 22, title, size=15, bold=True)
    numbers = [it[1] for _, values in groups for it in values]
    if numbers:
        place = scale_of(min(numbers) / 2, max(numbers) * 1.1, label, label + width)
    y = top
    for name, values in groups:
        drawing.text(12, y + 12, name, bold=True)
        y += 20
        for store, number in values:
            drawing.text(label - 8, y + 12, store, anchor="end")
            drawing.box(label, y + 2, place(number) - label, row - 4, BY_STORE.get(store, BY_STORE[OWN]), 0.55 if store.endswith("full commits") else 1)
            drawing.text(place(number) + 5, y + 12, told(number), size=10, color=OTHER)
            y += row
        y += 6
    drawing.save(path)


def by_stores(figures, get):
    columns = [("fkv, log commits", OWN, "log"), ("fkv, full commits", OWN, "full"), *((it, it, "log") for it in figures.durable)]
    return [(name, get(peer, commits)) for name, peer, commits in columns]


def write_pictures(told_run, folder):
    from page import bytes_told, time_told

    figures = Figures(told_run)
    os.makedirs(folder, exist_ok=True)
    n = 2 if 2 in figures.threads else figures.threads[0]
    ratios(figures, by_clock, "the clock", f"{folder}/clock.svg")
    ratios(figures, by_processor, "processor time", f"{folder}/processor.svg")
    kept(figures, f"{folder}/kept.svg")
    delays(figures, f"{folder}/delays.svg")
    written = [(f"{thousands(keys)} keys, {spread(zipf)}", by_stores(figures, lambda peer, commits: figures.bytes(peer, keys, zipf, "upsert", n, commits))) for keys in figures.sizes for zipf in (False, True)]
    bars(f"Bytes written for each million upserts, {n} threads, a commit each 50 ms", written, bytes_told, f"{folder}/bytes.svg")

    def seconds(keys):
        return lambda peer, commits: next((1e9 * it["seconds"] for it in figures.recovered if (it["recovered"], it["commits"], it["keys"]) == (peer, commits, keys)), None)

    bars("Time to recover, up to the first value", [(f"{thousands(keys)} keys", by_stores(figures, seconds(keys))) for keys in figures.sizes], time_told, f"{folder}/recover.svg")
