#!/usr/bin/env python3
"""Writes bench/RESULTS.md and its plots from what bench/run measured.

    bench/report.py FOLDER REPETITIONS
"""
import collections
import json
import pathlib
import statistics
import subprocess
import sys
import time

HERE = pathlib.Path(__file__).parent
PEERS = ["twin", "flat_hash_map", "unordered_map", "linear", "lmdb", "tkrzw", "sqlite"]
WORK = [
    "get hit, running", "get hit, random", "get miss, running", "overwrite, running", "overwrite, random",
    "put of a new page, running", "put of a new page, random", "remove, running", "remove, random", "fill, running", "fill, random", "list",
    "list of one block", "mend", "put with a split", "worst put", "merge", "worst merge", "print of a full year",
]
# What a print of a full year may take, in times of its gets.
MOST_GETS = 2


def read_times(path):
    """Seconds of processor time for each benchmark, peer and argument, one for each repetition."""
    unit = {"ns": 1e-9, "us": 1e-6, "ms": 1e-3, "s": 1}
    times = collections.defaultdict(list)
    for run in json.loads(path.read_text())["benchmarks"]:
        if run["run_type"] != "iteration":
            continue
        what, peer, *rest = run["run_name"].split("/")
        argument = int(rest[0]) if rest and rest[0].isdigit() else None
        times[what, peer, argument].append(run["cpu_time"] * unit[run["time_unit"]])
    return times


def shown(seconds):
    for unit, size in (("s", 1), ("ms", 1e-3), ("µs", 1e-6)):
        if seconds >= size:
            return f"{seconds / size:.3g} {unit}"
    return f"{seconds / 1e-9:.3g} ns"


def ratio(ours, theirs):
    """The ratio of the medians, and the least and the largest that any two repetitions give."""
    middle = statistics.median(ours) / statistics.median(theirs)
    pairs = sorted(a / b for a, b in zip(sorted(ours), sorted(theirs)))
    return middle, pairs[0], pairs[-1]


def plain(number):
    """Two or three figures without an exponent."""
    return f"{number:.0f}" if number >= 100 else f"{number:.2g}" if number < 0.1 else f"{number:.2f}"


def ratio_table(times):
    rows = ["| Work | ours | " + " | ".join(PEERS) + " |", "|---|---|" + "---|" * len(PEERS)]
    for what in WORK:
        ours = times[what, "ours", None]
        cells = []
        for peer in PEERS:
            theirs = times.get((what, peer, None))
            if not theirs:
                cells.append("")
                continue
            middle, least, most = ratio(ours, theirs)
            cells.append(f"{plain(middle)} ({plain(least)} to {plain(most)})")
        rows.append(f"| {what} | {shown(statistics.median(ours))} | " + " | ".join(cells) + " |")
    return "\n".join(rows)


def time_table(times):
    rows = ["| Work | ours | " + " | ".join(PEERS) + " |", "|---|---|" + "---|" * len(PEERS)]
    for what in WORK:
        cells = [times.get((what, peer, None)) for peer in ["ours"] + PEERS]
        rows.append(f"| {what} | " + " | ".join(shown(statistics.median(c)) if c else "" for c in cells) + " |")
    return "\n".join(rows)


def print_table(times):
    """The print of a full year against its gets, and whether it takes no longer than it may."""
    print_times, get_times = times["print of a full year", "ours", None], times["gets of a full year", "ours", None]
    middle, least, most = ratio(print_times, get_times)
    shown_times = " | ".join(shown(statistics.median(found)) for found in (print_times, get_times))
    rows = ["| print | its gets | print / gets |", "|---|---|---|", f"| {shown_times} | {plain(middle)} ({plain(least)} to {plain(most)}) |"]
    return "\n".join(rows), middle <= MOST_GETS


def read_counts(path):
    counts = {}
    for line in path.read_text().splitlines():
        group, name, value = line.split()
        counts[group, name] = value
    return counts


def count_table(counts):
    names = [
        ("pages", "pages at the first refusal"), ("refusal", "the refusal"), ("load", "load factor then, per cent"),
        ("load_at_split", "load factor of a segment when it is split, per cent"), ("bytes_per_page", "bytes of the cabinet per page"),
        ("stores", "stores in all"), ("stores_per_put", "stores per put"), ("splitting", "puts that split"),
        ("words_read_hit", "words read per get, hit"), ("words_read_miss", "words read per get, miss"),
    ]
    rows = ["| Count | running numbers | random keys |", "|---|---|---|"]
    rows += [f"| {said} | {counts['running', name]} | {counts['random', name]} |" for name, said in names]
    return "\n".join(rows)


def memory_table(counts):
    rows = ["| Peer | bytes per page |", "|---|---|"]
    rows += [f"| {peer} | {counts['memory', peer]} |" for peer in ["ours"] + PEERS[1:]]
    return "\n".join(rows)


def step_table(counts):
    """The pages until the first refusal, with its number: of each shape by folded keys, then by keys as they stand."""
    rows = ["| Keys | D = 6, S = 64 | as they stand | D = 12, S = 4,032 | as they stand |", "|---|---|---|---|---|"]
    for step in dict.fromkeys(group.partition("/")[2] for group, _ in counts):
        columns = [(f"{shape}/{step}", rule) for shape in ("small", "cabinet") for rule in ("", "_as_it_stands")]
        cells = [f"{counts[group, 'pages' + rule]} ({counts[group, 'refusal' + rule]})" for group, rule in columns]
        said = f"in steps of {int(step):,}" if step.isdigit() else step
        rows.append(f"| {said} | " + " | ".join(cells) + " |")
    return "\n".join(rows)


def job_table(path):
    """The jobs that a board takes, as bench/board.cpp says them."""
    rows = ["| n | Jobs until the first refusal | Its code | It comes in | Years for an array |", "|---|---|---|---|---|"]
    for line in path.read_text().splitlines():
        numbers, jobs, code, month, year, years = line.split()
        rows.append(f"| {int(numbers):,} | {int(jobs):,} | {code} | {month} {year} | {years} |")
    return "\n".join(rows)


def instruction_table(path):
    said = {"get": "get, hit", "overwrite": "overwrite", "new": "put of a new page", "remove": "remove"}
    calls = collections.defaultdict(dict)
    for line in path.read_text().splitlines():
        call, peer, total = line.split()
        calls[call][peer] = int(total) / 1000
    rows = ["| Call | ours | twin | ratio |", "|---|---|---|---|"]
    for call, by in calls.items():
        rows.append(f"| {said[call]} | {by['ours']:.1f} | {by['twin']:.1f} | {by['ours'] / by['twin']:.2f} |")
    return "\n".join(rows)


def process_times(command, script, times):
    found = []
    for _ in range(times):
        with open(script, "rb") as given:
            start = time.perf_counter()
            subprocess.run(command, stdin=given, stdout=subprocess.DEVNULL, check=True)
            found.append(time.perf_counter() - start)
    return statistics.median(found)


def desk_table(root):
    rows = ["| Script of 16,384 bytes | desk | a process that does nothing |", "|---|---|---|"]
    for name in ["full_0", "full_1", "full_2", "full_3", "full_of_lists"]:
        script = root / "crates/test_desk/data" / f"{name}.in"
        desk = process_times([str(root / "crates/desk/out/desk")], script, 50)
        nothing = process_times(["true"], script, 50)
        rows.append(f"| {name} | {shown(desk)} | {shown(nothing)} |")
    return "\n".join(rows)


def plot(folder, times, name, title, label, series, scale):
    """An SVG with a line for each series: (title, benchmark, peer)."""
    data = []
    for number, (said, what, peer) in enumerate(series):
        points = sorted((a, statistics.median(t)) for (w, p, a), t in times.items() if (w, p) == (what, peer) and a is not None)
        path = folder / f"{name}_{number}.txt"
        path.write_text("".join(f"{a} {t / scale}\n" for a, t in points))
        data.append(f"'{path}' with linespoints title '{said}'")
    script = (f"set terminal svg size 760,420 background 'white'; set output '{HERE / (name + '.svg')}'; set title '{title}'; "
              f"set xlabel '{label[0]}'; set ylabel '{label[1]}'; set key left top; {label[2]} plot " + ", ".join(data))
    subprocess.run(["gnuplot", "-e", script], check=True)


def main(folder, repetitions):
    root = HERE.parent
    times = read_times(folder / "bench.json")
    counts = read_counts(folder / "counts.txt")
    machine = json.loads((folder / "bench.json").read_text())["context"]
    depth = [(f"{call}, {peer}", f"{call} at depth", peer) for call in ("get", "put") for peer in ("ours", "twin")]
    plot(folder, times, "depth", "get and put over the directory depth", ("directory depth", "nanoseconds", "set logscale y;"), depth, 1e-9)
    fills = [(peer, "fill pages", peer) for peer in ("ours", "twin")]
    plot(folder, times, "fill", "fill with running numbers", ("pages", "milliseconds", ""), fills, 1e-3)
    printed, quick_enough = print_table(times)
    steps = read_counts(folder / "steps.txt")
    text = (HERE / "RESULTS.template.md").read_text()
    for mark, value in {
        "@command@": "bench/run", "@repetitions@": str(repetitions), "@processors@": str(machine["num_cpus"]),
        "@mhz@": str(machine["mhz_per_cpu"]), "@ratios@": ratio_table(times), "@times@": time_table(times), "@counts@": count_table(counts),
        "@instructions@": instruction_table(folder / "instructions.txt"), "@desk@": desk_table(root), "@worst@": counts["worst", "stores"], "@memory@": memory_table(counts),
        "@jobs@": job_table(folder / "board.txt"), "@print@": printed, "@most_gets@": str(MOST_GETS), "@steps@": step_table(steps),
        "@least@": steps["cabinet/random", "least"], "@most@": steps["cabinet/random", "most"],
    }.items():
        text = text.replace(mark, value)
    (HERE / "RESULTS.md").write_text(text)
    if not quick_enough:
        sys.exit(f"the print of a full year takes more than {MOST_GETS} times its gets")


if __name__ == "__main__":
    main(pathlib.Path(sys.argv[1]), int(sys.argv[2]))
