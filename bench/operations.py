#!/usr/bin/env python3
"""Compares single operations of clients, and of a host's own calls, with Boost.Interprocess, Lua and WebAssembly.

    operations.py SEGTOOL.. [--calls BENCH_CALLS..] [--time ROUNDS] [--only WORK,..] [--configs best+tree,seq+flat] [--no-count]

Several SEGTOOLs, for example from before and after a change, run in turn, and each has its own row.

Each workload is a client and a base, which is the same loop without the library's operations. Both run on the same image.
The difference, divided by the number of operations, is the cost of one. Callgrind counts the instructions, exactly and
whatever else the machine does. A time is the shortest of ROUNDS rounds, in which client, base and peer run in turn. Short
workloads are repeated to measure times, since the time of the rest of the program varies by a millisecond.

The workloads of hosts have no client. The program BENCH_CALLS, which build.py makes (bench_calls), pushes numbers, allocates
and frees a block, or reads a map in order, by calls of the library. It runs for some passes and for twice as many, and the difference
counts; so its loop counts too, like the peer's. Without --calls these workloads are left out.

WebAssembly runs in wasm-interp, and is left out if that isn't installed. It has fewer turns than the others, since it is slow.

Needs valgrind, lua5.4, g++ and libboost-dev, and for WebAssembly wabt."""
import argparse
import contextlib
import os
import shutil
import subprocess
import tempfile
from dataclasses import dataclass
from functools import partial

HERE = os.path.dirname(os.path.abspath(__file__))

# a folder in memory, if the system has one, so that no disk takes time
MEMORY = "/dev/shm" if os.path.isdir("/dev/shm") else None

# the file that a run makes
SAVED = "saved"

# callgrind counts one instruction per byte for rep stosb and rep movsb, which glibc uses for large clears and copies
TUNABLES = "glibc.cpu.x86_rep_stosb_threshold=1000000000:glibc.cpu.x86_rep_movsb_threshold=1000000000"


@dataclass
class Work:
    client: str
    base: str
    turns: int
    operations: int  # in an iteration
    before: str | None  # a client that runs on the image first
    size: int  # of the image, in MiB
    passes: int = 1  # how often the workload is repeated to measure its time


WORKS = {
    "vec_push": Work("vec_push", "base_loop", 1000000, 1, None, 32),
    "map_put": Work("map_put", "base_random", 100000, 1, None, 8),
    "map_walk": Work("map_walk", "base_walk", 100000, 1, "map_put", 8, 10),
    "flat_map_put": Work("flat_map_put", "base_random", 20000, 1, None, 2),
    "list_push_pop": Work("list_push_pop", "base_list", 200000, 1, None, 8),
    "str_push": Work("str_push", "base_loop", 1000000, 1, None, 4),
    "churn": Work("churn", "base_churn", 2000, 16, "churn.setup", 1, 20),
    "new_drop": Work("new_drop", "base_loop", 100000, 1, None, 1, 10),
    "named_construct": Work("named_construct", "base_named", 10000, 1, None, 2),
    "named_find": Work("named_find", "base_loop", 10000, 1, "named_construct", 2),
    "named_destroy": Work("named_destroy", "base_loop", 10000, 1, "named_construct", 2),
    "named_destroy_up": Work("named_destroy_up", "base_loop", 10000, 1, "named_construct", 2),
    "chain": Work("chain", "base_loop", 20000, 1, None, 2, 10),
}

# the steps in an iteration of the loops that Lua runs too
LOOPS = {"loop_count": 3, "loop_mixed": 9}


@dataclass
class Host:
    words: dict[str, str]  # the program's argument, by the allocator and the index
    peer: str  # the peer's workload
    times: int  # in a pass
    passes: int  # of the base


# the workloads of a host, without a client
HOSTS = {
    "push_host": Host({"best+tree": "push"}, "vec_push", 1000000, 10),
    "block_host": Host({"best+tree": "best", "seq+flat": "seq"}, "new_drop", 1000000, 2),
    "entries_host": Host({"best+tree": "entries"}, "map_walk", 100000, 4),
    "pairs_host": Host({"best+tree": "pairs"}, "flat_map_walk", 100000, 100),
}


def run(*words):
    return subprocess.run(words, check=True, capture_output=True, text=True)


def instructions(words, flags=()):
    """The number of instructions that a command executes."""
    with tempfile.NamedTemporaryFile() as out:
        valgrind = ["valgrind", "--tool=callgrind", f"--callgrind-out-file={out.name}", *flags]
        subprocess.run(
            [*valgrind, *words], check=True, capture_output=True, env={**os.environ, "GLIBC_TUNABLES": TUNABLES}
        )
        totals = [line for line in open(out.name) if line.startswith(("summary:", "totals:"))]
        return int(totals[-1].split()[1])


def remove_saved(words):
    """Removes the image that a command has saved. A run that finds the same bytes there would compare them, and not write them."""
    for word in words:
        if os.path.basename(word) == SAVED:
            with contextlib.suppress(FileNotFoundError):
                os.remove(word)


def seconds(words):
    """The processor time of a command. Other jobs disturb it less than the elapsed time."""
    remove_saved(words)
    child = subprocess.Popen(words, stdout=subprocess.DEVNULL)
    _, status, used = os.wait4(child.pid, 0)
    child.returncode = os.waitstatus_to_exitcode(status)
    if child.returncode:
        raise SystemExit(f"{words}: status {child.returncode}")
    return used.ru_utime + used.ru_stime


def peer_time(words):
    """The peer's time for an operation in nanoseconds, as it prints it."""
    return float(run(*words).stdout.split()[3])


class Bench:
    """The clients and images in a folder. Each is made when it is first needed."""

    def __init__(self, segtool, folder):
        self.segtool, self.folder = segtool, folder
        os.makedirs(folder, exist_ok=True)

    def client(self, name, turns, passes=1):
        """A client with this many iterations per pass. If its text has no passes, it has one loop with all iterations."""
        made = f"{self.folder}/{name}.{turns}.{passes}"
        if not os.path.exists(made):
            text = open(f"{HERE}/clients/{name}.text").read()
            if "@P" not in text:
                turns *= passes
            text = text.replace("@N", str(turns)).replace("@P", str(passes))
            open(f"{made}.text", "w").write(text)
            run(self.segtool, "asm", f"{made}.text", made)
        return made

    def image(self, config, size, before=None, turns=0):
        made = f"{self.folder}/{config}.{size}.{before}.{turns}.image"
        if not os.path.exists(made):
            run(self.segtool, "new", made, str(size), *config.split("+"))
            if before:
                run(self.segtool, "run", made, made, self.client(before, turns))
        return made

    def command(self, image, client):
        return [self.segtool, "run", image, f"{self.folder}/{SAVED}", client]

    def pair(self, work, config, turns, passes=1):
        """The commands that run a workload's client and its base."""
        image = self.image(config, work.size << 20, work.before, turns if work.before != "churn.setup" else 0)
        clients = self.client(work.client, turns, passes), self.client(work.base, turns, passes)
        return [self.command(image, client) for client in clients]


def row(name, config, ours, our_time, peer, peer_time):
    ratio = ours / peer if peer else 0
    print(
        f"{name:17}{config:10}{ours:10.1f}{our_time:9.1f}{peer:10.1f}{peer_time:9.1f}"
        f"{ratio:8.2f}{our_time / peer_time:8.2f}",
        flush=True,
    )


def count(pair, operations):
    """The instructions of an operation: those of a command without those of its base."""
    counts = []
    for words in pair:
        remove_saved(words)
        counts.append(instructions(words))
    whole, base = counts
    return (whole - base) / operations


def least(measures, rounds):
    """The least result of each measure. The measures run in turn."""
    found = [1e9] * len(measures)
    for _ in range(rounds):
        found = [min(before, measure()) for before, measure in zip(found, measures)]
    return found


def time_pairs(pairs, operations, rounds, others=()):
    """The shortest time of an operation in nanoseconds, for each command without its base; then the results of other measures."""
    timers = [partial(seconds, command) for pair in pairs for command in pair]
    found = least([*timers, *others], rounds)
    ends = len(timers)
    ours = [(whole - base) / operations * 1e9 for whole, base in zip(found[:ends:2], found[1:ends:2])]
    return ours + found[ends:]


def rows(name, config, counts, times):
    """Prints a row for each of our builds, compared with the peer, which comes last in both lists."""
    *our_counts, peer_count = counts
    *our_times, peer_time = times
    for ours, our_time in zip(our_counts, our_times):
        row(name, config, ours, our_time, peer_count, peer_time)


def wasm_loop(folder, name, turns):
    """The command that runs a loop in WebAssembly."""
    made = f"{folder}/{name}.{turns}.wasm"
    if not os.path.exists(made):
        text = open(f"{HERE}/{name}.wat").read().replace("@N", str(turns))
        open(f"{made}.wat", "w").write(text)
        run("wat2wasm", f"{made}.wat", "-o", made)
    return ["wasm-interp", made, "--run-all-exports"]


def compare_loop(benches, name, rounds, counts):
    """Compares a step of a client's loop with the same loop in Lua, and in WebAssembly."""

    def our_pairs(turns, base):
        return [[it.command(it.image("seq+flat", 65536), it.client(name, n)) for n in (turns, base)] for it in benches]

    def lua_pair(turns, base):
        return [["lua5.4", f"{HERE}/{name}.lua", str(n)] for n in (turns, base)]

    def wasm_pair(turns, base):
        return [wasm_loop(benches[0].folder, name, n) for n in (turns, base)]

    def counted(pair):
        return count(pair(400000, 200000), 200000 * steps) if counts else 0

    steps, turns, wasm_turns = LOOPS[name], 20000000, 1000000
    has_wasm = shutil.which("wasm-interp") is not None
    wasm_timers = [partial(seconds, command) for command in wasm_pair(wasm_turns, 1)] if has_wasm else []
    ours = [count(pair, 200000 * steps) if counts else 0 for pair in our_pairs(400000, 200000)]
    times = time_pairs([*our_pairs(turns, 1), lua_pair(turns, 1)], turns * steps, rounds, wasm_timers)
    ends = len(benches) + 1
    rows(name, "Lua", [*ours, counted(lua_pair)], times[:ends])
    if has_wasm:
        whole, base = times[ends:]
        wasm_time = (whole - base) / (wasm_turns * steps) * 1e9
        rows(name, "Wasm", [*ours, counted(wasm_pair)], [*times[: ends - 1], wasm_time])


def count_beside(pairs, operations, other, others, counts):
    """The instructions of an operation by each pair of commands, and then by the peer; 0 without counting."""
    if not counts:
        return [0] * (len(pairs) + 1)
    return [*(count(it, operations) for it in pairs), instructions(other, ["--instr-atstart=no"]) / others]


def compare_work(benches, peer, name, config, rounds, counts):
    """Compares a client with Boost.Interprocess."""
    work = WORKS[name]
    operations = work.turns * work.operations
    other = [peer, name, config, str(operations)]
    pairs = [it.pair(work, config, work.turns) for it in benches]
    counted = count_beside(pairs, operations, other, operations, counts)
    pairs = [it.pair(work, config, work.turns, work.passes) for it in benches]
    peer_timer = partial(peer_time, [*other, str(work.passes)])
    rows(name, config, counted, time_pairs(pairs, operations * work.passes, rounds, [peer_timer]))


def compare_host(calls, peer, name, config, rounds, counts):
    """Compares a host's own calls with Boost.Interprocess."""
    work = HOSTS[name]
    word, times, operations = work.words[config], str(work.times), work.times * work.passes
    pairs = [[[it, word, times, str(n)] for n in (2 * work.passes, work.passes)] for it in calls]
    other = [peer, work.peer, config, times]
    counted = count_beside(pairs, operations, other, work.times, counts)
    rows(name, config, counted, time_pairs(pairs, operations, rounds, [partial(peer_time, other)]))


def main():
    parser = argparse.ArgumentParser(description=__doc__, formatter_class=argparse.RawDescriptionHelpFormatter)
    parser.add_argument("segtool", nargs="+")
    parser.add_argument("--calls", nargs="+", metavar="BENCH_CALLS", help="bench_calls; without it hosts are left out")
    parser.add_argument("--time", type=int, default=5, metavar="ROUNDS")
    parser.add_argument("--only", default=",".join([*LOOPS, *HOSTS, *WORKS]), metavar="WORK,..")
    parser.add_argument("--configs", default="best+tree,seq+flat", metavar="CONFIG,..")
    parser.add_argument("--no-count", action="store_true")
    words = parser.parse_args()
    only, configs = words.only.split(","), words.configs.split(",")
    with tempfile.TemporaryDirectory(dir=MEMORY) as folder:
        peer = f"{folder}/peer"
        benches = [Bench(os.path.abspath(it), f"{folder}/{i}") for i, it in enumerate(words.segtool)]
        run("g++", "-O2", "-std=c++17", f"{HERE}/peer.cpp", "-o", peer, "-lpthread", "-lrt")
        print(f"{'':27}{'ours':>10}{'':9}{'peer':>10}{'':9}{'ratio':>8}")
        print(f"{'work':17}{'config':10}" + f"{'instr.':>10}{'ns':>9}" * 2 + f"{'instr.':>8}{'ns':>8}")
        for name in filter(LOOPS.__contains__, only):
            compare_loop(benches, name, words.time, not words.no_count)
        for name in filter(HOSTS.__contains__, only) if words.calls else ():
            for config in filter(HOSTS[name].words.__contains__, configs):
                calls = [os.path.abspath(it) for it in words.calls]
                compare_host(calls, peer, name, config, words.time, not words.no_count)
        for name in filter(WORKS.__contains__, only):
            for config in configs:
                compare_work(benches, peer, name, config, words.time, not words.no_count)


if __name__ == "__main__":
    main()
