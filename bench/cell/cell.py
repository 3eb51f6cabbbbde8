#!/usr/bin/env python3
"""Measures turns and asks at turn cells.

    cell.py ROOM

ROOM has the two programs and `lock`, built. Ends with 1 where one is out of its bounds.
"""
import os
import statistics
import subprocess
import sys

TURN_RUNS, ROUNDS = 10, 9
# What is wanted: of the time of a turn and of the pthread mutex, of the rates of four workers and one at 16 shards, and of sixteen
# and one at one shard.
TURN, WIDE, DEEP = 2.0, 3.5, 0.5
# Shards, workers, channels of a worker, for how many milliseconds each asks, and whether the object is held.
ONE_WIDE, FOUR_WIDE = (16, 1, 4, 200, 0), (16, 4, 4, 200, 0)
ONE_DEEP, SIXTEEN_DEEP = (1, 1, 4, 200, 0), (1, 16, 4, 200, 0)
ONE_HELD, SIXTEEN_HELD = (16, 1, 4, 200, 1), (16, 16, 4, 200, 1)
TRIALS = [ONE_WIDE, FOUR_WIDE, ONE_DEEP, SIXTEEN_DEEP, ONE_HELD, SIXTEEN_HELD]
PROGRAMS = 4


class Bench:
    def __init__(self, room):
        self.turns = os.path.join(room, "crates/turns_bench/out/turns_bench")
        self.seats = os.path.join(room, "crates/seats_bench/out/seats_bench")
        self.lock = os.path.join(room, "lock")
        self.met = True

    def bound(self, what, found, least=None, most=None):
        inside = (least is None or found >= least) and (most is None or found <= most)
        wanted = f"at least {least}" if most is None else f"at most {most}"
        print(f"{what}: {found:.2f} ({wanted}{'' if inside else ', which it is NOT'})", flush=True)
        self.met = self.met and inside

    def bare_turns(self):
        """The best of the runs, since others may use the machine."""
        cells, mutexes, lock = {}, {}, 0
        for _ in range(TURN_RUNS):
            for line in output_of([self.turns]).splitlines()[1:]:
                threads, cell, mutex = map(int, line.split())
                cells[threads] = max(cells.get(threads, 0), cell)
                mutexes[threads] = max(mutexes.get(threads, 0), mutex)
            lock = max(lock, int(output_of([self.lock])))
        print("threads  cell turns/s  mutex turns/s")
        for threads, cell in cells.items():
            print(threads, cell, mutexes[threads])
        self.bound(f"a turn of one thread against the pthread mutex ({lock} turns/s)", lock / cells[1], most=TURN)

    def asks(self):
        """The medians of rounds, in which the trials take turns, each in a process of its own."""
        found = {trial: [] for trial in TRIALS}
        apart = []
        for _ in range(ROUNDS):
            for trial, told in found.items():
                told.append(self.seats_of(trial, 1)[0])
            apart.append(sum(rate for rate, _, _ in self.seats_of(ONE_WIDE, PROGRAMS)))
        print("shards  workers  object held  asks/s  mean wait, ns  longest wait, ns")
        rates = {}
        for trial, told in found.items():
            rates[trial] = [rate for rate, _, _ in told]
            middle = (int(statistics.median(column)) for column in zip(*told))
            print(trial[0], trial[1], "yes" if trial[4] else "no", *middle)
        print(f"{PROGRAMS} programs with one worker each: {statistics.median(apart):.0f} asks/s, {ratio(apart, rates[ONE_WIDE]):.2f} times "
              f"one; 4 workers do {ratio(rates[FOUR_WIDE], apart):.2f} times the asks of 4 programs")
        self.bound("4 workers against one, at 16 shards", ratio(rates[FOUR_WIDE], rates[ONE_WIDE]), least=WIDE)
        self.bound("16 workers against one, at one shard", ratio(rates[SIXTEEN_DEEP], rates[ONE_DEEP]), least=DEEP)
        print(f"16 workers against one that hold the object: {ratio(rates[SIXTEEN_HELD], rates[ONE_HELD]):.2f}")

    def seats_of(self, trial, programs):
        """What so many programs at once tell of a trial: asks a second, and the mean and the longest wait."""
        words = [self.seats, *map(str, trial)]
        running = [subprocess.Popen(words, stdout=subprocess.PIPE, text=True) for _ in range(programs)]
        told = [program.communicate()[0] for program in running]
        if any(program.returncode for program in running):
            raise SystemExit(f"{' '.join(words)} failed")
        return [tuple(map(int, line.split())) for line in told]


def ratio(of, to):
    """The median of the rounds' ratios: the machine's speed is the same within a round."""
    return statistics.median(one / other for one, other in zip(of, to))


def output_of(words):
    return subprocess.run(words, stdout=subprocess.PIPE, check=True, text=True).stdout


def main(words):
    if len(words) != 1:
        print(__doc__, end="", file=sys.stderr)
        return 2
    bench = Bench(words[0])
    bench.bare_turns()
    bench.asks()
    return 0 if bench.met else 1


if __name__ == "__main__":
    sys.exit(main(sys.argv[1:]))
