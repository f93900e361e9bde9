"""Programs of four scripts that run at once with little memory: each writes its report, or nothing with status 3.

    python3 tests/memory.py PATH_TO_HBIRD

The limit is one of the address space, so it refuses a thread its stack too; then its script runs in another thread. Memory
runs out at another place with each limit, also in one thread while the others hold types of methods.
"""
import concurrent.futures
import os
import subprocess
import sys
from pathlib import Path

from at_once import SECONDS, fault_of_report

# Four scripts that write almost as much as they may, by calls whose frames hold a type.
LONG = """class A
setup
type A.twice : (Str) -> Str
def A.twice(s) s ++ s end
type A.long : (Int) -> Str
def A.long(n) s = "ab"; while 0 < n do s = self.twice(s); n = n - 1 end; s end
end
""" + "".join("""script s%d
i = 0
while i < 500 do print A.new.long(9); i = i + 1 end
end
""" % number for number in range(1, 5))
PAIR = (Path(__file__).resolve().parent.parent / "bench/pair.hb").read_text()

# The limits in units of 1,024 bytes; with the last one there is enough.
LIMITS = [*range(2500, 10000, 500), *range(10000, 45000, 2500), 1000000]
NO_MEMORY, NO_START = 3, 127


def written(program, limit, text):
    """What the program writes with so little memory, and its status; a run that does not end has none."""
    words = ["sh", "-c", 'ulimit -v "$1" && exec "$0" run', program, str(limit)]
    try:
        done = subprocess.run(words, input=text.encode(), stdout=subprocess.PIPE, stderr=subprocess.DEVNULL, timeout=SECONDS)
    except subprocess.TimeoutExpired:
        return "no end came in %d seconds" % SECONDS, None
    return done.stdout.decode(), done.returncode


def fault_of(text, report, status):
    """What is wrong, or None. Where the loader itself has too little memory the program does not start."""
    if status in (NO_MEMORY, NO_START):
        return "something is written" if report else None
    return fault_of_report(text, report, status)


def wrong_runs(program, text):
    with concurrent.futures.ThreadPoolExecutor(os.cpu_count()) as workers:
        found = list(workers.map(lambda limit: written(program, limit, text), LIMITS))
    for limit, (report, status) in zip(LIMITS, found):
        fault = fault_of(text, report, status)
        if fault:
            yield "with %d KiB: %s: status %s, %r" % (limit, fault, status, report[:500])
    statuses = [status for _, status in found]
    if NO_MEMORY not in statuses or statuses[-1] != 0:
        yield "memory runs out with none of the limits, or with each: %s" % statuses


def main():
    wrong = [message for text in (LONG, PAIR) for message in wrong_runs(sys.argv[1], text)]
    for message in wrong:
        print(message)
    print("%d runs with little memory, %d wrong" % (2 * len(LIMITS), len(wrong)))
    return 1 if wrong else 0


if __name__ == "__main__":
    sys.exit(main())
