"""lines.py OURS C UNLOCKED TIMED DIR: the schedule program OURS and the one in plain C, with and
without locks, on the same schedules, by turns; prints the tables of docs/BENCHMARKS.md. A time is
the least of RUNS, output to /dev/null. TIMED is the program of timed.c; the schedules are put into
DIR. Ends with 1 where two write different bytes."""
import os
import subprocess
import sys

from mixture import mixture

LINES, RUNS, LONG = 1000000, 7, 10


def written(program, path):
    with open(path, "rb") as given:
        return subprocess.run([program], stdin=given, stdout=subprocess.PIPE, check=True).stdout


def timed(command, **given):
    """Nanoseconds and KiB of one run."""
    process = subprocess.Popen(command, stdout=subprocess.DEVNULL, stderr=subprocess.PIPE, **given)
    return process, lambda: tuple(map(int, process.communicate()[1].split()))


def measure(timer, programs, path):
    best = {}
    for _ in range(RUNS):
        for program in programs:
            with open(path, "rb") as given:
                one = timed([timer, program], stdin=given)[1]()
                best[program] = min(best.get(program, (1 << 62, 0)), one)
    return [best[program] for program in programs]


def memory(timer, program, first, body, times):
    """KiB at most, where the lines of the body come so many times, by a pipe."""
    process, result = timed([timer, program], stdin=subprocess.PIPE)
    process.stdin.write(first)
    for _ in range(times):
        process.stdin.write(body)
    process.stdin.flush()
    return result()[1]


def codes(text):
    """How often each code was answered."""
    found = {}
    for line in text.splitlines():
        code = line[5:line.index(b" ")].decode()
        found[code] = found.get(code, 0) + 1
    return ", ".join("%s: %s" % (code, f"{found[code]:,}") for code in sorted(found, key=int))


def main(ours, plain, unlocked, timer, folder):
    inputs = [("mixed", *mixture(LINES)), ("mixed, no collect", *mixture(LINES, 0))]
    print("| input | lines | bytes | ours, ms | C, ms | C unlocked, ms | ours / C "
          "| ours / C unlocked |\n|---|---|---|---|---|---|---|---|")
    notes = []
    for name, first, body in inputs:
        path = os.path.join(folder, "lines.txt")
        with open(path, "wb") as target:
            target.write(first + body)
        text = written(ours, path)
        if any(text != written(other, path) for other in (plain, unlocked)):
            sys.exit("lines: two write different bytes on the input '%s'" % name)
        times = [t / 1e6 for t, _ in measure(timer, [ours, plain, unlocked], path)]
        ratios = [times[0] / t for t in times[1:]]
        numbers = (name, f"{LINES:,}", f"{len(first + body):,}", *times, *ratios)
        print("| %s | %s | %s | %.1f | %.1f | %.1f | %.2f | %.2f |" % numbers, flush=True)
        notes.append("%s: codes %s" % (name, codes(text)))
    print("\n| lines | ours, KiB at most | C, KiB at most |\n|---|---|---|")
    _, first, body = inputs[0]
    for times in (1, LONG):
        most = [memory(timer, program, first, body, times) for program in (ours, plain)]
        print("| %s | %d | %d |" % (f"{times * LINES:,}", *most), flush=True)
    print("\n" + "\n".join(notes))


if __name__ == "__main__":
    main(*sys.argv[1:])
