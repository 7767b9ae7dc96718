"""fill.py IN.csv FILE.md: writes what ./bench measured into FILE.md, between the two marks: a line
on the machine, and for each call and table the library's time, that of the faster C, and the
ratio, by the number of nodes."""
import csv
import datetime
import platform
import subprocess
import sys

BEGIN, END = "<!-- ./bench writes from here -->\n", "<!-- to here -->\n"


def said(*command):
    return subprocess.run(command, capture_output=True, text=True, check=True).stdout


def machine():
    for line in said("lscpu").splitlines():
        if line.startswith("Model name:"):
            return line.split(":", 1)[1].strip()
    return platform.machine()


def measured_on():
    gcc, clang = (said(c, "-dumpversion").strip() for c in ("gcc", "clang"))
    today = datetime.date.today()
    when = f"{today.day} {today:%B %Y}"
    libc = " ".join(platform.libc_ver())
    return f"Measured on {machine()}, gcc {gcc}, clang {clang}, {libc}, {when}.\n"


def number(text):
    value = float(text)
    return f"{value:,.0f}" if value >= 100 else f"{value:.3g}"


def cell(row):
    best = min(row["gcc_ns"], row["clang_ns"], key=float)
    return f"{number(row['library_ns'])} / {number(best)} = **{float(row['ratio']):.2f}**"


def table(rows):
    sizes = sorted({int(r["m"]) for r in rows})
    cells = {}
    for r in rows:
        cells.setdefault((r["call"], r["table"]), {})[int(r["m"])] = cell(r)
    out = ["| call | table | " + " | ".join(f"M = {m:,}" for m in sizes) + " |"]
    out.append("|---|---|" + "---|" * len(sizes))
    for (call, kind), by_size in cells.items():
        out.append(f"| {call} | {kind} | " + " | ".join(by_size[m] for m in sizes) + " |")
    return "\n".join(out) + "\n"


def main():
    with open(sys.argv[1], newline="") as source:
        rows = list(csv.DictReader(source))
    with open(sys.argv[2]) as source:
        before, rest = source.read().split(BEGIN)
    after = rest.split(END)[1]
    with open(sys.argv[2], "w") as target:
        target.write(f"{before}{BEGIN}\n{measured_on()}\n{table(rows)}\n{END}{after}")


main()
