"""What the gate takes, in seconds of processor time, by crate and by kind.

`python3 checks/gate_times.py rt ci --anew` runs that command, and behind it prints a row for each crate: its proof, the proof of its
tests, and its must-fail edits (how many, together with the check that they begin with, and the dearest of them). Any other command that
starts the prover will do, such as `rt ci NAME`; what an earlier run kept is not proved again, and has no row.
`--of PID` follows a running command until it ends or is interrupted, and tells of what it saw.

It looks twice a second at the processes that the command started, so what is told of a check may be half a second short. The times
are user and system time: other work on the machine makes them some half more, by the caches that it shares, and not many times more.
"""
import os
import re
import subprocess
import sys
import time

TICK = os.sysconf("SC_CLK_TCK")
PAUSE = 0.5


def processes():
    """The parent and the ticks, with those of children that ended, of each process."""
    found = {}
    for name in filter(str.isdigit, os.listdir("/proc")):
        try:
            with open(f"/proc/{name}/stat", encoding="utf-8", errors="replace") as it:
                fields = it.read().rsplit(")", 1)[1].split()
        except OSError:
            continue
        found[int(name)] = int(fields[1]), sum(map(int, fields[11:15])), fields[19]
    return found


def words_of(number):
    """The command line of a process and the folder that it runs in, or none."""
    try:
        with open(f"/proc/{number}/cmdline", encoding="utf-8", errors="replace") as it:
            return it.read().split("\0"), os.readlink(f"/proc/{number}/cwd")
    except OSError:
        return [], ""


def check_of(number):
    """The crate that a process checks, and as what, or none."""
    words, folder = words_of(number)
    if not words or os.path.basename(words[0]) != "rattle" or "--crate-name" not in words:
        return None
    crate = words[words.index("--crate-name") + 1]
    if re.search(r"/rt-edit-", folder):
        return crate, "edits"
    return crate, "tests" if any(it.startswith("--test") for it in words) else "proof"


class Times:
    """The ticks of each check that was seen, the highest that it had."""

    def __init__(self):
        self.checks = {}
        self.kinds = {}

    def look(self, root):
        """Looks at all that is below the process, and says whether it is there."""
        found = processes()
        below = {}
        for number, (parent, _, _) in found.items():
            below.setdefault(parent, []).append(number)
        todo = [(root, None)]
        sums = {}
        while todo:
            number, check = todo.pop()
            if number not in found:
                continue
            _, ticks, start = found[number]
            name = number, start
            if check is None:
                # (a process may become the prover after it is first seen)
                if name not in self.kinds and (kind := check_of(number)):
                    self.kinds[name] = kind
                check = name if name in self.kinds else None
            if check:
                sums[check] = sums.get(check, 0) + ticks
            todo += [(it, check) for it in below.get(number, [])]
        for check, ticks in sums.items():
            self.checks[check] = max(ticks, self.checks.get(check, 0))
        return root in found

    def rows(self):
        """By crate: the seconds of each check of each kind."""
        rows = {}
        for name, ticks in self.checks.items():
            crate, kind = self.kinds[name]
            rows.setdefault(crate, {}).setdefault(kind, []).append(ticks / TICK)
        return rows


def told(rows):
    """The table, the dearest crate first."""
    kinds = "proof", "tests", "edits"
    total = lambda row: sum(map(sum, row.values()))
    lines = ["| crate | proof | tests | edits | tries | dearest | all |", "|---|---|---|---|---|---|---|"]
    for crate, row in sorted(rows.items(), key=lambda it: -total(it[1])):
        edits = row.get("edits", [])
        sums = " | ".join(f"{sum(row.get(kind, [])):.0f}" for kind in kinds)
        lines.append(f"| `{crate}` | {sums} | {len(edits)} | {max(edits, default=0):.0f} | {total(row):.0f} |")
    sums = [sum(sum(row.get(kind, [])) for row in rows.values()) / 60 for kind in kinds]
    lines.append(f"In minutes: proofs {sums[0]:.1f}, tests {sums[1]:.1f}, edits {sums[2]:.1f}, all {sum(sums):.1f}.")
    return "\n".join(lines)


def main(words):
    if not words:
        sys.exit(__doc__)
    times, ran, status = Times(), None, 0
    try:
        if words[0] == "--of":
            while times.look(int(words[1])):
                time.sleep(PAUSE)
        else:
            ran = subprocess.Popen(words)
            while ran.poll() is None:
                times.look(ran.pid)
                time.sleep(PAUSE)
            status = ran.returncode
    except KeyboardInterrupt:
        status = 130
    print(told(times.rows()))
    return status


if __name__ == "__main__":
    sys.exit(main(sys.argv[1:]))
