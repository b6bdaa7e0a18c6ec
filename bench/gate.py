#!/usr/bin/env python3
"""Runs the whole gate from nothing, and prints what it cost: processor minutes by crate and phase.

usage: bench/gate.py [--jobs N] [REPOSITORY]

Clones what is committed in REPOSITORY (this one) into a temporary folder, runs `rt ci --anew` there, and
looks at the processes of that run four times a second. The phases are

  proof   the proof of the crate, and its two builds where it is a program
  tests   the proof of its test functions, with their build
  begin   what its must-fail edits begin with: a proof of the crate as it stands, once before and once after them
  edits   the must-fail edits themselves
  run     its tests and programs as they run

A process counts for the processor time that it and its children took by the last look at it, so some 0.2 seconds of each
are missed; they stand in the row 'not seen', with what `rt` itself took. Machines differ by a factor of two: SHA-256 over
32 MB, on one core, is timed before and after, and stands below the table. `--jobs N` uses N processors.
"""
import argparse
import hashlib
import os
import re
import resource
import subprocess
import sys
import tempfile
import time
from pathlib import Path

PHASES = ("proof", "tests", "begin", "edits", "run")
TICKS = os.sysconf("SC_CLK_TCK")


def sha_ms():
    """Returns the processor time of SHA-256 over 32 MB, in ms: the best of three."""
    block, found = bytes(32 << 20), []
    for _ in range(3):
        start = time.process_time()
        hashlib.sha256(block).digest()
        found.append(1000 * (time.process_time() - start))
    return round(min(found))


def processes():
    """Returns, by process, its parent and the ticks that it and its children that ended took."""
    found = {}
    for name in os.listdir("/proc"):
        if name.isdigit():
            try:
                text = Path(f"/proc/{name}/stat").read_text()
            except OSError:
                continue
            fields = text[text.rindex(")") + 2 :].split()
            found[int(name)] = int(fields[1]), sum(map(int, fields[11:15])), int(fields[19])
    return found


def words_of(pid):
    try:
        return Path(f"/proc/{pid}/cmdline").read_bytes().decode(errors="replace").split("\0")
    except OSError:
        return []


def kind_of(pid):
    """Returns the crate and the phase that a child of rt works for, as far as it can be told yet."""
    words = words_of(pid)
    after = lambda word: words[words.index(word) + 1] if word in words else ""
    try:
        folder = os.readlink(f"/proc/{pid}/cwd")
    except OSError:
        return None
    at = re.search(r"/crates/(\w+)", folder)
    if "--crate-name" not in words:
        return (at[1], "run") if at else None
    if "--test" in words:
        return after("--crate-name"), "tests"
    if "/rt-edit-" not in folder:
        return after("--crate-name"), "proof"
    return after("--crate-name"), "begin" if after("--incremental").endswith("/seed") else "edits"


class Seen:
    """What was seen of the children of one process."""

    def __init__(self, root):
        self.root, self.kinds, self.ticks = root, {}, {}

    def look(self):
        found, below = processes(), {}
        for pid, (parent, _, _) in found.items():
            below.setdefault(parent, []).append(pid)

        def whole(pid):
            return found[pid][1] + sum(map(whole, below.get(pid, ())))

        for pid in below.get(self.root, ()):
            key = pid, found[pid][2]
            # (a process is seen before it became what rt begins)
            if self.kinds.get(key, (None, "run"))[1] == "run":
                self.kinds[key] = kind_of(pid) or self.kinds.get(key, (None, "run"))
            self.ticks[key] = max(self.ticks.get(key, 0), whole(pid))

    def table(self):
        """Returns the minutes by crate and phase."""
        minutes = {}
        for key, ticks in self.ticks.items():
            crate, phase = self.kinds[key]
            if crate:
                of = minutes.setdefault(crate, dict.fromkeys(PHASES, 0.0))
                of[phase] += ticks / TICKS / 60
        return minutes


def written(minutes, whole):
    """Returns the table as text: crates by what they cost, then all, and what wasn't seen."""
    rows = ["| Crate | " + " | ".join(PHASES) + " | all |", "|---" * (len(PHASES) + 2) + "|"]
    row = lambda name, of: f"| {name} | " + " | ".join(f"{it:.1f}" for it in [*of, sum(of)]) + " |"
    for crate, of in sorted(minutes.items(), key=lambda it: -sum(it[1].values())):
        rows.append(row(f"`{crate}`", of.values()))
    sums = [sum(of[it] for of in minutes.values()) for it in PHASES]
    rows += [row("all", sums), f"| not seen |" + " |" * len(PHASES) + f" {whole - sum(sums):.1f} |"]
    return "\n".join(rows)


def main():
    asked = argparse.ArgumentParser(usage=__doc__.split("\n")[2][7:])
    asked.add_argument("--jobs", type=int)
    asked.add_argument("repository", nargs="?", default=Path(__file__).resolve().parent.parent)
    asked = asked.parse_args()
    with tempfile.TemporaryDirectory(prefix="gate-") as room:
        subprocess.run(["git", "clone", "-q", "--no-hardlinks", str(asked.repository), f"{room}/repo"], check=True)
        commit = subprocess.run(["git", "-C", f"{room}/repo", "rev-parse", "--short", "HEAD"], stdout=subprocess.PIPE, text=True).stdout.strip()
        sha, start, log = sha_ms(), time.time(), Path(f"{tempfile.gettempdir()}/gate-{os.getpid()}.log")
        print(f"commit {commit}; what rt says is in {log}", flush=True)
        known = dict(os.environ, **({"RT_JOBS": str(asked.jobs)} if asked.jobs else {}))
        with open(log, "w") as out:
            ran = subprocess.Popen(["rt", "ci", "--anew"], cwd=f"{room}/repo", stdin=subprocess.DEVNULL, stdout=out, stderr=subprocess.STDOUT, env=known)
            seen = Seen(ran.pid)
            while ran.poll() is None:
                seen.look()
                time.sleep(0.25)
        wall, used = (time.time() - start) / 60, resource.getrusage(resource.RUSAGE_CHILDREN)
        whole = (used.ru_utime + used.ru_stime) / 60
        print(written(seen.table(), whole))
        print(f"\n{whole:.0f} processor minutes, {wall:.0f} minutes of wall on {asked.jobs or os.cpu_count()} processors; SHA-256 over 32 MB took {sha} ms before and {sha_ms()} ms after.")
        print(log.read_text().rstrip().split("\n")[-1])
    return ran.returncode


if __name__ == "__main__":
    sys.exit(main())
