#!/usr/bin/env python3
"""Times `rt ci` from nothing on two processors, and `tests/wrong.py` behind it, and tells what each crate takes of them.
Usage: bench/gate.py [PROCESSORS], 0,1 if not said; the others should be idle. It works on a clone of what is committed, in a
temporary folder, so that files may be edited meanwhile. What the gate says is in its file gate.log.

The table has seconds of processor time, by crate: its proof with the builds of its programs, its tests' proof, and the checks of its
wrong bodies, with the number of these checks. A process is looked at four times a second, so that the last quarter of a second of each is
missed."""

import collections
import os
import pathlib
import subprocess
import sys
import tempfile
import time

TICKS = os.sysconf("SC_CLK_TCK")
KINDS = ["proof", "tests", "wrong"]


def kind_of(words, folder):
    """What a run of the prover is for, or None."""
    if words[1] not in ("check", "build"):
        return None
    if "rt-edit-" in folder or "bpf-wrong-" in folder:
        return "wrong"
    return "tests" if "--test" in words else "proof"


def looked_at(number):
    """The crate, the kind, the session, the start and the processor time of a process, or None if it is no run of the prover."""
    try:
        words = pathlib.Path(f"/proc/{number}/cmdline").read_bytes().decode(errors="replace").split("\0")
        if os.path.basename(words[0]) != "rattle" or "--crate-name" not in words:
            return None
        kind = kind_of(words, os.readlink(f"/proc/{number}/cwd"))
        fields = pathlib.Path(f"/proc/{number}/stat").read_text().rpartition(")")[2].split()
    except (OSError, IndexError):
        return None
    crate = words[words.index("--crate-name") + 1]
    return kind and (crate, kind, fields[3], fields[19], (int(fields[11]) + int(fields[12])) / TICKS)


def told(seen, minutes):
    """The table, the crate that takes longest first."""
    spent, runs = collections.Counter(), collections.Counter()
    for (_, crate, kind, _), seconds in seen.items():
        spent[crate, kind] += seconds
        runs[crate, kind] += 1
    whole = lambda crate: sum(spent[crate, kind] for kind in KINDS)
    crates = sorted({crate for crate, _ in spent}, key=whole, reverse=True)
    lines = [f"{'':16}" + "".join(f"{kind:>8}" for kind in KINDS) + "  number"]
    for crate in crates:
        columns = "".join(f"{spent[crate, kind]:8.0f}" if spent[crate, kind] else " " * 8 for kind in KINDS)
        lines.append(f"{crate:16}{columns}{runs[crate, 'wrong'] or '':>8}")
    sums = "".join(f"{sum(spent[crate, kind] for crate in crates):8.0f}" for kind in KINDS)
    lines.append(f"{'all':16}{sums}{sum(runs[crate, 'wrong'] for crate in crates):>8}")
    lines.append(f"{minutes:.1f} minutes, {sum(map(whole, crates)):.0f} seconds of processor time")
    return "\n".join(lines)


def main():
    processors = sys.argv[1] if len(sys.argv) > 1 else "0,1"
    top = pathlib.Path(__file__).resolve().parent.parent
    room = pathlib.Path(tempfile.mkdtemp(prefix="gate-"))
    subprocess.run(["git", "clone", "-q", top, room / "tree"], check=True)
    told_of = subprocess.run(["rt", "help"], stdout=subprocess.PIPE, stderr=subprocess.STDOUT, text=True, check=False).stdout
    # A kit whose `rt ci` may take over what an earlier run has proved has a word for not doing so.
    anew = " --anew" if "--anew" in told_of else ""
    words = ["taskset", "-c", processors, "sh", "-c", f"rt ci{anew} && tests/wrong.py --anew"]
    how = dict(os.environ, RT_JOBS=str(processors.count(",") + 1))
    print(f"{room}/gate.log", flush=True)
    seen, begun = {}, time.monotonic()
    with open(room / "gate.log", "w", encoding="utf-8") as log:
        gate = subprocess.Popen(
            words, cwd=room / "tree", env=how, stdout=log, stderr=subprocess.STDOUT, start_new_session=True
        )
        while gate.poll() is None:
            for number in filter(str.isdigit, os.listdir("/proc")):
                found = looked_at(number)
                if found and found[2] == str(gate.pid):
                    crate, kind, _, start, seconds = found
                    seen[number, crate, kind, start] = seconds
            (room / "table").write_text(told(seen, (time.monotonic() - begun) / 60) + "\n", encoding="utf-8")
            time.sleep(0.25)
    print(told(seen, (time.monotonic() - begun) / 60))
    return gate.returncode


if __name__ == "__main__":
    sys.exit(main())
