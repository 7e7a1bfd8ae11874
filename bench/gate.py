#!/usr/bin/env python3
"""Where the time of the gate goes: runs `rt ci` at the top of the repository and looks at its processes meanwhile.

    bench/gate.py run LOG [NAME..]   runs `rt ci NAME..`, and writes into LOG what each check took (its output goes to LOG.out)
    bench/gate.py table LOG          prints, for each crate, the processor minutes of its proof, of its tests, of what its
                                     edits begin with and of its edits, with the peak of its memory, as a table
    bench/gate.py edits LOG          prints the processor seconds of each must-fail edit, the longest first
    bench/gate.py functions FOLDER   prints where the time of one check went, function by function and lemma file by lemma
                                     file, the longest first. FOLDER is what a check from nothing by one job kept, as
                                     crates/NAME/out/incremental behind `rt check --jobs 1`: a file stands there for each
                                     module, and was written when that module was checked

A check is a process of `rattle` with its children. What a process takes between the last look and its end is lost: at most
a quarter of a second. Memory is what the processes hold resident. A gate from nothing is one on a machine on which
/opt/rattle-kept is empty.
"""
import json
import os
import re
import subprocess
import sys
import time

TICKS = os.sysconf("SC_CLK_TCK")
PAGE = os.sysconf("SC_PAGE_SIZE")
PAUSE = 0.25


def read(path):
    try:
        with open(path, "rb") as it:
            return it.read()
    except OSError:
        return b""


def words_of(pid):
    return read(f"/proc/{pid}/cmdline").decode(errors="replace").split("\0")


def after(words, flag):
    return words[words.index(flag) + 1] if flag in words[:-1] else ""


def kind_of(words, folder):
    """Returns the crate of a check and what the check is for, or None for another process."""
    crate = after(words, "--crate-name")
    if not crate:
        return None
    edits = re.search(r"rt-edits-\d+-[^/]*/(seed|\d+)", after(words, "--incremental"))
    if edits:
        return crate, "seed" if edits[1] == "seed" else f"edit {edits[1]}"
    if "/rt-edit-" in folder:
        return crate, "edit alone"
    if "--crate-checked" in words:
        return crate, "build"
    return crate, "tests" if "--test" in words else "proof"


def processes():
    """Returns each process by its number: its parent, the seconds that it took, its memory, and when it started."""
    found = {}
    for name in os.listdir("/proc"):
        if name.isdigit():
            fields = read(f"/proc/{name}/stat").rpartition(b")")[2].split()
            if len(fields) > 21:
                taken = (int(fields[11]) + int(fields[12])) / TICKS
                found[int(name)] = int(fields[1]), taken, int(fields[21]) * PAGE, int(fields[19])
    return found


def look(top, known, taken, peaks, most):
    """Adds what the processes below `top` have taken so far."""
    found = processes()
    below, held, total = {top}, {}, 0
    for pid in sorted(found, key=lambda it: found[it][3]):
        parent, seconds, memory, started = found[pid]
        if parent not in below and pid not in below:
            continue
        below.add(pid)
        total += memory
        one = pid, started
        if one not in known or known[one] == ("", "other"):
            try:
                folder = os.readlink(f"/proc/{pid}/cwd")
            except OSError:
                folder = ""
            parents = known.get((parent, found[parent][3])) if parent in found else None
            known[one] = kind_of(words_of(pid), folder) or parents or ("", "other")
        taken[one] = seconds
        held[known[one]] = held.get(known[one], 0) + memory
    for task, memory in held.items():
        peaks[task] = max(peaks.get(task, 0), memory)
    most[0] = max(most[0], total)


def run(log, names):
    known, taken, peaks, most, began = {}, {}, {}, [0], time.time()
    with open(f"{log}.out", "wb") as out:
        gate = subprocess.Popen(["rt", "ci", *names], stdout=out, stderr=subprocess.STDOUT, stdin=subprocess.DEVNULL)
        saved = 0
        while gate.poll() is None:
            look(gate.pid, known, taken, peaks, most)
            if time.time() > saved + 20:
                saved = time.time()
                save(log, known, taken, peaks, most, began, None)
            time.sleep(PAUSE)
    save(log, known, taken, peaks, most, began, gate.returncode)
    return gate.returncode


def save(log, known, taken, peaks, most, began, status):
    seconds = {}
    for one, task in known.items():
        seconds[task] = seconds.get(task, 0) + taken.get(one, 0)
    tasks = [[*task, round(seconds[task], 1), peaks.get(task, 0)] for task in sorted(seconds)]
    whole = {"tasks": tasks, "peak": most[0], "minutes": (time.time() - began) / 60, "status": status}
    with open(f"{log}.new", "w") as it:
        json.dump(whole | {"processors": len(os.sched_getaffinity(0))}, it, indent=0)
    os.replace(f"{log}.new", log)


def edits_of(crate):
    top = subprocess.run(["git", "rev-parse", "--show-toplevel"], stdout=subprocess.PIPE, text=True).stdout.strip()
    folder = f"{top}/crates/{crate}/must-fail"
    return sorted(it for it in os.listdir(folder) if it.endswith(".edit")) if os.path.isdir(folder) else []


def table(whole):
    crates = {}
    for crate, kind, seconds, peak in whole["tasks"]:
        row = crates.setdefault(crate or "(rt itself, links)", {"proof": 0, "tests": 0, "seed": 0, "edits": 0, "number": 0, "longest": 0, "peak": 0})
        place = "edits" if kind.startswith("edit") else "proof" if kind in ("build", "other") else kind
        row[place] += seconds
        row["number"] += kind.startswith("edit")
        row["longest"] = max(row["longest"], seconds if kind.startswith("edit") else 0)
        row["peak"] = max(row["peak"], peak)
    print("| crate | proof | tests | begun | edits | longest edit | all | peak |")
    print("|---|---|---|---|---|---|---|---|")
    sums = dict.fromkeys(("proof", "tests", "seed", "edits", "number"), 0)
    every = lambda row: sum(row[it] for it in ("proof", "tests", "seed", "edits"))
    for crate, row in sorted(crates.items(), key=lambda it: -every(it[1])):
        for it in sums:
            sums[it] += row[it]
        minutes = [f"{row[it] / 60:.1f}" for it in ("proof", "tests", "seed")]
        edits = f"{row['edits'] / 60:.1f} ({row['number']})"
        print(f"| `{crate}` | {' | '.join(minutes)} | {edits} | {row['longest']:.0f} s | {every(row) / 60:.1f} | {row['peak'] / 1e9:.1f} GB |")
    minutes = [f"{sums[it] / 60:.1f}" for it in ("proof", "tests", "seed")]
    print(f"| all | {' | '.join(minutes)} | {sums['edits'] / 60:.1f} ({sums['number']}) | | {every(sums) / 60:.1f} | {whole['peak'] / 1e9:.1f} GB |")
    print(f"\n{whole['processors']} processors, {whole['minutes']:.0f} minutes, status {whole['status']}")


def edits(whole):
    found = [it for it in whole["tasks"] if it[1].startswith("edit")]
    for crate, kind, seconds, peak in sorted(found, key=lambda it: -it[2]):
        number = kind.removeprefix("edit ")
        names = edits_of(crate)
        print(f"{seconds:7.1f} s {peak / 1e9:5.1f} GB  {crate}/{names[int(number)] if number.isdigit() and int(number) < len(names) else number}")


# Parts of a function's check, each a module of its own.
PARTS = r"\.(Answers|Goals|Code|TheLink|Symbol|Statement|Proof|Key|Mir|Invariants|Lts|Tie|Kinds|Layout|Reads|Given|View|Named|The\w+)(\.|$).*"


def functions(folder):
    modules = []
    for at, _, names in os.walk(folder):
        for name in names:
            if name.endswith(".oantt") and not name.endswith(".decls.oantt"):
                modules.append((os.stat(f"{at}/{name}").st_mtime, re.sub(r"^Rattle-\w+?-(proofs|specs)\.", "", name[: -len(".oantt")])))
    modules.sort()
    taken, before = {}, modules[0][0] if modules else 0
    for moment, name in modules:
        whole = re.sub(PARTS, "", name)
        taken[whole] = taken.get(whole, 0) + moment - before
        before = moment
    for name, seconds in sorted(taken.items(), key=lambda it: -it[1]):
        if seconds >= 0.5:
            print(f"{seconds:7.1f} s  {name}")
    print(f"{sum(taken.values()):7.1f} s  all of {len(modules)} modules")


def main(words):
    if len(words) >= 2 and words[0] == "run":
        return run(words[1], words[2:])
    if len(words) == 2 and words[0] == "functions":
        functions(words[1])
        return 0
    if len(words) == 2 and words[0] in ("table", "edits"):
        with open(words[1]) as it:
            (table if words[0] == "table" else edits)(json.load(it))
        return 0
    print(__doc__, end="", file=sys.stderr)
    return 2


if __name__ == "__main__":
    sys.exit(main(sys.argv[1:]))
