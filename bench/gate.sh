#!/usr/bin/env bash
# What the gate costs from nothing: runs `rt ci --anew`, and prints for each crate the processor minutes of its proof, of
# its tests, of the check that its must-fail edits begin with and of the edits themselves, and the most memory of a check;
# then the sums, the longest chain (how long the gate takes on as many processors as it can use) and the crates above
# their budget: a proof 3 minutes, tests 1.5, edits with the check that they begin with 5. It ends with the gate's status.
# Words behind it go to `rt ci`, as names of crates where the kit's takes them: `bench/gate.sh server_core`. Nothing else should
# run meanwhile. With `--log FILE` it runs `rt ci` alone, adds what that took to FILE, and prints the table of all runs that FILE
# has: so where the kit keeps what it passed, a gate from nothing can be measured in several runs.
set -eu
top=$(cd "$(dirname "${BASH_SOURCE[0]}")/.." && pwd)
work=$(mktemp -d)
trap 'rm -rf "$work"' EXIT
log="$work/log" anew=--anew
if [ "${1-}" = --log ]; then
    log=$(realpath "$2") anew=
    shift 2
fi
cd "$top"

# Stands for the prover: runs it, and notes what the run took.
cat > "$work/prover" <<'PY'
#!/usr/bin/env python3
import json, os, resource, signal, subprocess, sys
status = subprocess.call([os.environ["GATE_PROVER"], *sys.argv[1:]])
used = resource.getrusage(resource.RUSAGE_CHILDREN)
row = {"in": os.getcwd(), "words": sys.argv[1:], "seconds": used.ru_utime + used.ru_stime, "kb": used.ru_maxrss, "status": status}
with open(os.environ["GATE_LOG"], "a") as log:
    log.write(json.dumps(row) + "\n")
if status < 0:
    os.kill(os.getpid(), -status)
sys.exit(status)
PY
chmod +x "$work/prover"

cat > "$work/gate.py" <<'PY'
import collections, importlib.machinery, importlib.util, json, os, shutil, sys, time
sys.dont_write_bytecode = True
work, log, names = sys.argv[1], sys.argv[2], sys.argv[3:]
command = os.path.realpath(shutil.which("rt"))
# (a kit that keeps nothing has no `--anew`: each run of its `rt ci` is from nothing)
if "--anew" in names and "--anew" not in open(command).read():
    print("the kit's rt knows no --anew, and so its rt ci is taken to keep nothing", file=sys.stderr)
    names.remove("--anew")
loader = importlib.machinery.SourceFileLoader("rt_command", command)
rt = importlib.util.module_from_spec(importlib.util.spec_from_loader("rt_command", loader))
loader.exec_module(rt)
os.environ.update(GATE_PROVER=rt.rtlib.RATTLE, GATE_LOG=log)
rt.rtlib.RATTLE = f"{work}/prover"
began = time.time()
status = rt.main(["ci", *names])
wall = time.time() - began

KINDS = ("proof", "tests", "seed", "edits")
BUDGET = {"proof": 3, "tests": 1.5, "edits with their seed": 5}
spent = collections.defaultdict(lambda: dict.fromkeys(KINDS, 0.0))
single, memory, tried = collections.defaultdict(list), collections.Counter(), collections.Counter()

# What a run of the prover was for. (The first edit of a crate is checked over nothing, those behind it over what that proved.)
def kind_of(crate, words, place):
    if "--test" in words:
        return "tests"
    if not os.path.basename(place).startswith("rt-edit-"):
        return "proof"
    over = words[words.index("--incremental") + 1] if "--incremental" in words else ""
    is_first = over and not spent[crate]["seed"] and (over.endswith("/seed") or not single[crate])
    return "seed" if is_first else "edits"

# (a run that a signal ended is left out: it is done again)
for row in map(json.loads, open(log) if os.path.exists(log) else ()):
    words = row["words"]
    if "--crate-name" not in words or row["status"] < 0:
        continue
    crate = words[words.index("--crate-name") + 1]
    kind = kind_of(crate, words, row["in"])
    spent[crate][kind] += row["seconds"] / 60
    memory[crate] = max(memory[crate], row["kb"])
    if kind == "edits":
        single[crate].append(row["seconds"] / 60)

below = {}
for line in open("crates.txt"):
    name, found, needs = line.partition("#")[0].partition(":")
    if found:
        below[name.split()[0]] = needs.split()

# When a crate's proof ends on as many processors as can be used, and all that is done for it.
def proved(crate):
    return spent[crate]["proof"] + started(crate)

def started(crate):
    return max([proved(it) for it in below[crate] if it in below] or [0])

def ended(crate):
    first = max(spent[crate][it] for it in ("proof", "tests", "seed"))
    edits = sorted(single[crate])
    # (the last one checks the crate as it stands once more)
    return started(crate) + first + sum(edits[-1:]) + (edits[0] if len(edits) > 1 else 0)

print(f"\n{'crate':24}{'proof':>8}{'tests':>8}{'seed':>8}{'edits':>8}{'all':>8}{'GB':>7}   processor minutes")
for crate in [it for it in below if it in spent]:
    row = spent[crate]
    print(f"{crate:24}" + "".join(f"{row[it]:8.1f}" for it in KINDS) + f"{sum(row.values()):8.1f}{memory[crate] / 2**20:7.1f}")
sums = {it: sum(row[it] for row in spent.values()) for it in KINDS}
print(f"{'all':24}" + "".join(f"{sums[it]:8.1f}" for it in KINDS) + f"{sum(sums.values()):8.1f}{max(memory.values(), default=0) / 2**20:7.1f}")
last = max(list(spent), key=ended, default=None)
if last:
    print(f"longest chain: {ended(last):.0f} minutes, to the end of {last}; this run took {wall / 60:.0f} minutes on {os.cpu_count()} processors")
for crate in [it for it in below if it in spent]:
    row = spent[crate]
    found = {"proof": row["proof"], "tests": row["tests"], "edits with their seed": row["seed"] + row["edits"]}
    for what, much in found.items():
        if much > BUDGET[what]:
            print(f"above its budget: {crate}, {what}: {much:.1f} of {BUDGET[what]} minutes")
sys.exit(status)
PY
python3 -I "$work/gate.py" "$work" "$log" $anew "$@"
