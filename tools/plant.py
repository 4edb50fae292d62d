"""Plants bugs in the code, one at a time, and says what refuses each.

    python3 tools/plant.py SCRATCH [CRATE...]     tries those of tools/planted.json, and writes docs/PLANTED-BUGS.md

SCRATCH is a folder that the repository is copied to, with what an earlier check left in each crate's out/. A bug of a
library is refused by an open goal or by a proof that no longer fits; one of a program by that, or by what the program
prints. `rt check` decides on the proof. A program that proves is built by `rt run`, and run once more by itself, on the
input that the gate gives it.
"""

import json
import os
import re
import shutil
import subprocess
import sys
import tempfile

ROOT = os.path.dirname(os.path.dirname(os.path.abspath(__file__)))
PROGRAMS = ("pogbaye", "batch", "bench")


def copy_to(scratch):
    if not os.path.isdir(scratch):
        shutil.copytree(ROOT, scratch, symlinks=True)


def told(log):
    """What refused the bug, in a few words; None if nothing did."""
    goals = re.findall(r"^fn \w+::(\S+): no proof: .*?`search` did not prove `([^`]+)`", log, re.M)
    if goals:
        return "open goal `%s` of `%s`" % (goals[0][1], goals[0][0])
    broken = re.findall(r"^fn \w+::(\S+): not proved", log, re.M)
    if broken:
        return "the proof of `%s`" % broken[0]
    error = re.search(r"error\[([\w-]+)\]", log)
    if error:
        return "the compiler, `%s`" % error.group(1)
    if "logic=not-proved" in log:
        return "the proof"
    return None


def rt(folder, *words):
    run = subprocess.run(["rt", *words], cwd=folder, stdin=subprocess.DEVNULL, capture_output=True, text=True)
    return run.returncode, run.stdout + run.stderr


def prints_as_stored(folder, crate):
    """Builds a program, and runs it as the gate does: with its arguments and input, where its data lies."""
    rt(folder, "run")
    args = os.path.join(folder, "args")
    words = open(args).read().split("\n")[:-1] if os.path.exists(args) else []
    given = os.path.join(folder, "stdin")
    with tempfile.TemporaryDirectory() as place, open(given if os.path.exists(given) else os.devnull, "rb") as stdin:
        data = os.path.join(folder, "data")
        if os.path.isdir(data):
            shutil.copytree(data, place, dirs_exist_ok=True)
        run = subprocess.run([os.path.join(folder, "out", crate), *words], cwd=place, stdin=stdin, capture_output=True)
    return run.returncode == 0 and run.stdout == open(os.path.join(folder, "stdout"), "rb").read()


def plant(scratch, bug):
    folder = os.path.join(scratch, "crates", bug["crate"])
    path = os.path.join(folder, bug["file"])
    text = open(path).read()
    if text.count(bug["old"]) != 1:
        return "BAD BUG: the old text stands %d times" % text.count(bug["old"])
    open(path, "w").write(text.replace(bug["old"], bug["new"]))
    try:
        status, log = rt(folder, "check")
        if told(log):
            return told(log)
        if status != 0:
            return "refused: " + log[-200:]
        if bug["crate"] in PROGRAMS and not prints_as_stored(folder, bug["crate"]):
            return "what the program prints"
        return "SURVIVED"
    finally:
        open(path, "w").write(text)


def main():
    scratch, wanted = sys.argv[1], sys.argv[2:]
    copy_to(scratch)
    bugs = json.load(open(os.path.join(ROOT, "tools", "planted.json")))
    kept = os.path.join(scratch, "planted.results.json")
    results = json.load(open(kept)) if os.path.exists(kept) else {}
    for bug in bugs:
        key = "%s|%s|%s|%s" % (bug["crate"], bug["file"], bug["old"], bug["new"])
        if (wanted and bug["crate"] not in wanted) or key in results:
            continue
        results[key] = plant(scratch, bug)
        print(bug["crate"], "|", bug["what"], "|", results[key], flush=True)
        json.dump(results, open(kept, "w"))
    write(bugs, results)


def write(bugs, results):
    lines = ["# Planted bugs", "",
             "Each was planted alone, by `tools/plant.py`; this page is what it wrote. An open goal is a fact that the",
             "prover asks for and that no longer holds; a proof is one that no longer fits the code; what a program",
             "prints is held to its stored output.", ""]
    for crate in sorted({b["crate"] for b in bugs}, key=[b["crate"] for b in bugs].index):
        lines += ["## " + crate, "", "| planted | refused by |", "|---|---|"]
        for b in bugs:
            key = "%s|%s|%s|%s" % (b["crate"], b["file"], b["old"], b["new"])
            if b["crate"] == crate:
                lines.append("| %s: %s | %s |" % (b["file"].replace("src/", ""), b["what"], results.get(key, "not tried")))
        lines.append("")
    open(os.path.join(ROOT, "docs", "PLANTED-BUGS.md"), "w").write("\n".join(lines))


if __name__ == "__main__":
    main()
