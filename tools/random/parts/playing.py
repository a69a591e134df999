"""Runs of the player, and what is wrong with one."""
import os
import subprocess

# What the table of exit numbers in README.md has; 6 is none of them.
STATUSES = [0, 1, 2, 3, 4, 5, 7, 8, 9]
# How long a run may take, by the clock.
SECONDS = float(os.environ.get("RUN_SECONDS", "10"))


class Run:
    """How a run ended: the exit number, or None where it took too long, and what it wrote."""

    def __init__(self, status, output, error):
        self.status, self.output, self.error = status, output, error


def play(player, folder, seed):
    """Plays the case in a folder."""
    words = [player, "play", "project.json", "script.txt", str(seed), "-"]
    try:
        ran = subprocess.run(words, cwd=folder, stdin=subprocess.DEVNULL, capture_output=True, timeout=SECONDS)
    except subprocess.TimeoutExpired:
        return Run(None, b"", b"")
    return Run(ran.returncode, ran.stdout, ran.stderr)


def no_answer():
    return "no answer in %g seconds" % SECONDS


def wrong(run, case):
    """What is wrong with a run of a case, or None."""
    if run.status is None:
        return no_answer()
    if run.status < 0:
        return "ended by signal %d" % -run.status
    if run.status not in STATUSES:
        return "ended with %d" % run.status
    if run.status == 4 and case.project_fault == "none":
        return "a project without a fault is refused: %s" % run.error.decode("utf-8", "replace").strip()
    if run.status == 5 and case.script_fault == "none":
        return "a script without a fault is refused: %s" % run.error.decode("utf-8", "replace").strip()
    return None


def first_difference(one, other):
    """The number and the texts of the first line that differs."""
    ones, others = one.split(b"\n"), other.split(b"\n")
    at = next((k for k, (a, b) in enumerate(zip(ones, others)) if a != b), min(len(ones), len(others)))
    told = [repr(lines[at][:120]) if at < len(lines) else "the end" for lines in (ones, others)]
    return "line %d: %s and %s" % (at + 1, told[0], told[1])


def difference(one, other):
    """Where two runs differ, or None."""
    if one.status is None:
        return no_answer()
    if one.status != other.status:
        return "exit numbers %s and %s" % (one.status, other.status)
    if one.error != other.error:
        return "standard error %r and %r" % (one.error[:120], other.error[:120])
    if one.output != other.output:
        return "standard output, " + first_difference(one.output, other.output)
    return None


def kept(folder):
    """What a judge left in the folder of a case, or None where it left nothing."""
    if not os.path.exists(os.path.join(folder, "judged.status")):
        return None
    parts = []
    for name in ("judged.status", "judged.txt", "judged.error"):
        with open(os.path.join(folder, name), "rb") as file:
            parts.append(file.read())
    return Run(int(parts[0]), parts[1], parts[2])
