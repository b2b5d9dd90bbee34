"""How much stack the programs need: the smallest multiple of 32 KB with which each of them answers as it does with the usual limit."""
import resource
import subprocess
from pathlib import Path
from tempfile import TemporaryDirectory

STEP_KB, MOST_KB = 32, 4096
# Where the stack begins is random within a few KB, so each limit is tried several times.
TRIES = 8

ANY = [1, 255, 0, 31]
# The paper's rule of 128 equations; 63 max nodes, each inside the one before, and tt; a file that is cut off after 64 of them.
RULES = [bytes([*ANY, 1, 1, 5, 5, 6, 4, 5, 0, 7, 0, 5, 1] + 7 * [5, 0] + [2]), bytes(63 * [6] + [2]), bytes(64 * [6])]
# 64 states and 512 steps.
SILENT_STEPS = [[18, k, (k + 1) % 64] for k in range(64)]
CODE_STEPS = [[17, k % 64, 7 * k % 256, 11 * k % 64] for k in range(448)]
MODEL = bytes([16, 64] + sum(SILENT_STEPS + CODE_STEPS, []))
SCANS = 1024 * bytes(range(256))


def answer(program, rule, folder, kilobytes=None):
    """How a program ends under a limit on its stack, and what it prints."""
    (Path(folder) / "rule.bin").write_bytes(rule)
    (Path(folder) / "model.bin").write_bytes(MODEL)

    def limit():
        if kilobytes is not None:
            resource.setrlimit(resource.RLIMIT_STACK, (1024 * kilobytes, 1024 * kilobytes))

    given = rule if program.name == "equations" else SCANS
    done = subprocess.run([program], input=given, stdout=subprocess.PIPE, cwd=folder, env={}, preexec_fn=limit)
    return done.returncode, done.stdout


def is_enough(program, kilobytes, due, folder):
    return all(answer(program, rule, folder, kilobytes) == due[rule] for rule in RULES for _ in range(TRIES))


def least_stack(program):
    """In KB."""
    with TemporaryDirectory() as folder:
        due = {rule: answer(program, rule, folder) for rule in RULES}
        return next(size for size in range(STEP_KB, MOST_KB + 1, STEP_KB) if is_enough(program, size, due, folder))


def limit_line(programs):
    return "Stack limits: " + ", ".join(f"`{program.name}` {least_stack(program)} KB" for program in programs) + "."
