"""The tests' program that `rt test` leaves in crates/fkv_opening_tests, and what it answers."""
import os
import subprocess
import sys

TOP = os.path.join(os.path.dirname(os.path.abspath(__file__)), "..", "..")
PROGRAM = os.environ.get("PROGRAM") or os.path.join(TOP, "crates/fkv_opening_tests/out/fkv_opening_tests_tests")


def need_program():
    if not os.path.exists(PROGRAM):
        sys.exit(f"{sys.argv[0]}: there is no test program yet: run `rt test` in crates/fkv_opening_tests")


def command(test):
    return [PROGRAM, f"image_answers::{test}"]


def answer_in(output):
    """The answer in what the program wrote."""
    return next(line for line in output.splitlines() if line.startswith("answer ")).removeprefix("answer ")


def answered(test, variables):
    """The answer of one of its tests, in one line."""
    run = subprocess.run(command(test), env=variables, capture_output=True, text=True, check=True)
    return answer_in(run.stdout)


def measured(test, variables):
    """And with it the peak memory, in MiB, and the seconds of processor time."""
    run = subprocess.Popen(command(test), env=variables, stdout=subprocess.PIPE, text=True)
    output = run.stdout.read()
    _, status, used = os.wait4(run.pid, 0)
    if status != 0:
        sys.exit(f"{test} ends with status {status}: {output[:200]}")
    return answer_in(output), used.ru_maxrss / 1024, used.ru_utime + used.ru_stime
