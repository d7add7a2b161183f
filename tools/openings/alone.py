"""The program over a store's file: one process alone has it open, and none while another looks at it. What is no store is left as it is, and
the folder of a new file is synced before anything is written. A lock or a sync that fails, and a path of something else than a file, end the
run with its reason."""
import os
import re
import signal
import socket
import subprocess
import sys
import tempfile

from programs import TOP

PROGRAM = os.environ.get("FKV") or os.path.join(TOP, "crates/fkv/out/fkv")
LOOKER = os.environ.get("FKV_LOOK") or os.path.join(TOP, "crates/fkv_look/out/fkv_look")
SHAPE = "shape 4 16 4 2 1 0 64\n"
# more answers than a pipe holds, so that the program waits for its reader, with its store open
LONG = SHAPE + "0 get 1\n" * 20_000
OPENED = "open commit 0 points 0 pairs 0\n"
REFUSED = "refused 14 Device\n"
SECONDS = 60
# a call by its name, the path of the file that it is about, and its answer
CALL = re.compile(r"^(?:\d+ +)?(\w+)\((?:AT_FDCWD<[^>]*>, \"([^\"]*)\"|\d+<([^>]*)>)(.*)\) += (\S+)")


def need(name, got, wanted):
    if got != wanted:
        sys.exit(f"{name}: {got!r}; it should be {wanted!r}")


def run_of(path, script, *words):
    """The status, what is written, and the complaint."""
    run = subprocess.run([PROGRAM, *words, "--file", path], input=script, capture_output=True, text=True, timeout=SECONDS)
    return run.returncode, run.stdout, run.stderr


def ran(path, script):
    return run_of(path, script)


def held(path):
    with open(path, "rb") as file:
        return file.read()


def started(path):
    """A process that has a new store open in the file, and waits."""
    with tempfile.TemporaryFile("w+") as script:
        script.write(LONG)
        script.seek(0)
        process = subprocess.Popen([PROGRAM, "--file", path], stdin=script, stdout=subprocess.PIPE)
    need("a process that has the store open", process.stdout.read(1), b"0")
    return process


def need_in_use(path, beside):
    """The store isn't opened, made or run on threads, and its file stays as it is."""
    before = held(path)
    for name, script, words in (("open", "open\n", ()), ("shape", SHAPE, ()), ("threads", SHAPE, ("--threads",))):
        status, output, complaint = run_of(path, script, *words)
        refused = (status, output, complaint.endswith("is in use by another process\n"))
        need(f"{name} {beside}", refused, (3, REFUSED, True))
        need(f"the file behind {name} {beside}", held(path), before)


def one_alone(path):
    """Two processes on one file; and the first is killed with the lock held."""
    first = started(path)
    try:
        need_in_use(path, "in a second process")
    finally:
        first.kill()
        first.wait()
        first.stdout.close()
    need("open once the first process is killed", ran(path, "open\n"), (0, OPENED, ""))


def look(path):
    """What `fkv_look` says of the file: its status, its lines and the complaint."""
    run = subprocess.run([LOOKER, path, "--pairs"], capture_output=True, text=True, timeout=SECONDS)
    return run.returncode, run.stdout, run.stderr


def looking(path):
    """A process that looks at the file, by strace, which stops it behind its first lock; and where strace tells so."""
    told, tells = os.pipe()
    stop = ["-e", "trace=flock", "-e", "inject=flock:signal=STOP:when=1"]
    strace = ["strace", "-f", "-qq", *stop, "-o", f"/dev/fd/{tells}", LOOKER, path, "--pairs"]
    process = subprocess.Popen(strace, pass_fds=[tells], stdout=subprocess.PIPE, text=True)
    os.close(tells)
    return process, os.fdopen(told)


def told_to_stop(calls):
    """The lines of strace up to the one that tells of the stop; all where none does."""
    lines = []
    for line in iter(calls.readline, ""):
        lines.append(line.rstrip())
        if "stopped by SIGSTOP" in line:
            break
    return lines


def looked_at(path):
    """A store at whose file another process looks is opened by nobody. Others may look at it too, and that process goes on as it would have."""
    need("the status of a new store", ran(path, SHAPE)[0], 0)
    seen = look(path)
    need("a look", (seen[0], seen[2]), (0, ""))
    process, calls = looking(path)
    lines = told_to_stop(calls)
    number = int(lines[0].split()[0]) if lines else process.pid
    try:
        stopped = ["LOCK_SH|LOCK_NB" in lines[0] and lines[0].endswith("= 0"), "stopped by SIGSTOP" in lines[-1]] if lines else []
        need("a look that is stopped with its lock", stopped, [True, True])
        need_in_use(path, "beside a look")
        need("a look beside a look", look(path), seen)
        os.kill(number, signal.SIGCONT)
        output, _ = process.communicate(timeout=SECONDS)
        need("the look that was stopped", (process.returncode, output), seen[:2])
    finally:
        if process.poll() is None:
            os.kill(number, signal.SIGKILL)
            process.wait()
        calls.close()
    need("open behind the look", ran(path, "open\n"), (0, OPENED, ""))


def traced(path, script, *asked):
    """A run under strace that is asked for this, and the lines that strace writes."""
    with tempfile.NamedTemporaryFile("r") as calls:
        strace = ["strace", "-f", "-y", "-qq", "-s", "0", *asked, "-o", calls.name]
        run = subprocess.run([*strace, PROGRAM, "--file", path], input=script, capture_output=True, text=True, timeout=SECONDS)
        return run, calls.readlines()


def calls_of(path, script):
    """The status, and the calls that a run makes on files, in turn: name, path, whatever else is said, answer."""
    run, lines = traced(path, script, "-e", "trace=open,openat,flock,ftruncate,fsync,fdatasync,read,write,pread64,pwrite64,lseek")
    found = [it.groups() for line in lines if (it := CALL.match(line))]
    return run.returncode, [(name, named or about, more, answer) for name, named, about, more, answer in found]


def place_of(calls, name, path):
    """Where the first such call stands that succeeds; none where there is none."""
    return next((n for n, it in enumerate(calls) if it[:2] == (name, path) and not it[3].startswith("-")), None)


def folder_is_synced(path):
    """The file is locked before anything else, and neither it nor an answer is written before its folder is synced."""
    folder = os.path.dirname(path)
    status, calls = calls_of(path, SHAPE + "0 get 1\n")
    need("the status of a new store", status, 0)
    opened, locked = place_of(calls, "openat", path), place_of(calls, "flock", path)
    synced, written = place_of(calls, "fsync", folder), place_of(calls, "write", path)
    answered = next((n for n, it in enumerate(calls) if it[0] == "write" and it[1].startswith("pipe:")), None)
    in_turn = (opened, locked, synced, written, answered)
    if None in in_turn or list(in_turn) != sorted(in_turn) or any("O_TRUNC" in it[2] or it[0] == "ftruncate" for it in calls):
        sys.exit(f"a new file: its opening, its lock, its folder's sync, its first write and the first answer come in another turn: {calls}")
    if any(it[1] == path and it[0] not in ("openat", "flock") for it in calls[:locked]):
        sys.exit(f"a new file is used before its lock: {calls}")
    status, calls = calls_of(path, SHAPE)
    need("the status of a store over an older one", (status, place_of(calls, "fsync", folder)), (0, None))


def foreign_is_left(path):
    """A file that is no store is read and left."""
    text = b"not a store\n" * 400
    with open(path, "wb") as file:
        file.write(text)
    status, calls = calls_of(path, SHAPE)
    need("the status of a store over a foreign file", status, 3)
    need("the writes to a foreign file", [it for it in calls if it[1] == path and it[0] in ("write", "pwrite64", "ftruncate")], [])
    need("a foreign file", held(path), text)


# calls of which the first fails in a run over a new file, with what the system says then, and the complaint
FAILING = [
    ("flock", "ENOLCK", "can't be locked: No locks available (os error 37)"),
    ("fsync", "ENOSPC", "is new, and its folder can't be synced: No space left on device (os error 28)"),
]


def refusal(path, complaint, reason=None):
    """How a run ends over a file that is refused, or of which the system refuses a call for this reason."""
    noted = f"fkv: the system refused a call of the store's file: {reason}\n" if reason else ""
    return 3, REFUSED, f'fkv: the file "{path}" {complaint}\n{noted}'


def failing_call_is_told(path):
    """A lock or a sync of the folder that fails ends the run, and nothing is written to the file."""
    for call, error, complaint in FAILING:
        run, lines = traced(path, SHAPE, "-e", f"trace={call}", "-e", f"inject={call}:error={error}:when=1")
        if not any("(INJECTED)" in line for line in lines):
            sys.exit(f"{sys.argv[0]}: strace makes no {call} fail, so what is said then is not tested: {lines}")
        need(f"a {call} that fails", (run.returncode, run.stdout, run.stderr), refusal(path, complaint))
        need(f"the file after a {call} that fails", held(path), b"")
    need("the status of a store in the same file after all", ran(path, SHAPE)[0], 0)


def no_file_is_refused(path):
    """A FIFO and a socket hold no store. Nobody waits for them."""
    fifo, other = f"{path}fifo", f"{path}socket"
    os.mkfifo(fifo)
    with socket.socket(socket.AF_UNIX) as bound:
        bound.bind(other)
        for script, reason in (("open\n", "Invalid argument (os error 22)"), (SHAPE, "Illegal seek (os error 29)")):
            need(f"{script.split()[0]} over a FIFO", ran(fifo, script), refusal(fifo, "could not be read or written", reason))
            unopened = refusal(other, "can't be opened: No such device or address (os error 6)")
            need(f"{script.split()[0]} over a socket", ran(other, script), unopened)


def alone(folder):
    """How many of these there are; it ends the program where one goes wrong."""
    for program in (PROGRAM, LOOKER):
        if not os.path.exists(program):
            sys.exit(f"{sys.argv[0]}: there is no program {program}: `rt run` in its crate's folder proves and leaves it")
    checks = (one_alone, looked_at, folder_is_synced, foreign_is_left, failing_call_is_told, no_file_is_refused)
    for number, check in enumerate(checks):
        check(os.path.join(os.path.realpath(folder), f"alone{number}"))
    return len(checks)
