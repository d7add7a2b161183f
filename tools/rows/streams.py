"""Streams that fail: the script's and the answers'. What is written then is a beginning of the answers, and the status is 4."""
import os
import resource
import signal
import socket
import subprocess
import tempfile

from complaints import TEXT
from files import COMMITTED, FILE
from rows import SECONDS, STORE, contents, side_by_side, spelled
from shapes import TWO

SCRIPT = f"""
    {TWO}
    0 up 1 10    | 0 #1 done
    1 up 2 20    | 1 #1 done
    k commit     | k commit 1
    k finish     | k finished 1 points 1 1
    0 get 1      | 0 get 1 = 10
    1 up 2 21    | 1 #2 done
    crash        | crash commit 1 points 1 1 pairs 2
                 | pair 1 10
                 | pair 2 20
    0 get 1      | 0 get 1 pending @1
    k commit log | k commit 2
    k finish     | 0 @1 get 1 = 10
                 | k finished 2 points 1 1
"""


def ended(program, words, script, room=None, **more):
    """The status, where the program's answers go to a stream that isn't read here; or, with room for so many bytes of them, the
    status and what a file that takes no more has taken."""
    with tempfile.TemporaryFile() as given:
        given.write(spelled(script))
        given.seek(0)
        how = {"stdin": given, "stderr": subprocess.DEVNULL, "timeout": SECONDS, **more}
        if room is None:
            return subprocess.run([program, *words], **how).returncode

        def limit():
            signal.signal(signal.SIGXFSZ, signal.SIG_IGN)
            resource.setrlimit(resource.RLIMIT_FSIZE, (room, room))

        with tempfile.TemporaryFile() as taken:
            status = subprocess.run([program, *words], stdout=taken, preexec_fn=limit, **how).returncode
            taken.seek(0)
            return status, taken.read()


def beside_store(program):
    """The status where answers go to a stream that is closed, and whether they went into the store's file instead."""
    with tempfile.TemporaryDirectory() as folder:
        script, answers = side_by_side(COMMITTED)
        status = ended(program, FILE.split(), script, preexec_fn=lambda: os.close(1), cwd=folder)
        held = contents(os.path.join(folder, STORE))
        return status, held is not None and spelled(answers).split(b"\n")[0] in held


def complaint(program, words, script, **more):
    """What is on standard error where a stream fails."""
    return subprocess.run([program, *words], input=script and spelled(script), stderr=subprocess.PIPE, timeout=SECONDS, **more).stderr


def without_complaints(program):
    """The status and what is written where standard error is closed, and whether the complaint went into the store's file instead."""
    with tempfile.TemporaryDirectory() as folder:
        path = os.path.join(folder, STORE)
        with open(path, "wb") as file:
            file.write(TEXT)
        how = {"input": b"open\n", "stdout": subprocess.PIPE, "timeout": SECONDS, "cwd": folder}
        run = subprocess.run([program, *FILE.split()], preexec_fn=lambda: os.close(2), **how)
        return run.returncode, run.stdout, contents(path) == TEXT


def to_nobody(program, script):
    """The status, and what is on standard error."""
    reader, writer = os.pipe()
    os.close(reader)
    ran = subprocess.run([program], input=spelled(script), stdout=writer, stderr=subprocess.PIPE, timeout=SECONDS)
    os.close(writer)
    return ran.returncode, ran.stderr


def broken_off(program, script):
    """The status and the answers where the script's stream gives the script, and fails behind it."""
    given, other = socket.socketpair()
    with given:
        with other:
            other.sendall(spelled(script))
            given.send(b"x")  # nobody reads it, so the other end is reset as it is closed
        run = subprocess.run([program], stdin=given, capture_output=True, timeout=SECONDS)
    return run.returncode, run.stdout


def streams(program):
    """How many runs there were, and what was otherwise."""
    script, answers = side_by_side(SCRIPT)
    wanted = spelled(answers)
    seen = []

    def expect(name, got, wished):
        seen.append(None if got == wished else f"{name}: {got}, and not {wished}")

    for words in ((), ("--check", "--seed", "3")):
        with open("/dev/full", "wb") as full:
            expect(f"answers to /dev/full, with {words}", ended(program, words, script, stdout=full), 4)
    with open("/dev/full", "wb") as full:
        full_output = b"fkv: standard output could not be written: No space left on device (os error 28)\n"
        expect("the complaint of a full output", complaint(program, (), script, stdout=full), full_output)
        expect("the same of a faulty line's", complaint(program, (), "0 up 1", stdout=full).splitlines(keepends=True)[-1:], [full_output])
        expect("an empty script's to /dev/full", ended(program, (), "", stdout=full), 0)
        expect("a faulty line's to /dev/full", ended(program, (), "0 up 1", stdout=full), 4)
        expect("options to /dev/full", ended(program, ("--help",), script, stdout=full), 4)
    expect("answers to a stream that is closed", ended(program, (), script, preexec_fn=lambda: os.close(1)), 4)
    expect("the same beside a store in a file", beside_store(program), (4, False))
    expect("answers to a pipe that nobody reads", to_nobody(program, script), (4, b""))
    for room in range(len(wanted) + 1):
        got = ended(program, (), script, room)
        expect(f"answers to a file that takes {room} bytes", got, (4 if room < len(wanted) else 0, wanted[:room]))
    folder = os.open("/", os.O_RDONLY)  # a read of it fails
    for name, words, wished in (
        ("a script that can't be read", (), (4, b"")),
        ("words that are refused before the script is read", ("x",), (2, b"options\n")),
    ):
        run = subprocess.run([program, *words], stdin=folder, capture_output=True, timeout=SECONDS)
        expect(name, (run.returncode, run.stdout), wished)
    unread = complaint(program, (), None, stdin=folder, stdout=subprocess.DEVNULL)
    expect("the complaint of a script that can't be read", unread, b"fkv: standard input could not be read: Is a directory (os error 21)\n")
    os.close(folder)
    with open("/dev/full", "wb") as full:
        lost = subprocess.run([program], input=b"0 up 1", stdout=subprocess.PIPE, stderr=full, timeout=SECONDS)
        expect("a complaint that can't be written", (lost.returncode, lost.stdout), (2, b"script line 1 Order\n"))
    expect("a complaint to a stream that is closed", without_complaints(program), (3, b"refused 15 NotAStore\n", True))
    run = subprocess.run([program], preexec_fn=lambda: os.close(0), capture_output=True, timeout=SECONDS)
    expect("a script's stream that is closed", (run.returncode, run.stdout), (4, b""))
    expect("a script's stream that fails behind the script", broken_off(program, script), (4, b""))
    return len(seen), [it for it in seen if it]
