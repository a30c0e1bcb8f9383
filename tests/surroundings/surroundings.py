"""Runs takrun in odd surroundings: surroundings.py WORK [WORD..]

WORK is a folder with takrun and odd.so; with words only the cases whose name has one of them are run. Every case runs in a fresh folder and is
killed if it takes too long.
"""
import array
import fcntl
import os
import resource
import shutil
import signal
import subprocess
import sys
import tempfile
import termios
import time

SECONDS = 20  # a run that takes longer hangs
PIECE = 65536  # takrun reads tak.par in pieces of so many bytes
NOBODY = 65534

WORK = sys.argv[1]
CASES = []
RUNS = []  # of the case at hand


class Wrong(Exception):
    """What is wrong in a case."""


class Skipped(Exception):
    """Why a case cannot be tried here."""


def case(name):
    def add(function):
        CASES.append((name, function))
        return function

    return add


def each(name, *arguments):
    """A case for each of the arguments, named after it."""

    def add(function):
        for argument in arguments:
            CASES.append((f"{name} {argument}", lambda folder, argument=argument: function(folder, argument)))
        return function

    return add


# ---- programs

PAR, TEXT, INPUT = b"8 12 4 2 6\n", b"IN R0\nIN R11\nADD R0 R11 R0\nOUT R0\n", b"40 2\n"
SUM = b"42\nENDED 0 4 157\n"
FILES = {"tak.par": PAR, "tak.tcl": TEXT, "tak.in": INPUT}


def put(folder, files):
    for name, content in files.items():
        with open(os.path.join(folder, name), "wb") as f:
            f.write(content)


def counting(folder, values=20000, nops=0):
    """Puts a program that outputs so many values of ten bytes each, with NOPs behind each; gives its output."""
    first = -500000000
    lines = [f"SET R0 {first}", f"SET R1 {first + values}", "OUT R0", "INC R0 1"] + ["NOP"] * nops + ["JMPLT 2 R0 R1"]
    put(folder, {"tak.par": b"30 2 4 2 4096\n", "tak.tcl": "\n".join(lines).encode(), "tak.in": b""})
    spent = 2 * 11 + values * (51 + 14 + nops + 7)
    return "".join(f"{first + i}\n" for i in range(values)).encode() + f"ENDED 0 {len(lines)} {spent}\n".encode()


# ---- runs


def start(folder, **how):
    how = {"stdin": subprocess.DEVNULL, "stdout": subprocess.PIPE, "stderr": subprocess.PIPE, "env": {}} | how
    RUNS.append(subprocess.Popen([os.path.join(WORK, "takrun")], cwd=folder, **how))
    return RUNS[-1]


def finish(process):
    """The status, the output and the error output of a run, which must end."""
    out, err = process.communicate()
    return process.returncode, out or b"", err or b""


def shown(content):
    return ascii(content[:60].decode("latin-1")) + (f" and {len(content) - 60} bytes more" if len(content) > 60 else "")


def same(expected, got):
    if expected != got:
        at = next((i for i, (e, g) in enumerate(zip(expected, got)) if e != g), min(len(expected), len(got)))
        raise Wrong(f"at byte {at} expected {shown(expected[at:])}, got {shown(got[at:])}")


def gives(folder, expected, **how):
    """A run that prints exactly this, nothing on standard error, and ends with status 0."""
    status, out, err = finish(start(folder, **how))
    same(expected, out)
    if status or err:
        raise Wrong(f"status {status}, standard error {shown(err)}")


def begins(expected, got, whole_too=True):
    """What arrived is a beginning of the right output: nothing stands behind a gap, and a last line only behind everything."""
    same(expected[: len(got)], got)
    if not whole_too and got == expected:
        raise Wrong("all of the output arrived, though it was not taken")


def ends(process, *signals):
    """The run ends, by itself or by one of these signals."""
    status, out, err = finish(process)
    if (status < 0 and -status not in signals) or err:
        raise Wrong(f"status {status}, standard error {shown(err)}")
    return out


def limit(what, count):
    return lambda: resource.setrlimit(what, (count, count))


# ---- descriptors


@case("standard input closed")
def _(folder):
    put(folder, FILES)
    gives(folder, SUM, stdin=None, preexec_fn=lambda: os.close(0))


@case("four descriptors")
def _(folder):
    put(folder, FILES)
    gives(folder, SUM, preexec_fn=limit(resource.RLIMIT_NOFILE, 4))


# ---- tak.par


def spread(words):
    """A tak.par of 70 MB: blanks before, between and behind the words, the last of which stands behind a thousand pieces."""
    gap = b" \t\r\n" * 3_300_000
    content = gap.join([b"", *words]).ljust(70_000_000)
    if len(content) != 70_000_000 or content.rindex(words[-1]) <= 1000 * PIECE:
        raise Wrong("the words stand elsewhere")
    return content


@case("tak.par of 70 MB")
def _(folder):
    put(folder, FILES | {"tak.par": spread(PAR.split())})
    gives(folder, SUM)


@case("tak.par of 70 MB, a sixth word at its end")
def _(folder):
    put(folder, FILES | {"tak.par": spread(PAR.split())[:-2] + b"7\n"})
    gives(folder, b"REFUSED 1 0\n")


def across(cuts):
    """A tak.par whose words of nine digits each lie across a boundary of two pieces, cut behind so many digits."""
    content = b""
    for number, (word, cut) in enumerate(zip(PAR.split(), cuts)):
        content = content.ljust((number + 1) * PIECE - cut) + word.rjust(9, b"0")
    return content


@each("words across pieces, cut at", *range(10))
def _(folder, cut):
    put(folder, FILES | {"tak.par": across([cut] * 5)})
    gives(folder, SUM)


@case("words across pieces, each cut elsewhere")
def _(folder):
    put(folder, FILES | {"tak.par": across([1, 3, 5, 7, 8])})
    gives(folder, SUM)


@each("a tenth digit across pieces, cut at", 1, 5, 9)
def _(folder, cut):
    put(folder, FILES | {"tak.par": b"".ljust(PIECE - cut) + b"0000000008 12 4 2 6\n"})
    gives(folder, b"REFUSED 1 0\n")


def opened(process, path):
    """Waits until the run has the file open."""
    folder = f"/proc/{process.pid}/fd"
    while process.poll() is None:
        if any(os.path.realpath(os.path.join(folder, fd)) == os.path.realpath(path) for fd in os.listdir(folder)):
            return
        time.sleep(0.01)


@each("a pipe that stays open behind", b"x", b"8 -2 ", b"8 12 4 2 6 7 ", b"1234567890 ")
def _(folder, content):
    put(folder, FILES)
    path = os.path.join(folder, "tak.par")
    os.remove(path)
    os.mkfifo(path)
    writer = os.open(path, os.O_RDWR)  # a pipe with a reader and a writer: neither end waits for the other
    try:
        os.write(writer, content)
        gives(folder, b"REFUSED 1 0\n")
    finally:
        os.close(writer)


@case("a pipe written in parts")
def _(folder):
    put(folder, FILES)
    path = os.path.join(folder, "tak.par")
    os.remove(path)
    os.mkfifo(path)
    writer = os.open(path, os.O_RDWR)
    try:
        process = start(folder)
        opened(process, path)
        for part in (b"8 1", b"2 ", b"4 2", b" ", b"6"):
            os.write(writer, part)
            time.sleep(0.05)
    finally:
        os.close(writer)
    status, out, err = finish(process)
    same(SUM, out)
    if status or err:
        raise Wrong(f"status {status}, standard error {shown(err)}")


# ---- files that are none

EMPTY = {"tak.par": b"REFUSED 1 0\n", "tak.tcl": b"ENDED 0 0 0\n", "tak.in": b"FAILED 3 0 51\n"}
ENDLESS = {"tak.par": b"REFUSED 1 0\n", "tak.tcl": b"REFUSED 7 0\n", "tak.in": b"REFUSED 16 0\n"}


@each("/dev/zero as", *ENDLESS)
def _(folder, name):
    put(folder, FILES)
    os.remove(os.path.join(folder, name))
    os.symlink("/dev/zero", os.path.join(folder, name))
    gives(folder, ENDLESS[name])


@each("a folder as", *EMPTY)
def _(folder, name):
    put(folder, FILES)
    os.remove(os.path.join(folder, name))
    os.mkdir(os.path.join(folder, name))
    gives(folder, EMPTY[name])


@each("a link to nothing as", *EMPTY)
def _(folder, name):
    put(folder, FILES)
    os.remove(os.path.join(folder, name))
    os.symlink("nothing", os.path.join(folder, name))
    gives(folder, EMPTY[name])


@each("unreadable", *EMPTY)
def _(folder, name):
    put(folder, FILES)
    how = {}
    if os.geteuid() == 0:  # root reads everything
        how = {"user": NOBODY, "group": NOBODY, "extra_groups": []}
        os.chmod(folder, 0o755)
        try:
            gives(folder, SUM, **how)
        except (OSError, Wrong) as error:
            raise Skipped(f"takrun does not run as nobody: {error}") from None
    os.chmod(os.path.join(folder, name), 0)
    gives(folder, EMPTY[name], **how)


# ---- an output that is not taken


def waiting(reader):
    """How many bytes stand in a pipe."""
    count = array.array("i", [0])
    fcntl.ioctl(reader, termios.FIONREAD, count)
    return count[0]


def fill(process, reader):
    """Waits until a pipe has no room for another page, or the run has ended."""
    most = fcntl.fcntl(reader, fcntl.F_GETPIPE_SZ) - 4096
    while waiting(reader) <= most and process.poll() is None:
        time.sleep(0.002)


def drain(reader, piece=65536, pause=0.0, least=None):
    """What comes out of a pipe: all, or at least so many bytes."""
    got = b""
    while (least is None or len(got) < least) and (part := os.read(reader, piece)):
        got += part
        if pause:
            time.sleep(pause)
    return got


def piped(folder, **how):
    """A run that writes to a pipe, and the pipe's other end."""
    reader, writer = os.pipe()
    os.set_blocking(writer, how.pop("blocking", True))
    process = start(folder, stdout=writer, **how)
    os.close(writer)
    return process, reader


@case("a pipe that does not block and is read late")
def _(folder):
    expected = counting(folder, values=40000, nops=3000)
    process, reader = piped(folder, blocking=False)
    fill(process, reader)
    got = drain(reader)
    os.close(reader)
    ends(process)
    begins(expected, got)


@each("a pipe without a reader, SIGPIPE", "ignored", "default")
def _(folder, way):
    counting(folder)
    process, reader = piped(folder, preexec_fn=lambda: signal.signal(signal.SIGPIPE, signal.SIG_IGN if way == "ignored" else signal.SIG_DFL))
    os.close(reader)
    ends(process, *([] if way == "ignored" else [signal.SIGPIPE]))


@each("a reader that goes, SIGPIPE", "ignored", "default")
def _(folder, way):
    expected = counting(folder)
    process, reader = piped(folder, preexec_fn=lambda: signal.signal(signal.SIGPIPE, signal.SIG_IGN if way == "ignored" else signal.SIG_DFL))
    got = drain(reader, 1000, least=50000)
    os.close(reader)
    ends(process, *([] if way == "ignored" else [signal.SIGPIPE]))
    begins(expected, got)


@case("/dev/full")
def _(folder):
    counting(folder)
    with open("/dev/full", "wb") as full:
        ends(start(folder, stdout=full))


@each("closed:", "1", "0 1", "0 1 2")
def _(folder, descriptors):
    put(folder, FILES)
    ends(start(folder, stdin=None, stdout=None, preexec_fn=lambda: [os.close(int(fd)) for fd in descriptors.split()]))
    for name, content in FILES.items():
        with open(os.path.join(folder, name), "rb") as f:
            same(content, f.read())


@case("a slow reader")
def _(folder):
    expected = counting(folder)
    process, reader = piped(folder)
    got = drain(reader, 2000, 0.005)
    os.close(reader)
    ends(process)
    same(expected, got)


@case("stopped and continued while it writes")
def _(folder):
    expected = counting(folder)
    process, reader = piped(folder)
    got = b""
    fill(process, reader)
    for _ in range(50):
        process.send_signal(signal.SIGSTOP)
        time.sleep(0.002)
        process.send_signal(signal.SIGCONT)
        time.sleep(0.002)
        got += os.read(reader, 1500)
    got += drain(reader)
    os.close(reader)
    ends(process)
    same(expected, got)


@each("a limit of the file's size, SIGXFSZ", "ignored", "default")
def _(folder, way):
    expected = counting(folder)
    most = 100_000

    def narrow():
        resource.setrlimit(resource.RLIMIT_FSIZE, (most, most))
        signal.signal(signal.SIGXFSZ, signal.SIG_IGN if way == "ignored" else signal.SIG_DFL)

    path = os.path.join(folder, "out")
    with open(path, "wb") as out:
        ends(start(folder, stdout=out, preexec_fn=narrow), *([] if way == "ignored" else [signal.SIGXFSZ]))
    with open(path, "rb") as out:
        same(expected[:most], out.read())


# ---- system calls that answer oddly


def odd_run(folder, mode, name=""):
    """The output of a run with odd answers to its calls, read slowly; there must have been some."""
    count = os.path.join(folder, "odd-count")
    env = {"LD_PRELOAD": os.path.join(WORK, "odd.so"), "ODD": mode, "ODD_FILE": os.path.join(folder, name), "ODD_COUNT": count}
    process, reader = piped(folder, env=env)
    got = drain(reader, 20000, 0.005)
    os.close(reader)
    ends(process)
    with open(count, "rb") as f:
        if int(f.read()) == 0:
            raise Wrong("no call answered oddly")
    return got


@each("odd calls:", "short writes", "interrupted writes", "interrupted short writes", "alarms")
def _(folder, mode):
    same(counting(folder), odd_run(folder, mode))


@each("odd calls:", "short reads", "interrupted reads", "interrupted short reads")
def _(folder, mode):
    put(folder, FILES)
    same(SUM, odd_run(folder, mode))


@each("odd calls: a read fails behind the bytes of", *EMPTY)
def _(folder, name):
    put(folder, FILES)
    same(EMPTY[name], odd_run(folder, "failing reads", name))


@each("odd calls:", "second write fails", "second write would block")
def _(folder, mode):
    expected = counting(folder)
    begins(expected, odd_run(folder, mode), whole_too=mode == "second write would block")


# ---- a small stack

STACK = 256 * 1024


@case("a stack of 256 KiB")
def _(folder):
    cells = 4096
    lines = ["SET DM0 7", "DUMP_DATA_MEM", "DUMP_REG"] + ["NOP"] * (cells - 4) + ["OUT DM0"]
    put(folder, {"tak.par": b"30 256 4096 4096 4096\n", "tak.tcl": "\n".join(lines).encode(), "tak.in": b" " * 65536})
    spent = 16 + 51 * cells + 51 * 256 + (cells - 4) + 55
    expected = b"7\n" + b"0\n" * (cells - 1 + 256) + f"7\nENDED 0 {cells} {spent}\n".encode()
    gives(folder, expected)
    gives(folder, expected, preexec_fn=limit(resource.RLIMIT_STACK, STACK))


@case("a stack of 256 KiB, many grants")
def _(folder):
    gives(folder, counting(folder, nops=4091), preexec_fn=limit(resource.RLIMIT_STACK, STACK))


@each("a stack of 256 KiB and too long a", "tak.tcl", "tak.in")
def _(folder, name):
    put(folder, FILES | {"tak.par": b"30 256 4096 4096 4096\n", name: b" " * 65537})
    gives(folder, ENDLESS[name], preexec_fn=limit(resource.RLIMIT_STACK, STACK))


def too_long(_number, _frame):
    raise Wrong(f"not at its end after {SECONDS} seconds")


def tried(function):
    """Runs a case in a folder of its own and leaves no run of it behind."""
    folder = tempfile.mkdtemp(dir=WORK)
    RUNS.clear()
    signal.alarm(SECONDS)
    try:
        function(folder)
    finally:
        signal.alarm(0)
        for process in RUNS:
            process.kill()
            process.wait()
            for stream in filter(None, (process.stdout, process.stderr)):
                stream.close()
        shutil.rmtree(folder)


def main():
    passed = failed = 0
    words = sys.argv[2:]
    signal.signal(signal.SIGALRM, too_long)
    for name, function in CASES:
        if words and not any(word in name for word in words):
            continue
        try:
            tried(function)
            passed += 1
        except Skipped as reason:
            print(f"surroundings: {name}: skipped, {reason}")
        except (Wrong, OSError) as error:
            failed += 1
            print(f"surroundings: {name}: {error}")
    print(f"{passed} passed, {failed} failed")
    return 1 if failed or not passed else 0


if __name__ == "__main__":
    sys.exit(main())
