r"""Runs takrun on cases and compares what it prints: cases.py PROGRAM FOLDER.. -- [NAME..]

A case is a file: what it shows, then a section for each file that takrun reads (one that has none is missing for takrun too) and for its standard
output, byte for byte.
    == tak.par                          the lines below are the file
    == tak.in is a folder
    == tak.tcl of examples/boxes        the same file of that folder
    == expected                         standard output
In the lines \t \r \n \\ and \xNN are the usual bytes, a \ at a line's end takes away its LF, \{3|text} is texttexttext and \{1..3} or \{3..1} are the
numbers, each on a line. A folder is a case too, with the files themselves.
Each case runs in a fresh folder. Standard error has to be empty and the status 0.
"""
import os
import re
import subprocess
import sys
import tempfile
from concurrent.futures import ThreadPoolExecutor

SECONDS = 120  # a case that takes longer is killed and has failed
WORKERS = 2  # so that the other cases go on beside one of 10^9 cycles
FILES = ("tak.par", "tak.tcl", "tak.in", "expected")
EXAMPLES = os.path.join(os.path.dirname(os.path.abspath(__file__)), "..", "..", "examples")
HEAD = re.compile(r"^== (\S+)(?:( is a folder)| of examples/(\S+))?\n", re.M)
REPEATED = re.compile(r"\\\{(?:(\d+)\|([^{}]*)|(\d+)\.\.(\d+))\}")
ESCAPED = re.compile(r"\\(x[0-9a-f]{2}|.|\n)")
BYTES = {"t": "\t", "r": "\r", "n": "\n", "\\": "\\", "\n": ""}
SHOWN = 100  # bytes of a line that differs


def read(path):
    with open(path, "rb") as f:
        return f.read()


def lines_of(content):
    """Lines with their LF, so that a missing one is seen."""
    *whole, rest = content.split(b"\n")
    return [line + b"\n" for line in whole] + ([rest] if rest else [])


def difference(expected, got):
    """The first line that differs, as it should be and as it is."""
    wanted, found = lines_of(expected), lines_of(got)
    at = next((i for i, (w, f) in enumerate(zip(wanted, found)) if w != f), min(len(wanted), len(found)))
    shown = [ascii(lines[at][:SHOWN].decode("latin-1")) if at < len(lines) else "nothing" for lines in (wanted, found)]
    return [f"line {at + 1} of standard output differs", f"expected {shown[0]}", f"got      {shown[1]}"]


def repeated(match):
    """What a pair of braces stands for, still with its escapes."""
    count, text, first, last = match.groups()
    if text is not None:
        return text * int(count)
    first, last = int(first), int(last)
    return "".join(f"{n}\\n" for n in (range(first, last + 1) if first <= last else range(first, last - 1, -1)))


def escaped(match):
    if match[1][0] == "x":
        return chr(int(match[1][1:], 16))
    if match[1] not in BYTES:
        raise ValueError(f"no escape: {match[0]}")
    return BYTES[match[1]]


def content(text):
    """The bytes that a section's lines stand for; braces may stand in braces."""
    found = 1
    while found:
        text, found = REPEATED.subn(repeated, text)
    return ESCAPED.sub(escaped, text).encode("latin-1")


def file_of(name, folder, example, text):
    """The bytes of a section, or None for a folder."""
    if (folder or example) and text:
        raise ValueError(f"lines below the head of {name}")
    return None if folder else read(os.path.join(EXAMPLES, example, name)) if example else content(text)


def files_of(case):
    """The files of a case by their names."""
    if os.path.isdir(case):
        return {name: read(os.path.join(case, name)) for name in os.listdir(case)}
    _, *parts = HEAD.split(read(case).decode("ascii"))
    sections = list(zip(*[iter(parts)] * 4))  # name, folder, example, text
    if len({name for name, *_ in sections}) < len(sections):
        raise ValueError("two sections of one file")
    return {name: file_of(name, *section) for name, *section in sections}


def prepare(case, folder):
    """Puts takrun's files into the folder; gives the expected bytes."""
    files = files_of(case)
    if not {"expected"} <= set(files) <= set(FILES):
        raise ValueError(f"the parts of a case are {', '.join(FILES)}; here are {', '.join(files)}")
    expected = files.pop("expected")
    for name, given in files.items():
        if given is None:
            os.mkdir(os.path.join(folder, name))
        else:
            with open(os.path.join(folder, name), "wb") as f:
                f.write(given)
    return expected


def run(program, case):
    """What is wrong, as lines; none if nothing is."""
    with tempfile.TemporaryDirectory() as work:
        folder, out, err = (os.path.join(work, name) for name in ("folder", "out", "err"))
        os.mkdir(folder)
        try:
            expected = prepare(case, folder)
            with open(out, "wb") as o, open(err, "wb") as e:
                status = subprocess.run([program], cwd=folder, stdin=subprocess.DEVNULL, stdout=o, stderr=e, timeout=SECONDS).returncode
        except subprocess.TimeoutExpired:
            return [f"killed after {SECONDS} seconds"]
        except (OSError, ValueError) as error:
            return [str(error)]
        got, said = read(out), read(err)
        wrong = difference(expected, got) if got != expected else []
        if said:
            wrong.append(f"standard error: {ascii(said[:SHOWN].decode('latin-1'))}")
        if status:
            wrong.append(f"status {status}")
        return wrong


def main():
    split = sys.argv.index("--")
    program, folders, chosen = os.path.abspath(sys.argv[1]), sys.argv[2:split], sys.argv[split + 1 :]
    cases = [os.path.join(folder, name) for folder in folders for name in sorted(os.listdir(folder))]
    cases = [case for case in cases if not chosen or os.path.basename(case) in chosen]
    failed = 0
    with ThreadPoolExecutor(WORKERS) as pool:
        for case, wrong in zip(cases, pool.map(lambda case: run(program, case), cases)):
            if wrong:
                failed += 1
                print(f"{case}: " + "\n    ".join(wrong), flush=True)
    if not cases:
        print("no case of that name")
        failed = 1
    print(f"takrun: {len(cases)} whole runs")
    print(f"{max(len(cases) - failed, 0)} passed, {failed} failed")
    sys.exit(1 if failed else 0)


if __name__ == "__main__":
    main()
