"""The must-fail edits, crates/CRATE/must-fail/*.edit, each a wrong program or definition that the prover refuses.

A file has one edit, whose label is the file's name; or wrong functions of one crate that are tried in one check, each behind a line
`label: LABEL`. A proof rests on the contracts of the functions that are called and not on their code, so that each wrong function is refused
by itself.

Each edit is of src/ or specs/, so that the proof of the right program meets the wrong one; PROOF_PARTS has those that follow it in a proof.
Each old text is in its file exactly once, as `rt must-fail` asks. Each edit that docs/ARCHITECTURE.md names is there. And `rt must-fail`,
which tries again nothing that the gate's `rt ci` tried, says of each file that it is refused, for more than its proof's form.

Of a file's log `rt` shows one line and keeps nothing. So the logs are read where they are made: `tests/edits/run --record [CRATE..]` has each
file of edits checked in a copy, and tests/edits/refused/CRATE.json keeps what the check said of each edit's own function, with sums of the crate's
files and of the edit. This test finds there an error of its own for each edit, and as the first one no name that the proof uses and the wrong
program has not got. Where the crate, the edit or the kit is another one than was recorded, it fails and says what to record again.

--without-rt, for use outside the gate, asks `rt` nothing and says so.
"""
import hashlib
import json
import os
import pathlib
import re
import shutil
import subprocess
import sys
import tempfile
from concurrent.futures import ThreadPoolExecutor
from dataclasses import dataclass, field

ROOT = pathlib.Path(__file__).resolve().parents[2]
REFUSED = pathlib.Path(__file__).resolve().parent / "refused"

# An edit that changes a proof too: why.
PROOF_PARTS = {}

# A proof that names a goal, or a fact before a step, that is not there shows nothing about the program.
MISFITS = [
    re.compile(r"module `[^`]*` has no `"),
    re.compile(r"error: (?:`[^`]*`: )*record `"),
    re.compile(r"has no field `"),
    re.compile(r"is not in scope"),
]

# What follows from another declaration's refusal is no error of its own.
FOLLOWS = re.compile(r"was not admitted|depends? on `[^`]*`, which was rejected")

# Of a log: an error, with the lines that go on with it, and the file that it is in; what a function came to, if it is not proved.
ERROR = re.compile(r"^(\S+):\d+:\d+: error: .*?(?=\n\S|\Z)", re.DOTALL | re.MULTILINE)
VERDICT = re.compile(r"^fn (\S+): (?:not proved|no proof: ).*$", re.MULTILINE)
# A goal that no proof file answers: what the search finds, it finds at the right program alone. It does not search where it waits for a callee.
OPEN = "`search` did not prove `"

FUNCTION = re.compile(r'^( *)(?:pub )?(?:extern "C" )?fn (\w+)', re.MULTILINE)

# So much of an error is kept.
KEPT = 300

failures = []
passed = 0


def check(name, faults):
    global passed
    if faults:
        failures.extend(f"{name}: {fault}" for fault in faults)
    else:
        passed += 1


@dataclass
class Edit:
    name: str  # CRATE/LABEL
    path: pathlib.Path
    together: bool
    function: str = ""
    pairs: list = field(default_factory=list)  # (file, old, new)

    @property
    def crate(self):
        return self.path.parents[1]

    @property
    def label(self):
        return self.name.partition("/")[2]


def edits_of(path):
    """The edits of a file. Lines that are neither `label:`, `function:` nor a pair's are comments."""
    crate, edits = path.parents[1].name, []
    together = re.search(r"^label: ", path.read_text(), re.MULTILINE) is not None
    if not together:
        edits.append(Edit(f"{crate}/{path.stem}", path, False))
    file = old = ""
    for line in path.read_text().split("\n"):
        if line.startswith("label: "):
            edits.append(Edit(f"{crate}/{line[len('label: '):]}", path, True))
        elif line.startswith("function: ") and edits:
            edits[-1].function = line[len("function: "):]
        elif line.startswith("file: "):
            file = line[len("file: "):]
        elif line.startswith("old: "):
            old = line[len("old: "):]
        elif line.startswith("new:") and edits:
            edits[-1].pairs.append((file, old, line[len("new:"):].removeprefix(" ")))
            old = ""
    return edits


def text_faults(edit, texts):
    """What is wrong with the edit as a text; `texts` has the files as the edits before it in the same file left them."""
    follows = False
    for file, old, new in edit.pairs:
        if file.startswith("proofs/"):
            follows = True
        elif not file.startswith(("src/", "specs/")):
            yield f"it edits {file!r}"
            return
        if ".." in pathlib.PurePosixPath(file).parts or not (edit.crate / file).is_file():
            yield f"the crate has no file {file}"
            return
        text = texts.setdefault(file, (edit.crate / file).read_text())
        if not old or text.count(old) != 1:
            yield f"{old!r} is in {file} {text.count(old) if old else 0} times"
            return
        texts[file] = text.replace(old, new)
    if not edit.pairs:
        yield "it has no pair of old and new"
    if follows and edit.name not in PROOF_PARTS:
        yield "it changes a proof, and is not on the list of those that do"
    if not follows and edit.name in PROOF_PARTS:
        yield "it is on the list of edits that change a proof, and changes none"


def functions_in(text):
    """Each function of a source file: its name, and its first and last line."""
    for head in FUNCTION.finditer(text):
        end = re.compile(f"^{head.group(1)}}}$", re.MULTILINE).search(text, head.end())
        if end:
            yield head.group(2), text.count("\n", 0, head.start()) + 1, text.count("\n", 0, end.start()) + 1


def wrong_function(edit):
    """The file and the function that an edit is in, tried together with others; a constant's edit names the function that has it."""
    found = set()
    for file, old, _ in edit.pairs:
        text = (edit.crate / file).read_text()
        line = text.count("\n", 0, text.find(old)) + 1
        inside = [name for name, first, last in functions_in(text) if first <= line <= last]
        found.add((file, edit.function or (inside[-1] if inside else "")))
    return found.pop() if len(found) == 1 else ("", "")


def in_clauses(text, place):
    """Whether a place of a source file is in a function's clauses: behind a `requires` or `ensures`, and no line has opened the body."""
    heads = [head.start() for head in FUNCTION.finditer(text) if head.start() <= place]
    passed = text[heads[-1] : text.find("\n", place)] if heads else ""
    return bool(re.search(r"^\s*(requires|ensures)\b", passed, re.MULTILINE)) and not re.search(r"^\s*\{$", passed, re.MULTILINE)


def together_faults(edits):
    """What is wrong with edits that are tried together."""
    places = [wrong_function(e) for e in edits]
    for edit, place in zip(edits, places):
        if not place[0].startswith("src/") or not place[1]:
            yield f"{edit.name} is not in one function"
        elif places.count(place) > 1:
            yield f"{edit.name} is in {place[1]}, and so is another"
        texts = {file: (edit.crate / file).read_text() for file, _, _ in edit.pairs}
        if any("≡" in new or in_clauses(texts[file], texts[file].find(old)) for file, old, new in edit.pairs):
            yield f"{edit.name} changes a contract, on which other proofs rest"


# LOGS


def in_one_line(text):
    return " ".join(text.split())[:KEPT]


def lines_of(log, crate, place=None):
    """The errors of a log that do not merely follow from another one, and what functions came to that are not proved, a line each; of the function at
    this place alone, if there is one."""
    errors = [(error.group(1), in_one_line(error.group(0))) for error in ERROR.finditer(log) if not FOLLOWS.search(in_one_line(error.group(0)))]
    verdicts = [(verdict.group(1), in_one_line(verdict.group(0))) for verdict in VERDICT.finditer(log)]
    if place:
        file, function = place
        module = pathlib.PurePosixPath(file).stem
        inside = [] if module in ("lib", "main") else [module]
        # a method has its type's name before its own
        proof = re.compile("/".join([r"(?:\./|.*/)?proofs", *inside, rf"(?:[A-Z]\w*/)?{function}", r"\w+\.antt"]))
        name = re.compile("::".join([crate, *inside, rf"(?:[A-Z]\w*::)?{function}"]))
        errors = [it for it in errors if proof.fullmatch(it[0])]
        verdicts = [it for it in verdicts if name.fullmatch(it[0])]
    return [line for _, line in errors], [line for _, line in verdicts]


def own_lines(log, edit):
    """What a log says of an edit: the first error, and what its function came to."""
    errors, verdicts = lines_of(log, edit.crate.name, wrong_function(edit) if edit.together else None)
    return errors[:1] + verdicts[:1]


def refusal_faults(lines):
    """What is wrong with what a log says of an edit."""
    errors = [line for line in lines if ": error: " in line]
    if not errors and not any(OPEN in line for line in lines):
        yield "no error of its own: it is not refused, or only for what follows from another refusal"
    # Later errors may follow from the form: another test or another arm gives the facts behind it other names.
    if errors and any(misfit.search(errors[0]) for misfit in MISFITS):
        yield f"it is refused for its proof's form: {errors[0]}"


def others_refused(log, edits):
    """The functions beside the edits' own that a log refuses for more than what they call. There are none, so that what is said of an edit's function is
    said of that edit."""
    places = [wrong_function(edit) for edit in edits]
    crate = edits[0].crate.name
    own = [line for place in places for lines in lines_of(log, crate, place) for line in lines]
    errors, verdicts = lines_of(log, crate)
    return [line for line in errors + [it for it in verdicts if OPEN in it] if line not in own]


# Lines of a log, and whether they are an error of the edit's own.
MADE_LOGS = [
    (
        "loader/key_not_compared",
        "./proofs/names/find_key/Answers.antt:32:1: error: `returns`: the two types\n  differ\nfn loader::names::find_key: not proved\n",
        True,
    ),
    ("loader/key_not_compared", "./proofs/names/find_name/Answers.antt:32:1: error: `returns`: the two types differ\n", False),
    (
        "loader/key_not_compared",
        "./proofs/names/find_key/Answers.antt:49:1: error: 2 declarations that depend on `held`, which was\n  rejected, were not checked: returns\n",
        False,
    ),
    (
        "loader/key_not_compared",
        "./proofs/names/find_key/Answers.antt:4:1: error: `returns`: record `X` (nearest: .a)\n  has no field `b`\nfn loader::names::find_key: not proved\n",
        False,
    ),
    ("loader/key_not_compared", "fn loader::names::find_key: no proof: expected answers in x; `search` did not prove `returns`\n", True),
    ("loader/key_not_compared", "fn loader::names::find_key: no proof: it calls `loader::names::place`, which is not proved\n", False),
    ("loader/key_not_compared", "fn loader::names::find_key: proved\n", False),
]

# Logs of key_not_compared, and whether they refuse a function beside its own.
OTHERS = [
    ("fn loader::names::find_key: not proved\nfn loader::names::find_name: no proof: it calls `loader::names::find_key`, which is not proved\n", False),
    ("fn loader::names::find_name: no proof: expected answers in x; `search` did not prove `returns`\n", True),
    ("./proofs/names/find_name/Answers.antt:32:1: error: `returns`: the two types differ\n", True),
]


# WHAT IS RECORDED


def sum_of(path):
    return hashlib.sha256(path.read_bytes()).hexdigest()


def sum_of_crate(crate):
    """A sum of the crate's code, definitions and proofs."""
    whole = hashlib.sha256()
    for part in ("src", "specs", "proofs"):
        for path in sorted(it for it in (crate / part).rglob("*") if it.is_file()):
            whole.update(f"{path.relative_to(crate)} {sum_of(path)}\n".encode())
    return whole.hexdigest()


def record_of(crate):
    path = REFUSED / f"{crate.name}.json"
    return json.loads(path.read_text()) if path.is_file() else {}


def crate_faults(crate, record, kit):
    """What is wrong with a record of a crate's edits; `kit` is None if it is not to be compared."""
    again = f"run tests/edits/run --record {crate.name}"
    if not record:
        yield f"nothing is recorded of its edits: {again}"
    elif record["crate"] != sum_of_crate(crate):
        yield f"it has changed since its edits were recorded: {again}"
    elif kit and record["kit"] != kit:
        yield f"its edits were recorded with {record['kit']}: {again}"


def record_faults(edit, record):
    """What is wrong with what is recorded of an edit."""
    kept = record.get("edits", {}).get(edit.path.name, {"sum": None, "lines": {}})
    if kept["sum"] != sum_of(edit.path):
        yield f"its file is not the one whose refusal was recorded: run tests/edits/run --record {edit.crate.name}"
    else:
        yield from refusal_faults(kept["lines"].get(edit.label, []))


def said_by(words, folder=ROOT):
    ran = subprocess.run(words, cwd=folder, stdin=subprocess.DEVNULL, stdout=subprocess.PIPE, stderr=subprocess.STDOUT, errors="replace")
    return ran.stdout


def lines_of_crates():
    """Each line of crates.txt by the crate that it lists."""
    lines = {}
    for line in (ROOT / "crates.txt").read_text().split("\n"):
        head, colon, _ = line.partition("#")[0].partition(":")
        if colon:
            lines[head.split()[0]] = line.partition("#")[0]
    return lines


def below(name, lines):
    """The crates of the repository below one, each behind those that it uses."""
    found = []
    for other in lines[name].partition(":")[2].split():
        if other in lines:
            found += [it for it in [*below(other, lines), other] if it not in found]
    return found


def linked(one, to):
    """Gives a file a second name where that can be done: a check replaces such a file, and changes none."""
    try:
        os.link(one, to)
    except OSError:
        shutil.copy2(one, to)


def copied(name, room):
    """Copies a crate and those below it, with the libraries that were built and what was kept of the crate's check; the crate's folder."""
    lines = lines_of_crates()
    names = [*below(name, lines), name]
    (room / ".git").mkdir()
    (room / "crates.txt").write_text("".join(f"{lines[it]}\n" for it in names))
    if (ROOT / "HANDLES").is_file():
        shutil.copy2(ROOT / "HANDLES", room / "HANDLES")
    for it in names:
        for part in ("src", "specs", "proofs", "out/rlib", *(["out/incremental"] if it == name else [])):
            if (ROOT / "crates" / it / part).is_dir():
                shutil.copytree(ROOT / "crates" / it / part, room / "crates" / it / part, copy_function=linked if part == "out/rlib" else shutil.copy2)
    return room / "crates" / name


def recorded(name, kit):
    """What the checks of a crate's edits say, and what is wrong with that."""
    crate, words = ROOT / "crates" / name, ["rt", "check", "--jobs", "1"]
    record, faults = {"kit": kit, "crate": sum_of_crate(crate), "edits": {}}, []
    with tempfile.TemporaryDirectory(prefix="edits-") as room:
        copy = copied(name, pathlib.Path(room))
        log = said_by(words, copy)
        if "\nlogic=proved" not in log:
            return None, [f"{name}: it is not proved, so that nothing can be recorded of its edits: {' '.join(log.split())[-KEPT:]}"]
        for path in sorted(crate.glob("must-fail/*.edit")):
            edits, texts = edits_of(path), {}
            bad = [f"{edit.name}: {fault}" for edit in edits for fault in text_faults(edit, texts)]
            faults += bad
            if bad:
                continue
            for file, text in texts.items():
                (copy / file).write_text(text)
            log = said_by(words, copy)
            for file in texts:
                shutil.copyfile(crate / file, copy / file)
            if "\nlogic=not-proved" not in log:
                faults.append(f"{name}/{path.name}: its check does not end in a refusal: {' '.join(log.split())[-KEPT:]}")
            if edits[0].together:
                faults += [f"{name}/{path.name}: no function of an edit, and refused too: {line}" for line in others_refused(log, edits)]
            lines = {edit.label: own_lines(log, edit) for edit in edits}
            faults += [f"{edit.name}: {fault}" for edit in edits for fault in refusal_faults(lines[edit.label])]
            record["edits"][path.name] = {"sum": sum_of(path), "lines": lines}
            print(f"{name}/{path.name}: checked", flush=True)
    if record["crate"] != sum_of_crate(crate):
        return None, [f"{name}: it was changed meanwhile"]
    return record, faults


def record(names):
    """Records the edits of these crates, or of each whose record is of other files or of another kit."""
    kit = said_by(["rt", "version"]).strip()
    crates = sorted({path.parents[1] for path in ROOT.glob("crates/*/must-fail/*.edit")})
    for name in names:
        if ROOT / "crates" / name not in crates:
            sys.exit(f"edits: {name} is no crate with edits")

    def is_old(crate):
        sums = {path.name: sum_of(path) for path in crate.glob("must-fail/*.edit")}
        kept = record_of(crate)
        return any(crate_faults(crate, kept, kit)) or sums != {name: it["sum"] for name, it in kept["edits"].items()}

    names = names or [crate.name for crate in crates if is_old(crate)]
    REFUSED.mkdir(exist_ok=True)
    with ThreadPoolExecutor(max(1, (os.cpu_count() or 1) - 1)) as pool:
        for name, (made, faults) in zip(names, pool.map(lambda name: recorded(name, kit), names)):
            failures.extend(faults)
            if made:
                (REFUSED / f"{name}.json").write_text(json.dumps(made, indent=1, ensure_ascii=False, sort_keys=True) + "\n")
    for failure in failures:
        print(failure)
    print(f"edits: recorded those of {len(names)} crates, with {len(failures)} faults; tests/edits/run reads what was recorded")
    sys.exit(1 if failures else 0)


# WHAT RT SAYS


def answers_of_rt():
    """What `rt must-fail` says of each file of edits."""
    return dict(re.findall(r"^rt: must-fail (\S+?\.edit): (.*)$", said_by(["rt", "must-fail"]), re.MULTILINE))


def answer_faults(answer):
    if answer is None:
        yield "`rt must-fail` says nothing of it"
    elif answer != "refused, as it must be" and not answer.startswith("refused, as it must be: "):
        yield f"`rt must-fail` says: {answer}"


def named_edits():
    """The edits of the last column of the table of ARCHITECTURE.md's section on a reviewer's attacks."""
    text = (ROOT / "docs" / "ARCHITECTURE.md").read_text()
    section = text.split("\n## What a reviewer tries\n", 1)[1].split("\n## ", 1)[0]
    for row in section.split("\n"):
        cells = row.strip().strip("|").split("|")
        if row.startswith("|") and len(cells) == 3:
            yield from re.findall(r"`([a-z_0-9]+/[a-z_0-9]+)`", cells[2])


def main():
    words = sys.argv[1:]
    if words[:1] == ["--record"]:
        record(words[1:])
    with_rt = words != ["--without-rt"]
    if words and with_rt:
        sys.exit("usage: tests/edits/run [--without-rt | --record [CRATE..]]")
    kit = said_by(["rt", "version"]).strip() if with_rt else None
    answers = answers_of_rt() if with_rt else {}
    files = sorted(ROOT.glob("crates/*/must-fail/*.edit"))
    edits, records = {}, {}
    for path in files:
        texts, here, crate = {}, edits_of(path), path.parents[1]
        if crate not in records:
            records[crate] = record_of(crate)
            check(f"crates/{crate.name}", list(crate_faults(crate, records[crate], kit)))
        for edit in here:
            check(edit.name, ["another edit has this name"] if edit.name in edits else [])
            edits[edit.name] = edit
            check(edit.name, list(text_faults(edit, texts)))
            check(edit.name, list(record_faults(edit, records[crate])))
        check(str(path.relative_to(ROOT)), list(together_faults([e for e in here if e.together])))
        if with_rt:
            check(str(path.relative_to(ROOT)), list(answer_faults(answers.get(f"{crate.name}/{path.name}"))))
    for path in REFUSED.glob("*.json"):
        check(str(path.relative_to(ROOT)), [] if ROOT / "crates" / path.stem in records else ["no crate of this name has edits"])
    for name, log, own in MADE_LOGS:
        check(name, [] if (not list(refusal_faults(own_lines(log, edits[name])))) == own else [f"a made log is misread: {log}"])
    for log, others in OTHERS:
        check("others", [] if bool(others_refused(log, [edits["loader/key_not_compared"]])) == others else [f"a made log is misread: {log}"])
    for name in PROOF_PARTS:
        check(name, [] if name in edits else ["it is on the list of edits that change a proof, and is not there"])
    named = list(named_edits())
    check("docs/ARCHITECTURE.md", [] if named else ["it names no edit"])
    for name in named:
        check("docs/ARCHITECTURE.md", [] if name in edits else [f"it names the edit {name}, which is not there"])
    for failure in failures:
        print(failure)
    print(f"edits: {len(edits)} in {len(files)} files, of which {len(PROOF_PARTS)} change a proof; {len(named)} named in docs/ARCHITECTURE.md")
    if not with_rt:
        print("edits: NOT TESTED, since --without-rt was given: WHETHER RT REFUSES EACH FILE, AND WITH WHICH KIT IT WAS RECORDED")
    print(f"{passed} passed, {len(failures)} failed")
    sys.exit(1 if failures else 0)


main()
