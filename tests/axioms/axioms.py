"""Holds what the crates can reach of C to what may be assumed: axioms.py CRATES.TXT CRATES LOGS PROGRAMS

No library crate reaches a C function: none lists a library of the kit, and the code that was built of it names only functions of this repository and
of `core`, which declares none. The verdict on each program rests on the contracts of exactly the C functions below, and that on the static library on
none, as the reports of their checks name them (target/log); no crate of ours declares one. A linked program calls exactly the functions below.
"""
import os
import re
import subprocess
import sys

READ_WRITE = {"libc::read", "libc::write"}
# What the kit's trait for files has contracts of, though `takrun` calls few of them.
FILES = (
    "chmod chown close fchmod fdatasync flock fsync ftruncate futimens lchown link lseek mkdir net::bind pipe2 readlink realpath rename rmdir statx"
    " symlink unlink"
)
OF_OS = "fcntl getdents64 open rattle_errno rattle_open_dir_at rattle_set_errno unlinkat"
HEAP = {f"libc::heap::rattle_{name}" for name in ("alloc", "dealloc", "realloc")}
ASSUMED = {
    "takrun": READ_WRITE | {f"libc::{name}" for name in FILES.split()} | {f"os::c::{name}" for name in OF_OS.split()},
    "replay": READ_WRITE | HEAP | {"os::c::__xpg_strerror_r", "os::c::rattle_errno"},
}
# Besides what the compiler calls by itself. At its start a program has signals of broken pipes ignored (`signal`).
CALLED = {
    "takrun": {"open", "read", "write", "close", "__errno_location", "__sysv_signal"},
    "replay": {"read", "write", "malloc", "realloc", "free", "__xpg_strerror_r", "__errno_location", "__sysv_signal"},
}
BY_ITSELF = {"__libc_start_main", "memcpy", "memmove", "memset"}
# What the made names of functions have of `core` without its name: traits, and the type parameter of a slice's methods.
OF_CORE = {"Destruct", "Fn", "FnMut", "FnOnce", "T"}
# The libraries of the kit that declare C functions.
DECLARE = {"libc", "os", "std"}


def listed(path):
    """The crates of crates.txt, in order: each with whether it is a static library, and what it lists."""
    with open(path, encoding="utf-8") as f:
        lines = [line.split("#")[0] for line in f]
    rows = [re.fullmatch(r"(\w+)( staticlib)? *:(.*)", line.strip()) for line in lines if line.strip()]
    return {row[1]: (bool(row[2]), row[3].split()) for row in rows}


def last_report(text):
    """What a log has of its last check: `rt` shows the checks of the libraries below first."""
    return text[max((m.end() for m in list(re.finditer(r"^logic=.*\n", text, re.M))[:-1]), default=0) :]


def beyond(names, may):
    return f"beyond the list: {', '.join(sorted(names - may)) or 'none'}; missing: {', '.join(sorted(may - names)) or 'none'}"


def wrong_in(report, may):
    """What the report of a program or a static library has that it must not have, or lacks; None if nothing."""
    verdicts = re.findall(r"^logic=.*$", report, re.M)
    if len(verdicts) != 1 or not verdicts[0].startswith("logic=proved "):
        return "it is not reported as proved"
    words = dict(word.split("=", 1) for word in verdicts[0].split() if "=" in word)
    if "foreign" in words:
        return f"it declares C functions: {words['foreign']}"
    if "target" not in words:
        return "the report is not that of a program or a static library"
    declaring = dict(re.findall(r"^axioms (\w+): (\w+) reached of the \d+ declared$", report, re.M))
    if declaring.keys() != DECLARE or len(re.findall(r"^axioms ", report, re.M)) != len(DECLARE):
        return f"the report is of the C functions that {', '.join(sorted(declaring)) or 'no library'} declares"
    names = set(re.findall(r"^  (\S+)   reached$", report, re.M))
    for library, count in declaring.items():
        if (0 if count == "none" else int(count)) != sum(name.startswith(f"{library}::") for name in names):
            return f"the count of those of {library} ({count}) is not that of the names: {', '.join(sorted(names))}"
    if int(words.get("axioms", "0")) != len(names):
        return f"the count of axioms ({words.get('axioms', '0')}) is not that of the names: {', '.join(sorted(names))}"
    if names != may:
        return beyond(names, may)
    return None


def wrong_in_program(symbols, may):
    """What a linked program calls that it must not, or does not call; by the lines of nm, without what may be missing (w)."""
    names = set(re.findall(r"^ +U (\w+)(?:@.*)?$", symbols, re.M)) - BY_ITSELF
    return None if names == may else f"it calls {beyond(names, may)}"


def wrong_in_library(crate, lists, code, ours):
    """What a library lists or names in its code that it must not."""
    others = set(lists) - set(ours)
    if others:
        return f"a library over {', '.join(sorted(others))} of the kit"
    if not re.search(rf'"{crate}::\w', code) and '"body"' in code:
        return "its code names none of its own functions, so that it is in another form"
    others = heads(code) - set(ours) - {"core"} - OF_CORE
    return f"its code names functions of {', '.join(sorted(others))}" if others else None


def heads(code):
    """The first word of each path. Where rattle makes a word of a path, ++ stands between its words, and a + before what the function is a method of."""
    found = set(re.findall(r"(?<![\w:+])([A-Za-z_]\w*)::", code)) | set(re.findall(r"(?<=[^+]\+)([A-Za-z_]\w*)::", code))
    for made in re.findall(r"[A-Za-z_][\w+]*\+[\w+]*", code):
        words = [part.split("++") for part in re.split(r"(?<!\+)\+(?!\+)", made)]
        found |= {path[0] for path in words if len(path) > 1}
    return found


def replaced(text, old, new):
    """The text with a part of it replaced, which must be there."""
    if not re.search(old, text, re.M):
        raise ValueError(f"there is nothing like {old}")
    return re.sub(old, new, text, flags=re.M)


def altered(report, may):
    """Reports that must be found wrong: what was done, and the report."""
    count = len(may)
    another = r"^(axioms libc: )\w+( reached.*)\n"
    more = rf"\g<1>{sum(name.startswith('libc::') for name in may) + 1}\2\n  libc::another   reached\n"
    axioms = r"^logic=proved (.*?)(axioms=\d+ )?target="
    yield "a C function more", replaced(replaced(report, another, more), axioms, rf"logic=proved \1axioms={count + 1} target=")
    yield "one that is named and not counted", replaced(report, another, r"\1none\2\n  libc::another   reached\n")
    yield "one that is named and not counted in the verdict", replaced(report, another, more)
    yield "one that is counted and not named", replaced(report, axioms, rf"logic=proved \1axioms={count + 1} target=")
    yield "a C function of its own", replaced(report, r"^logic=proved ", "logic=proved foreign=machine::magic ")
    ours = "axioms machine: 1 reached of the 1 declared\n  machine::magic   reached\naxioms std:"
    yield "a C function of a crate of ours", replaced(report, r"^axioms std:", ours)
    yield "nothing said of os", re.sub(r"^axioms os: .*\n", "", report, flags=re.M)
    first = "axioms libc: libc::read, libc::write, ... (4 of the 128 declared)"
    yield "a report that names the first of them", replaced(report, r"^axioms libc: .*$", first)
    yield "not proved", replaced(report, r"^logic=proved", "logic=not-proved")
    yield "no verdict", replaced(report, r"^logic=.*\n", "")
    yield "the report of a library", replaced(report, r" target=\S+", "")
    for name in sorted(may):
        library = name.split("::")[0]
        of_it = sum(other.startswith(f"{library}::") for other in may)
        without = replaced(report, rf"^  {name}   reached$", f"  {name}")
        without = replaced(without, rf"^axioms {library}: \w+ ", f"axioms {library}: {of_it - 1 or 'none'} ")
        yield f"{name} missing", replaced(without, r"axioms=\d+ ", f"axioms={count - 1} " if count > 1 else "")


def altered_code(crate, code):
    """Code of a library that must be found wrong."""
    yield "a call of std", code + '["std::fs::File::open"]'
    yield "a call of libc", code + '["libc::read"]'
    yield "a call in a name that is made of a path", code + f'["{crate}::std++io++traits++Lines+Destruct::drop"]'
    yield "code in another form", code.replace(f'"{crate}::', '"')


def altered_symbols(symbols, may):
    """Programs that must be found wrong."""
    yield "a call of unlink", symbols + "                 U unlink@GLIBC_2.2.5\n"
    for name in sorted(may):
        yield f"no call of {name}", replaced(symbols, rf" U {name}(@.*)?$", " w another")


def main():
    crates_txt, folder, logs, programs = sys.argv[1:]
    ours = listed(crates_txt)
    passed, wrong = 0, []

    def count(what, said):
        nonlocal passed
        passed += said is None
        if said is not None:
            wrong.append(f"{what}: {said}")

    def found(what, said):
        count(what, "not found wrong" if said is None else None)

    for crate, (is_static, lists) in ours.items():
        if is_static or os.path.exists(os.path.join(folder, crate, "src", "main.rt")):
            with open(os.path.join(logs, crate), encoding="utf-8") as f:
                report = last_report(f.read())
            if not is_static and crate not in ASSUMED:
                count(crate, "a program that is not in the list")
                continue
            may = set() if is_static else ASSUMED[crate]
            others = set(lists) - set(ours)
            count(crate, f"it lists {', '.join(sorted(others))} of the kit" if others else wrong_in(report, may))
            if wrong_in(report, may) is None:
                for what, text in altered(report, may):
                    found(f"{crate} with {what}", wrong_in(text, may))
            if not is_static:
                asked = ["nm", "-D", "--undefined-only", os.path.join(programs, crate)]
                symbols = subprocess.run(asked, check=True, capture_output=True, text=True).stdout
                count(crate, wrong_in_program(symbols, CALLED[crate]))
                if wrong_in_program(symbols, CALLED[crate]) is None:
                    for what, text in altered_symbols(symbols, CALLED[crate]):
                        found(f"{crate} with {what}", wrong_in_program(text, CALLED[crate]))
        else:
            with open(os.path.join(folder, crate, "out", "rlib", f"{crate}.rlib", "toolchain", "mir.json"), encoding="utf-8") as f:
                code = f.read()
            count(crate, wrong_in_library(crate, lists, code, ours))
            if '"body"' in code and wrong_in_library(crate, lists, code, ours) is None:
                for what, text in altered_code(crate, code):
                    found(f"{crate} with {what}", wrong_in_library(crate, lists, text, ours))
                found(f"{crate} over libc", wrong_in_library(crate, [*lists, "libc"], code, ours))
    for line in wrong:
        print(f"axioms: {line}")
    print(f"{passed} passed, {len(wrong)} failed")
    return 1 if wrong else 0


if __name__ == "__main__":
    sys.exit(main())
