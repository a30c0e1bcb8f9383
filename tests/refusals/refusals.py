"""Holds the table of refusals, docs/refusals.tsv, to the header, the pages and the calls: refusals.py ANSWERS

ANSWERS is what refusals.c printed: a call, two faults (twice the same for one, 0 for none) and what the call answered. The Rust package
has a test of its own against the table.
"""
import re
import sys

TABLE = "docs/refusals.tsv"
HEADER = "include/tak.h"
CALLS = "docs/CALLS.md"
LANGUAGE = "docs/TCL.md"
# What takrun can print.
PRINTED = {1, 2, 3, 4, 5, 7, 8, 11, 12, 13, 14, 16, 19}


def read(path):
    with open(path, encoding="utf-8") as f:
        return f.read()


def table_of(text):
    """The refusals, number: (constant, sentence), and the calls, name: numbers in the order of the checks."""
    refusals, calls = {}, {}
    for line in text.splitlines():
        fields = line.split("\t")
        if re.fullmatch(r"\d+\tTAK_REFUSED_[A-Z_]+\t[^\t]+", line) and int(fields[0]) not in refusals:
            refusals[int(fields[0])] = (fields[1], fields[2])
        elif re.fullmatch(r"tak_\w+\t[\d ]+", line) and fields[0] not in calls:
            calls[fields[0]] = [int(number) for number in fields[1].split()]
        elif not line.startswith("#"):
            raise ValueError(f"a line in another form: {line}")
    return refusals, calls


def given_by(number, calls):
    return [call for call, order in calls.items() if number in order]


def in_table(refusals, calls):
    """Every number of a call is a refusal, every refusal is given by a call, and none is twice in a call's list."""
    wrong = [f"{call}: {number} is no refusal" for call, order in calls.items() for number in order if number not in refusals]
    wrong += [f"{number} is given by no call" for number in refusals if not given_by(number, calls)]
    return wrong + [f"{call}: a number twice" for call, order in calls.items() if len(set(order)) != len(order)]


def compared(what, found, wanted):
    if found == wanted:
        return []
    shown = [str(next((x for x in side if x not in other), "nothing more")) for side, other in ((wanted, found), (found, wanted))]
    return [f"{what}: wanted {shown[0]}, found {shown[1]}"]


def in_header(text, refusals, calls):
    """Each constant with its number, sentence and calls; the order of checks above each call."""
    found = re.findall(r"^    (TAK_REFUSED_\w+) = (\d+),?\n        /\* (.*)\. (tak_.*) \*/$", text, re.M)
    wanted = [(name, str(number), sentence, ", ".join(given_by(number, calls))) for number, (name, sentence) in refusals.items()]
    orders = re.findall(r"Checks, in order: ([\d ]+)(?:;[^./]*)?\. \*/\nuint32_t (\w+)\(", text)
    names = set(re.findall(r"TAK_REFUSED_[A-Z_]+", text))
    return (
        compared("refusals", found, wanted)
        + compared("orders", orders, [(" ".join(map(str, order)), call) for call, order in calls.items()])
        + compared("names", sorted(names), sorted(name for name, _ in refusals.values()))
    )


def in_calls(text, refusals, calls):
    """A table of all refusals; for each call a section with the numbers in order."""
    found = re.findall(r"^\| (\d+) \| `(\w+)` \| (.*) \| (.*) \|$", text, re.M)
    wanted = [
        (str(number), name, sentence, ", ".join(f"`{call}`" for call in given_by(number, calls)))
        for number, (name, sentence) in refusals.items()
    ]
    orders = re.findall(r"^### `(\w+)`\n(?:(?!#).*\n)*?Checks, in order: ([\d, ]+)(?:;[^.]*)?\.$", text, re.M)
    return compared("refusals", found, wanted) + compared(
        "orders", orders, [(call, ", ".join(map(str, order))) for call, order in calls.items()]
    )


def in_language(text, refusals, calls):
    """A table of the refusals that takrun prints, in the order of the checks: load's, then grant's."""
    section = text[text.index("\n## Refusals\n") :].split("\n## ")[1]
    found = re.findall(r"^\| (\d+) \| (.*) \|$", section, re.M)
    order = dict.fromkeys(number for call in ("tak_load", "tak_grant") for number in calls[call])
    return compared("refusals", found, [(str(number), refusals[number][1]) for number in order if number in PRINTED])


def in_answers(text, refusals, calls):
    """Of the faults of a call the one whose check is earlier is told, 0 if it looks for neither; every pair that can be was tried."""
    wrong, tried = [], set()
    for line in text.splitlines():
        call, first, second, answer = line.split()
        faults = {int(first), int(second)}
        wanted = next((number for number in calls[call] if number in faults), 0)
        tried.add((call, frozenset(faults)))
        if int(answer) != wanted:
            wrong.append(f"{call} with the faults {sorted(faults)} answered {answer} instead of {wanted}")
    apart = [{11, 12}, {11, 13}, {11, 14}, {11, 19}, {13, 14}]
    for call in calls:
        for one in refusals:
            for other in refusals:
                if {one, other} not in apart and (call, frozenset({one, other})) not in tried:
                    wrong.append(f"{call} was not tried with {one} and {other}")
        if (call, frozenset({0})) not in tried:
            wrong.append(f"{call} was not tried without a fault")
    return wrong


def exchanged(order):
    """Each exchange of two neighbours in an order of checks."""
    for i in range(len(order) - 1):
        yield order[:i] + [order[i + 1], order[i]] + order[i + 2 :]


def altered(refusals, calls):
    """Tables that must be found wrong, with what was done."""
    for number, (name, sentence) in refusals.items():
        yield f"another sentence of {number}", refusals | {number: (name, sentence + " at all")}, calls
        yield f"another name of {number}", refusals | {number: (name + "S", sentence)}, calls
        yield f"{number} missing", {n: row for n, row in refusals.items() if n != number}, calls
    for call, order in calls.items():
        for other in exchanged(order):
            yield f"{call} with the checks {other}", refusals, calls | {call: other}
        yield f"{call} without its last check", refusals, calls | {call: order[:-1]}


def main():
    answers = read(sys.argv[1])
    header, pages, language = read(HEADER), read(CALLS), read(LANGUAGE)

    def header_and_pages(refusals, calls):
        wrong = [f"{HEADER}: {line}" for line in in_header(header, refusals, calls)]
        return wrong + [f"{CALLS}: {line}" for line in in_calls(pages, refusals, calls)]

    passed, wrong = 0, []

    def count(lines):
        nonlocal passed
        wrong.extend(lines)
        passed += 0 if lines else 1

    refusals, calls = table_of(read(TABLE))
    count([f"{TABLE}: {line}" for line in in_table(refusals, calls)])
    count(header_and_pages(refusals, calls))
    count([f"{LANGUAGE}: {line}" for line in in_language(language, refusals, calls)])
    count(in_answers(answers, refusals, calls))
    if not wrong:  # each alteration makes something wrong of what is right
        for what, other_refusals, other_calls in altered(refusals, calls):
            count([] if header_and_pages(other_refusals, other_calls) else [f"not found wrong: {what}"])
        # 11, 13 and 14 cannot stand together with some of their neighbours; every other exchange shows in the answers
        for call, order in calls.items():
            for other in exchanged(order):
                at = next(i for i, number in enumerate(other) if number != order[i])
                if {order[at], order[at + 1]} not in ({11, 12}, {13, 14}):
                    found = in_answers(answers, refusals, calls | {call: other})
                    count([] if found else [f"not found wrong in the answers: {call} with the checks {other}"])
    for line in wrong:
        print(f"refusals: {line}")
    print(f"{passed} passed, {len(wrong)} failed")
    return 1 if wrong else 0


if __name__ == "__main__":
    sys.exit(main())
