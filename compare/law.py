#!/usr/bin/env python3
"""Small random cases held against the law itself, by search over all strings.

Nothing here but the definitions: a text passes if no pattern occurs in it and no letter stands too often in a row; a
string has windows in order if they occur in it at strictly rising places. What exists, and how short it can be, is
found by going over all strings, two of them taken for one only if they end alike and have as many windows matched.

    python3 compare/law.py --seed 1 --count 1500            answers of second.py, letter by letter, any text table
    python3 compare/law.py --seed 1 --count 300 --proved    texts printed by the proved programs
"""

from __future__ import annotations

import argparse
import random
import subprocess
import sys
from collections import Counter
from collections.abc import Iterator, Sequence
from dataclasses import dataclass, field

sys.dont_write_bytecode = True

import generate  # noqa: E402
import programs  # noqa: E402
import second  # noqa: E402

GAP = ord("?")
ALL_STRINGS = 5_000
"""Up to this many strings are enumerated one by one."""

Random = random.Random


class Broken(Exception):
    """The law does not hold."""


def demand(holds: bool, told: str) -> None:
    if not holds:
        raise Broken(told)


# The definitions.


@dataclass(frozen=True)
class Reader:
    """What an old reader cannot take."""

    letters: bytes
    patterns: tuple[bytes, ...]
    limit: int | None
    steps: dict[tuple[bytes, int], bool] = field(default_factory=dict, compare=False, repr=False)

    def passes(self, text: bytes) -> bool:
        return not any(self.complete_at(text, end) for end in range(1, len(text) + 1))

    def complete_at(self, text: bytes, end: int) -> bool:
        """Does a pattern, or a run over the limit, end just before this place?"""
        listed = any(end >= len(p) and text[end - len(p) : end] == p for p in self.patterns)
        if listed or self.limit is None:
            return listed
        run = text[max(0, end - self.limit - 1) : end]
        return len(run) == self.limit + 1 and len(set(run)) == 1

    def stopped_at(self, text: bytes) -> int | None:
        return next((end - 1 for end in range(1, len(text) + 1) if self.complete_at(text, end)), None)

    def goes_on(self, tail: bytes, letter: int) -> bool:
        """May this letter follow a passing text with this tail, which is all of it or as long as the memory?"""
        key = (tail, letter)
        if key not in self.steps:
            self.steps[key] = not self.complete_at(tail + bytes([letter]), len(tail) + 1)
        return self.steps[key]

    @property
    def memory(self) -> int:
        return max([len(p) - 1 for p in self.patterns] + [self.limit or 0, 0])


def in_order(text: bytes, windows: Sequence[bytes]) -> bool:
    """Do the windows occur at strictly rising places? Taking each as early as it can be loses nothing."""
    after = 0
    for window in windows:
        at = text.find(window, after)
        if at < 0:
            return False
        after = at + 1
    return True


# What exists, of any length.


def shortest_lengths(reader: Reader, k: int, windows: Sequence[bytes]) -> list[int | None]:
    """For each n the length of a shortest passing string that has the first n windows in order, or none."""
    lengths: list[int | None] = [None] * (len(windows) + 1)
    keep = max(reader.memory, k)
    level = {(b"", 0)}
    seen = set(level)
    length = 0
    while level:
        for _, matched in level:
            if lengths[matched] is None:
                lengths[matched] = length
        longer = set()
        for tail, matched in level:
            for letter in reader.letters:
                if reader.goes_on(tail, letter):
                    text = tail + bytes([letter])
                    more = matched < len(windows) and text.endswith(windows[matched])
                    longer.add((text[-keep:], matched + more))
        level = longer - seen
        seen |= level
        length += 1
    return lengths


def shortest_join(reader: Reader, left: bytes, right: bytes) -> int | None:
    """The length of a shortest passing string that begins with the left and ends with the right context."""
    keep = max(reader.memory, len(right), 1)
    level = {left[-keep:]}
    seen = set(level)
    length = len(left)
    while level:
        if any(tail.endswith(right) for tail in level):
            return length
        longer = {(tail + bytes([c]))[-keep:] for tail in level for c in reader.letters if reader.goes_on(tail, c)}
        level = longer - seen
        seen |= level
        length += 1
    return None


def rows_in_order(reader: Reader, text: bytes, length: int) -> Iterator[bytes]:
    """All rows of this length after which the text passes, in letter order."""
    if length == 0:
        yield b""
        return
    for letter in reader.letters:
        if reader.goes_on(text, letter):
            for row in rows_in_order(reader, text + bytes([letter]), length - 1):
                yield bytes([letter]) + row


def few_strings(reader: Reader, length: int) -> bool:
    return len(reader.letters) ** length <= ALL_STRINGS


# A sheet, letter by letter.


@dataclass(frozen=True)
class SheetCase:
    reader: Reader
    k: int
    room: int
    trace: bytes


Outcome = second.Answer | second.Refused | None
"""Of one letter or gap; none for a gap that was taken."""


def follow(case: SheetCase) -> tuple[list[Outcome], bytes]:
    """What second.py answers, with refused calls in the midst of others."""
    rules = second.Rules(case.reader.letters, case.reader.patterns, case.reader.limit)
    sheet = second.Sheet(rules, case.k, case.room)
    outcomes: list[Outcome] = []
    for byte in case.trace:
        try:
            outcomes.append(sheet.gap() if byte == GAP else sheet.letter(byte))
        except second.Refused as fault:
            outcomes.append(fault)
    return outcomes, bytes(sheet.text)


def fault_of(outcome: Outcome) -> tuple[int, str, int] | None:
    return (outcome.number, outcome.layer, outcome.place) if isinstance(outcome, second.Refused) else None


def judge_sheet(case: SheetCase, outcomes: Sequence[Outcome], text: bytes, seen: Counter[str]) -> None:
    kept: list[bytes] = []
    rows: list[int] = []
    running = b""
    taken = 0
    for byte, outcome in zip(case.trace, outcomes, strict=True):
        if byte == GAP:
            running = b""
            taken += 1
            continue
        window = (running + bytes([byte]))[-case.k :]
        if len(window) < case.k:
            demand(outcome == "pending", f"{taken}: not pending")
        elif not case.reader.passes(window):
            demand(outcome == "skipped", f"{taken}: not skipped")
        else:
            fault = judge_window(case, kept, window, sum(rows), taken, outcome)
            seen[f"refused {fault[0]}" if fault else "kept"] += 1
            if fault:
                continue
            assert isinstance(outcome, second.Kept)
            kept.append(window)
            rows.append(outcome.appended)
            seen["rows with a filling"] += outcome.filled > 0
        running = window
        taken += 1
    judge_text(case.reader, case.k, kept, text, seen)
    demand(len(text) == sum(rows), "the text is not what was appended")
    judge_rows(case.reader, kept, rows, text, seen)


def judge_window(
    case: SheetCase, kept: list[bytes], window: bytes, length: int, taken: int, outcome: Outcome
) -> tuple[int, str, int] | None:
    """8 and 9 exactly when the law says, and else as many letters as a shortest string has more."""
    best = shortest_lengths(case.reader, case.k, [*kept, window])[-1]
    fault = fault_of(outcome)
    if best is None:
        demand(fault == (8, "J", taken), f"{taken}: no string exists, but {outcome}")
    elif best > case.room:
        demand(fault == (9, "J", best), f"{taken}: {best} letters are needed, but {outcome}")
    else:
        appended = best - length
        filled = 0 if not kept else max(0, appended - case.k)
        demand(outcome == second.Kept(appended, filled), f"{taken}: {appended} letters serve, but {outcome}")
    return fault


def judge_text(reader: Reader, k: int, kept: list[bytes], text: bytes, seen: Counter[str]) -> None:
    demand(reader.passes(text), "the text does not pass")
    demand(in_order(text, kept), "the text lacks a kept window")
    demand(shortest_lengths(reader, k, kept)[-1] == len(text), "a shorter text exists")
    if few_strings(reader, len(text)):
        for length in range(len(text)):
            shorter = next((s for s in rows_in_order(reader, b"", length) if in_order(s, kept)), None)
            demand(shorter is None, f"{shorter!r} is shorter")
        seen["texts against all shorter strings"] += 1


def judge_rows(reader: Reader, kept: list[bytes], rows: list[int], text: bytes, seen: Counter[str]) -> None:
    """Every row is the first of its length in letter order."""
    length = 0
    for window, row in zip(kept, rows, strict=True):
        before, after = text[:length], text[length : length + row]
        if length and few_strings(reader, row):
            first = next(r for r in rows_in_order(reader, before, row) if (before + r).endswith(window))
            demand(first == after, f"row {after!r}, but {first!r} is earlier")
            seen["rows against all of their length"] += 1
        length += row


# A join.


@dataclass(frozen=True)
class JoinCase:
    reader: Reader
    left: bytes
    right: bytes
    room: int


def expected_fault(case: JoinCase) -> tuple[int, str, int] | None:
    left_stop, right_stop = case.reader.stopped_at(case.left), case.reader.stopped_at(case.right)
    if left_stop is not None:
        return 7, "J", left_stop
    if right_stop is not None:
        return 7, "J", len(case.left) + right_stop
    best = shortest_join(case.reader, case.left, case.right)
    if best is None:
        return 8, "J", 0
    return (9, "J", best) if best > case.room else None


def judge_join(case: JoinCase, found: second.Joined | second.Refused, seen: Counter[str]) -> None:
    fault = expected_fault(case)
    if fault is not None or isinstance(found, second.Refused):
        refused = (found.number, found.layer, found.place) if isinstance(found, second.Refused) else None
        demand(refused == fault, f"{fault} is due, but {found}")
        seen[f"joins refused {fault and fault[0]}"] += 1
        return
    best = shortest_join(case.reader, case.left, case.right)
    both = len(case.left) + len(case.right)
    demand(case.reader.passes(found.text), "the joined text does not pass")
    demand(found.text.startswith(case.left) and found.text.endswith(case.right), "the joined text lacks a context")
    demand(len(found.text) == best, f"{best} letters would do")
    demand((found.overlap, found.filled) == (max(0, both - best), max(0, best - both)), "overlap or filled letters")
    seen["joins"] += 1
    row = best - len(case.left)
    if few_strings(case.reader, row):
        first = next(r for r in rows_in_order(case.reader, case.left, row) if (case.left + r).endswith(case.right))
        demand(found.text == case.left + first, f"{first!r} is earlier in letter order")
        seen["joins against all of their length"] += 1


def join_found(case: JoinCase) -> second.Joined | second.Refused:
    rules = second.Rules(case.reader.letters, case.reader.patterns, case.reader.limit)
    try:
        return second.join_contexts(rules, case.left, case.right, case.room)
    except second.Refused as fault:
        return fault


# The proved programs: what they print for a file.


def kind_of(reader: Reader) -> bytes | None:
    return next((kind for kind, letters in second.KINDS.items() if letters == reader.letters), None)


def file_of(reader: Reader, k: int | None, content: bytes) -> bytes:
    kind = kind_of(reader)
    assert kind is not None
    lines = [b"L" + kind]
    lines += [b"k%4d" % k] if k is not None else []
    lines += [b"r%4d" % reader.limit] if reader.limit is not None else []
    lines += [b"!" + pattern for pattern in reader.patterns]
    return b"\n".join([*lines, b">" + content, b""])


def printed_by(program: str, data: bytes) -> bytes:
    return subprocess.run([programs.executable(program)], input=data, stdout=subprocess.PIPE, timeout=60).stdout


def printed_fault(printed: bytes) -> second.Refused | None:
    if not printed.startswith(b"R"):
        return None
    return second.Refused(int(printed[1:5]), printed[5:6].decode(), int(printed[6:12]))


def windows_of(case: SheetCase, taken: int) -> tuple[list[bytes], int, int]:
    """The kept windows of the first letters and gaps, how many were skipped, and how many letters there are."""
    stretches = case.trace[:taken].split(b"?")
    windows = [s[at : at + case.k] for s in stretches for at in range(len(s) - case.k + 1)]
    kept = [window for window in windows if case.reader.passes(window)]
    return kept, len(windows) - len(kept), sum(map(len, stretches))


def judge_printed(case: SheetCase, printed: bytes, seen: Counter[str]) -> None:
    """The law for a whole file: the first window that cannot be taken up ends the work."""
    fault = printed_fault(printed)
    kept, skipped, letters = windows_of(case, len(case.trace))
    lengths = shortest_lengths(case.reader, case.k, kept)
    late = next((n for n, best in enumerate(lengths) if best is None or best > second.TEXT_LETTERS), None)
    if late is None:
        demand(fault is None, f"refused with {fault}, but {lengths[-1]} letters serve")
        text, counts, _ = printed.split(b"\n")
        judge_text(case.reader, case.k, kept, text, seen)
        filled = sum(max(0, b - a - case.k) for a, b in zip(lengths[1:], lengths[2:]))
        due = [letters, len(kept), skipped, len(text), filled]
        demand([int(count) for count in counts.split()] == due, f"counts {counts!r} instead of {due}")
        seen["printed texts"] += 1
        return
    demand(fault is not None, f"not refused, but window {late} is out of reach")
    if lengths[late] is None:
        before, _, _ = windows_of(case, fault.place)
        upto, _, _ = windows_of(case, fault.place + 1)
        demand((fault.number, fault.layer) == (8, "J"), f"8 is due, but {fault}")
        demand((len(before), len(upto)) == (late - 1, late), f"8 at {fault.place} is not the window out of reach")
    else:
        demand((fault.number, fault.layer, fault.place) == (9, "J", lengths[late]), f"9 is due, but {fault}")
    seen[f"printed {fault.number}"] += 1


def printed_join(case: JoinCase) -> second.Joined | second.Refused:
    printed = printed_by("join", file_of(case.reader, None, case.left + b"?" + case.right))
    fault = printed_fault(printed)
    if fault is not None:
        return fault
    *lines, text, _ = printed.split(b"\n")
    values = dict(line.split(b": ") for line in lines)
    return second.Joined(text, int(values[b"overlap"]), int(values[b"filled"]))


# Random cases.


def some_reader(rng: Random, letters: bytes, k: int) -> Reader:
    """Patterns of at most k + 1 letters, so that a window of k serves; often many, so that rows need fillings."""
    limit = rng.choice([None, None, None, rng.randint(1, k)])
    if rng.random() < 0.6:
        dense = generate.few_steps(rng, letters)
        if all(len(pattern) <= k + 1 for pattern in dense):
            return Reader(letters, tuple(dense), limit)
    longest = min(k + 1, 4 if len(letters) > 2 else 6)
    most = rng.choice([1, 3, 6, 2 * len(letters)])
    sizes = [rng.randint(rng.choice([1, 2, longest]), longest) for _ in range(rng.randint(0, most))]
    return Reader(letters, tuple(bytes(rng.choices(letters, k=size)) for size in sizes), limit)


def some_text(rng: Random, reader: Reader, most: int) -> bytes:
    """A random text, mostly a passing one."""
    made = b""
    for _ in range(rng.randint(0, most)):
        free = bytes(c for c in reader.letters if not reader.complete_at(made + bytes([c]), len(made) + 1))
        made += bytes([rng.choice(free if free and rng.random() < 0.97 else reader.letters)])
    return made


def some_letters(rng: Random, proved: bool) -> tuple[bytes, int]:
    """The letters of a kind, and the longest window for which going over all strings is quick."""
    kinds = [(b"ab", 5), (b"ab", 5), (b"ab", 4), (second.KINDS[b"P"], 2), (second.KINDS[b"Q"], 2)]
    return rng.choice(kinds if proved else [*kinds, (b"abc", 3), (b"x", 4)])


def sheet_case(rng: Random, proved: bool) -> SheetCase:
    letters, longest = some_letters(rng, proved)
    k = rng.randint(2, longest)
    reader = some_reader(rng, letters, k)
    parts = [some_text(rng, reader, k + 4) for _ in range(rng.randint(1, 8))]
    if rng.random() < 0.2:
        ending, beginning = generate.cut_pattern(rng, reader.patterns)
        parts += [some_text(rng, reader, k) + ending, beginning + some_text(rng, reader, k)]
    room = rng.choice([30_000, rng.randint(0, 30)])
    return SheetCase(reader, k, room, b"?".join(parts))


def long_sheet_case(rng: Random) -> SheetCase:
    """A text that ends near the table's 30,000 letters. No pattern here parts the letters for good."""
    reader = Reader(b"ab", tuple(rng.sample([b"bab", b"aaa", b"bbb", b"abba", b"baab"], rng.randint(1, 2))), None)
    length = rng.randint(28_000, 44_000)
    trace = b""
    while len(trace) < length:
        trace += some_text(rng, reader, 60) + b"?"
    return SheetCase(reader, max(2, reader.memory), second.TEXT_LETTERS, trace)


def join_case(rng: Random, proved: bool) -> JoinCase:
    letters, longest = some_letters(rng, proved)
    reader = some_reader(rng, letters, longest)
    left, right = some_text(rng, reader, longest + 2), some_text(rng, reader, longest)
    if rng.random() < 0.3:
        left, right = generate.cut_pattern(rng, reader.patterns)
    return JoinCase(reader, left, right, 30_000 if proved else rng.choice([30_000, rng.randint(0, 12)]))


def judge_one(rng: Random, proved: bool, seen: Counter[str]) -> SheetCase | JoinCase:
    """One random case; the law's complaint carries the case."""
    case: SheetCase | JoinCase = sheet_case(rng, proved) if rng.random() < 0.6 else join_case(rng, proved)
    if proved and rng.random() < 0.02:
        case = long_sheet_case(rng)
    try:
        if isinstance(case, JoinCase):
            judge_join(case, printed_join(case) if proved else join_found(case), seen)
        elif proved:
            judge_printed(case, printed_by("rewrite", file_of(case.reader, case.k, case.trace)), seen)
        else:
            judge_sheet(case, *follow(case), seen)
    except Broken as complaint:
        raise Broken(f"{complaint}\n{case}") from complaint
    return case


def main(arguments: Sequence[str]) -> int:
    parser = argparse.ArgumentParser(description="Holds small random cases against the law by search over all strings.")
    parser.add_argument("--seed", type=int, default=1)
    parser.add_argument("--count", type=int, default=1500)
    parser.add_argument("--proved", action="store_true", help="judge what the proved programs print")
    options = parser.parse_args(arguments)
    missing = programs.missing(("rewrite", "join")) if options.proved else []
    if missing:
        print(f"law.py: not built yet; first {'; '.join(map(programs.building, missing))}", file=sys.stderr)
        return 2
    rng = random.Random(options.seed)
    seen: Counter[str] = Counter()
    for at in range(options.count):
        try:
            judge_one(rng, options.proved, seen)
        except Broken as complaint:
            print(f"case {at}: {complaint}")
            return 1
    for told, count in sorted(seen.items()):
        print(f"{told:40}{count:9}")
    judged = "the proved programs" if options.proved else "second.py"
    print(f"law.py: {options.count} cases of {judged} (seed {options.seed}) hold")
    return 0


if __name__ == "__main__":
    sys.exit(main(sys.argv[1:]))
