#!/usr/bin/env python3
"""The three programs once more, made apart from the proved ones.

`check`, `join` and `rewrite` take the bytes of a station file and give what is printed and the exit status. Texts are
judged by looking at them: a text passes if no forbidden word occurs in it. There is no table of states; a search goes
over contexts, the ends of a text that a forbidden word could still start in.

Every search stands here twice: `least_row` is fast enough for full files, and `least_row_by_trial` tries all rows in
order. `python3 compare/second.py --self-test` holds the one against the other.

    python3 compare/second.py rewrite < crates/rewrite/stdin
"""

from __future__ import annotations

import argparse
import random
import re
import sys
from collections import deque
from collections.abc import Callable, Iterator, Sequence
from dataclasses import dataclass, field

KINDS: dict[bytes, bytes] = {b"A": b"ab", b"P": b"=+-*/S", b"Q": b"aAbBcCdD"}
"""The letters of each kind in the order of their numbers."""

GAP = ord("?")
FILE_BYTES = 60_000
TEXT_LETTERS = 30_000
TAKEN = 50_000
CONTEXT_LETTERS = 50_000
PATTERN_LETTERS = 12
PATTERNS = 64
LIST_STATES = 512
PAIR_STATES = 4_096
WINDOW = 4

NUMBER = re.compile(rb" {3}[0-9]| {2}[1-9][0-9]| [1-9][0-9]{2}|[1-9][0-9]{3}")


class Refused(Exception):
    """A fault: its number, layer and place."""

    def __init__(self, number: int, layer: str, place: int) -> None:
        super().__init__(number, layer, place)
        self.number = number
        self.layer = layer
        self.place = place


class Rules:
    """What a text may not hold: listed patterns, and letters more than `limit` times in a row."""

    def __init__(self, letters: bytes, patterns: Sequence[bytes], limit: int | None) -> None:
        self.letters = letters
        self.patterns = list(patterns)
        self.limit = limit
        runs = [bytes([c]) * (limit + 1) for c in letters] if limit is not None else []
        self.forbidden = sorted(set(patterns) | set(runs))
        self._fronts = proper_prefixes(self.forbidden)
        self._steps: dict[tuple[bytes, int], bytes | None] = {}
        self._known: dict[bytes, bool] = {}

    def stop(self, text: bytes) -> int | None:
        """The place of the letter with which the first forbidden word is complete."""
        ends = [at + len(word) - 1 for word in self.forbidden if (at := text.find(word)) >= 0]
        return min(ends, default=None)

    def passes(self, text: bytes) -> bool:
        return not any(word in text for word in self.forbidden)

    def passes_short(self, text: bytes) -> bool:
        """The same, remembered: a trace asks for the same few short texts again and again."""
        known = self._known.get(text)
        if known is None:
            known = self._known[text] = self.passes(text)
        return known

    def states(self) -> int:
        """Of the list, or of its pair with the run automaton."""
        listed = len(proper_prefixes(self.patterns))
        return listed if self.limit is None else listed * (1 + self.limit * len(self.letters))

    def memory(self) -> int:
        listed = max((len(p) - 1 for p in self.patterns), default=0)
        return max(listed, self.limit or 0)

    def context(self, text: bytes) -> bytes:
        """The longest end of a passing text that some forbidden word starts with: all that matters for what follows."""
        longest = min(self.memory(), len(text))
        return next(end for n in range(longest, -1, -1) if (end := text[len(text) - n :]) in self._fronts)

    def follow(self, context: bytes, letter: int) -> bytes | None:
        """The context after one more letter, or none if a forbidden word is then complete."""
        key = (context, letter)
        if key not in self._steps:
            text = context + bytes([letter])
            self._steps[key] = self.context(text) if self.passes(text) else None
        return self._steps[key]


def proper_prefixes(words: Sequence[bytes]) -> set[bytes]:
    return {b""} | {word[:n] for word in words for n in range(len(word))}


# The shortest row after which `text` passes and ends with `end`, the first in letter order, of `least` letters or more.
# `text` and `end` pass alone. None if there is no such row of any length.
RowSearch = Callable[[Rules, bytes, bytes, int], "bytes | None"]


def least_row(rules: Rules, text: bytes, end: bytes, least: int) -> bytes | None:
    for overlap in range(min(len(text), len(end) - least), 0, -1):
        if text.endswith(end[:overlap]) and rules.passes(text + end[overlap:]):
            return end[overlap:]
    if len(end) < least:
        raise ValueError("an end shorter than the least row")
    filling = least_filling(rules, text, end)
    return None if filling is None else filling + end


def least_filling(rules: Rules, text: bytes, end: bytes) -> bytes | None:
    """Breadth first, letters in order: a context is first met by the least filling that leads to it."""
    front = end[: rules.memory()]  # a word that starts before `end` is complete within these
    start = rules.context(text)
    queue: deque[tuple[bytes, bytes]] = deque([(start, b"")])
    seen = {start}
    while queue:
        context, filling = queue.popleft()
        if rules.passes_short(context + front):
            return filling
        for letter in rules.letters:
            after = rules.follow(context, letter)
            if after is not None and after not in seen:
                seen.add(after)
                queue.append((after, filling + bytes([letter])))
    return None


class TooMany(Exception):
    """A trial of all rows would take too long."""


TRIALS = 60_000


def least_row_by_trial(rules: Rules, text: bytes, end: bytes, least: int) -> bytes | None:
    """Tries all rows, by length and then letter order.

    What a row may go on with hangs on the last letters alone, as many as the memory. So a shortest filling meets no two
    equal ends of that length, and past `bound` letters there is nothing left to find.
    """
    memory = rules.memory()
    bound = len(end) + memory + len(rules.letters) ** memory
    rows = [b""]  # those after which the text passes; a row that fails has no use as a beginning
    for length in range(bound + 1):
        if length >= least:
            for row in rows:
                if (text + row).endswith(end):
                    return row
        rows = [longer for row in rows for c in rules.letters if rules.passes(text + (longer := row + bytes([c])))]
        if not rows:
            return None
        if len(rows) > TRIALS:
            raise TooMany
    return None


@dataclass(frozen=True)
class Joined:
    text: bytes
    overlap: int
    filled: int


def join_contexts(
    rules: Rules, left: bytes, right: bytes, room: int = TEXT_LETTERS, search: RowSearch = least_row
) -> Joined:
    for context in (left, right):
        if len(context) > CONTEXT_LETTERS:
            raise Refused(10, "J", len(context))
    for context, before in ((left, 0), (right, len(left))):
        place = rules.stop(context)
        if place is not None:
            raise Refused(7, "J", before + place)
    row = search(rules, left, right, 0)
    if row is None:
        raise Refused(8, "J", 0)
    text = left + row
    if len(text) > room:
        raise Refused(9, "J", len(text))
    return Joined(text, max(0, len(right) - len(row)), max(0, len(row) - len(right)))


@dataclass(frozen=True)
class Kept:
    appended: int
    filled: int


Answer = Kept | str
"""Of one letter: 'pending', 'skipped', or what was kept."""


@dataclass
class Sheet:
    """Takes a trace letter by letter. With `by_trial` every row is found by trial, after the whole text."""

    rules: Rules
    k: int
    room: int = TEXT_LETTERS
    by_trial: bool = False
    text: bytearray = field(default_factory=bytearray)
    running: bytes = b""
    last: bytes | None = None
    letters: int = 0
    gaps: int = 0
    kept: int = 0
    skipped: int = 0
    filled: int = 0
    rows: dict[tuple[bytes, bytes], bytes | None] = field(default_factory=dict)

    def __post_init__(self) -> None:
        if not 2 <= self.k <= 12:
            raise Refused(5, "T", self.k)
        if self.rules.memory() > self.k:
            raise Refused(6, "T", self.rules.memory())

    def room_to_take(self) -> None:
        if self.letters + self.gaps >= TAKEN:
            raise Refused(10, "T", TAKEN)

    def gap(self) -> None:
        self.room_to_take()
        self.gaps += 1
        self.running = b""

    def letter(self, letter: int) -> Answer:
        self.room_to_take()
        window = (self.running + bytes([letter]))[-self.k :]
        if len(window) < self.k:
            answer: Answer = "pending"
        elif not self.rules.passes_short(window):
            self.skipped += 1
            answer = "skipped"
        else:
            answer = self.keep(window)
        self.running = window
        self.letters += 1
        return answer

    def keep(self, window: bytes) -> Kept:
        row = window if self.last is None else self.row(window)
        if row is None:
            raise Refused(8, "J", self.letters + self.gaps)
        if len(self.text) + len(row) > self.room:
            raise Refused(9, "J", len(self.text) + len(row))
        self.text += row
        self.last = window
        filled = max(0, len(row) - self.k)
        self.kept += 1
        self.filled += filled
        return Kept(len(row), filled)

    def row(self, window: bytes) -> bytes | None:
        assert self.last is not None
        if self.by_trial:
            return least_row_by_trial(self.rules, bytes(self.text), window, 1)
        # The memory is at most k, so that the last window stands for the whole text.
        key = (self.last, window)
        if key not in self.rows:
            self.rows[key] = least_row(self.rules, self.last, window, 1)
        return self.rows[key]

    def counts(self) -> tuple[int, int, int, int, int]:
        return self.letters, self.kept, self.skipped, len(self.text), self.filled


@dataclass
class Settings:
    """What the lines above the `>` line said."""

    kind: bytes
    k: int | None = None
    limit: int | None = None
    patterns: list[bytes] = field(default_factory=list)

    @property
    def letters(self) -> bytes:
        return KINDS[self.kind]

    def rules(self) -> Rules:
        """Judges the run limit and the pair, as the `>` line does."""
        if self.limit is not None and not 1 <= self.limit <= 8:
            raise Refused(5, "S", self.limit)
        rules = Rules(self.letters, self.patterns, self.limit)
        if self.limit is not None and rules.states() > PAIR_STATES:
            raise Refused(5, "S", rules.states())
        return rules

    def add(self, pattern: bytes) -> None:
        refuse_other_bytes(self.letters, pattern)
        if not 1 <= len(pattern) <= PATTERN_LETTERS:
            raise Refused(2, "P", len(pattern))
        held = len(self.patterns)
        if held == PATTERNS or len(proper_prefixes([*self.patterns, pattern])) > LIST_STATES:
            raise Refused(3, "P", held)
        self.patterns.append(pattern)


def refuse_other_bytes(letters: bytes, text: bytes) -> None:
    for place, byte in enumerate(text):
        if byte not in letters:
            raise Refused(1, "L", place)


Output = tuple[bytes, int]
"""What is printed, and the exit status."""

Program = Callable[[Settings, bytes], Output]
"""What a program makes of the settings and the content of the `>` line."""


def broken() -> Refused:
    return Refused(11, "F", 0)


def split_lines(data: bytes) -> list[bytes]:
    lines = data.split(b"\n")
    return lines[:-1] if lines[-1] == b"" else lines


def number(content: bytes) -> int:
    if not NUMBER.fullmatch(content):
        raise broken()
    return int(content)


def read_setting(settings: Settings | None, line: bytes, above: bytes) -> Settings:
    """One line before the `>` line. `above` is the first byte of the line before it, remarks left out."""
    first, content = line[:1], line[1:]
    if settings is None:
        if first != b"L" or content not in KINDS:
            raise broken()
        return Settings(content)
    if first == b"k" and above == b"L":
        settings.k = number(content)
    elif first == b"r" and above in (b"L", b"k"):
        settings.limit = number(content)
    elif first == b"!":
        settings.add(content)
    else:
        raise broken()
    return settings


def run(program: Program, data: bytes) -> Output:
    """Reads a station file line by line; the first fault ends the work."""
    if len(data) > FILE_BYTES:
        return refusal_line(broken(), 0), 1
    settings: Settings | None = None
    output: Output | None = None
    above = b""
    for at, line in enumerate(split_lines(data), 1):
        if line.startswith(b";"):
            continue
        try:
            if output is not None:
                raise broken()
            if settings is not None and line.startswith(b">"):
                output = program(settings, line[1:])
            else:
                settings = read_setting(settings, line, above)
        except Refused as fault:
            return refusal_line(fault, at), 1
        above = line[:1]
    return output if output is not None else (refusal_line(broken(), 0), 1)


def refusal_line(fault: Refused, line: int) -> bytes:
    return f"R{fault.number:4}{fault.layer}{fault.place:6}{line:6}\n".encode()


def heading(settings: Settings, rules: Rules) -> str:
    limit = "none" if rules.limit is None else str(rules.limit)
    return (
        f"kind {settings.kind.decode()}: {rules.letters.decode()}\n"
        f"patterns: {len(rules.patterns)}\n"
        f"run limit: {limit}\n"
        f"automaton: {rules.states()} states, memory {rules.memory()}\n"
    )


def check_line(settings: Settings, text: bytes) -> Output:
    rules = settings.rules()
    refuse_other_bytes(rules.letters, text)
    place = rules.stop(text)
    walked = len(text) if place is None else place
    verdict = "passes" if place is None else f"stopped at {place}"
    shown = f"{heading(settings, rules)}text: {len(text)} letters\nwalked: {walked} letters\n{verdict}\n"
    return shown.encode(), 0 if place is None else 1


def join_line(settings: Settings, content: bytes, search: RowSearch = least_row) -> Output:
    if GAP not in content:
        raise broken()
    at = content.index(GAP)
    left, right = content[:at], content[at + 1 :]
    for place, byte in enumerate(content):
        if place != at and byte not in settings.letters:
            raise Refused(1, "L", place)
    rules = settings.rules()
    joined = join_contexts(rules, left, right, search=search)
    shown = (
        f"{heading(settings, rules)}left: {len(left)} letters\nright: {len(right)} letters\n"
        f"overlap: {joined.overlap}\nfilled: {joined.filled}\nlength: {len(joined.text)}\n"
    )
    return shown.encode() + joined.text + b"\n", 0


def rewrite_line(settings: Settings, trace: bytes, by_trial: bool = False) -> Output:
    k = WINDOW if settings.k is None else settings.k
    sheet = Sheet(settings.rules(), k, by_trial=by_trial)
    take_trace(sheet, trace)
    counts = "".join(f"{count:6}" for count in sheet.counts())
    return bytes(sheet.text) + f"\n{counts}\n".encode(), 0


def take_trace(sheet: Sheet, trace: bytes) -> None:
    letters = set(sheet.rules.letters)
    for place, byte in enumerate(trace):
        if byte == GAP:
            sheet.gap()
        elif byte in letters:
            sheet.letter(byte)
        else:
            raise Refused(1, "L", place)


def check(data: bytes) -> Output:
    return run(check_line, data)


def join(data: bytes) -> Output:
    return run(join_line, data)


def rewrite(data: bytes) -> Output:
    return run(rewrite_line, data)


def join_by_trial(data: bytes) -> Output:
    return run(lambda settings, content: join_line(settings, content, least_row_by_trial), data)


def rewrite_by_trial(data: bytes) -> Output:
    return run(lambda settings, trace: rewrite_line(settings, trace, by_trial=True), data)


PROGRAMS: dict[str, Callable[[bytes], Output]] = {"check": check, "join": join, "rewrite": rewrite}


def random_word(rng: random.Random, letters: bytes, most: int, least: int = 0) -> bytes:
    return bytes(rng.choices(letters, k=rng.randint(least, most)))


def small_files(rng: random.Random, count: int) -> Iterator[tuple[str, bytes]]:
    """Files with a memory so small that rows can be found by trial."""
    for _ in range(count):
        kind = rng.choice([b"A", b"A", b"A", b"P", b"Q"])
        letters = KINDS[kind]
        longest = 4 if kind == b"A" else 2
        patterns = [random_word(rng, letters, longest, 2) for _ in range(rng.randint(0, 2 * len(letters)))]
        limit = rng.choice([None, None, rng.randint(1, longest)])
        lines = [b"L" + kind, b"k%4d" % rng.randint(longest, longest + 1)]
        lines += [b"r%4d" % limit] if limit else []
        lines += [b"!" + pattern for pattern in patterns]
        if rng.random() < 0.5:
            contexts = random_word(rng, letters, 5), random_word(rng, letters, 5)
            yield "join", b"\n".join([*lines, b">" + b"?".join(contexts)])
        else:
            yield "rewrite", b"\n".join([*lines, b">" + random_word(rng, letters + b"?", 30)])


def self_test(seed: int, count: int) -> int:
    """Full searches against trials of all rows."""
    by_trial = {"join": join_by_trial, "rewrite": rewrite_by_trial}
    held = left_out = 0
    for name, data in small_files(random.Random(seed), count):
        try:
            expected = by_trial[name](data)
        except TooMany:
            left_out += 1
            continue
        found = PROGRAMS[name](data)
        if found != expected:
            print(f"{name} of {data!r}: {found} instead of {expected}")
            return 1
        held += 1
    print(f"second.py: {held} files agree with a trial of all rows, {left_out} too large for it")
    return 0


def main(arguments: Sequence[str]) -> int:
    parser = argparse.ArgumentParser(description="One of the programs on standard input, or the self-test.")
    parser.add_argument("program", nargs="?", choices=sorted(PROGRAMS))
    parser.add_argument("--self-test", action="store_true")
    parser.add_argument("--seed", type=int, default=1)
    parser.add_argument("--count", type=int, default=2000)
    options = parser.parse_args(arguments)
    if options.self_test:
        return self_test(options.seed, options.count)
    if options.program is None:
        parser.error("name a program")
    printed, status = PROGRAMS[options.program](sys.stdin.buffer.read())
    sys.stdout.buffer.write(printed)
    return status


if __name__ == "__main__":
    sys.exit(main(sys.argv[1:]))
