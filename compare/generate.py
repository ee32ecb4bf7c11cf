#!/usr/bin/env python3
"""Random station files from a seed: good and damaged ones, small ones and ones at every limit.

    python3 compare/generate.py --seed 1 --count 3000                 how often each refusal and answer comes up
    python3 compare/generate.py --seed 1 --count 50 --write FOLDER    the files themselves
"""

from __future__ import annotations

import argparse
import itertools
import random
import sys
from collections import Counter
from collections.abc import Callable, Iterator, Sequence
from dataclasses import dataclass, field
from pathlib import Path

sys.dont_write_bytecode = True

import second  # noqa: E402

PROGRAMS = ("rewrite", "join", "check")
Random = random.Random


@dataclass(frozen=True)
class Case:
    program: str
    aim: str
    data: bytes


@dataclass
class Station:
    """A station file in parts. `trace` is the content of the `>` line, for any of the programs."""

    kind: bytes
    k: int | None = None
    limit: int | None = None
    patterns: list[bytes] = field(default_factory=list)
    trace: bytes = b""

    @property
    def letters(self) -> bytes:
        return second.KINDS[self.kind]

    def rules(self) -> second.Rules:
        return second.Rules(self.letters, self.patterns, self.limit)

    def lines(self) -> list[bytes]:
        return [
            b"L" + self.kind,
            *([b"k%4d" % self.k] if self.k is not None else []),
            *([b"r%4d" % self.limit] if self.limit is not None else []),
            *(b"!" + pattern for pattern in self.patterns),
            b">" + self.trace,
        ]

    def data(self) -> bytes:
        return b"\n".join(self.lines()) + b"\n"


# Words and rules.


def word(rng: Random, letters: bytes, least: int, most: int) -> bytes:
    return bytes(rng.choices(letters, k=rng.randint(least, most)))


def passing_word(rng: Random, rules: second.Rules, length: int, start: bytes = b"") -> bytes:
    """A random word that passes after the context `start`; shorter where nothing can follow."""
    context: bytes | None = start
    made = bytearray()
    for _ in range(length):
        steps = [(c, after) for c in rules.letters if (after := rules.follow(context, c)) is not None]
        if not steps:
            break
        letter, context = rng.choice(steps)
        made.append(letter)
    return bytes(made)


def few_steps(rng: Random, letters: bytes) -> list[bytes]:
    """Patterns that leave few ways to go on, so that rows need fillings.

    All words of one length are barred but those of a few closed turns. Mostly one turn goes through every letter, so
    that each is reached from each; where none does, some windows have no way between them.
    """
    size = rng.randint(3, 6) if len(letters) == 2 else 2
    turns = [bytes(rng.choices(letters, k=rng.randint(2, 9))) for _ in range(rng.choice([1, 1, 2, 3]))]
    if rng.random() < 0.7:
        turns.append(bytes(rng.sample(letters, len(letters))) + rng.choice([b"", turns[0]]))
    free = {(turn * size)[at : at + size] for turn in turns for at in range(len(turn))}
    barred = [made for made in all_words(letters, size) if made not in free]
    rng.shuffle(barred)
    return barred[: second.PATTERNS]


def all_words(letters: bytes, size: int) -> list[bytes]:
    return [bytes(made) for made in itertools.product(letters, repeat=size)]


def near_words(rng: Random, letters: bytes) -> list[bytes]:
    """Patterns that share beginnings and ends with each other."""
    base = word(rng, letters, 2, 7)
    made = []
    for _ in range(rng.randint(2, 10)):
        cut = base[rng.randrange(len(base)) :][: rng.randint(1, 7)]
        made.append((cut + word(rng, letters, 0, 2))[-rng.randint(2, 8) :] or base)
    return made


def some_patterns(rng: Random, letters: bytes) -> list[bytes]:
    choice = rng.random()
    if choice < 0.1:
        return []
    if choice < 0.6:
        return few_steps(rng, letters)
    if choice < 0.75:
        return near_words(rng, letters)
    longest = rng.choice([2, 3, 4, 4, 5, 6, 8, 12])
    most = rng.choice([2, 4, 8, 16])
    return [word(rng, letters, min(2, longest), longest) for _ in range(rng.randint(1, most))]


def some_rules(rng: Random) -> Station:
    kind = rng.choice([b"A", b"A", b"A", b"P", b"P", b"Q"])
    station = Station(kind, patterns=some_patterns(rng, second.KINDS[kind]))
    if rng.random() < 0.4:
        station.limit = rng.choice([1, 1, 2, 2, 3, 4, 5, 6, 7, 8])
    return station


def window_for(rng: Random, station: Station) -> int | None:
    """A window length that the memory allows, most times; or none, which stands for the usual one."""
    memory = station.rules().memory()
    if memory <= second.WINDOW and rng.random() < 0.2:
        return None
    if memory > 12 or rng.random() < 0.03:
        return rng.randint(2, 12)
    low = max(2, memory)
    return rng.randint(low, min(12, low + rng.choice([0, 1, 2, 10])))


def some_trace(rng: Random, station: Station, length: int) -> bytes:
    """Stretches with gaps between them; most pass, so that their windows are kept."""
    rules = station.rules()
    k = station.k or second.WINDOW
    stretch = rng.choice([k, k + 1, k + 3, 3 * k, 40])
    raw = rng.random() * 0.5
    made = b""
    while len(made) < length:
        size = rng.randint(max(1, stretch - 2), stretch + 2)
        part = word(rng, rules.letters, size, size) if rng.random() < raw else passing_word(rng, rules, size)
        if rng.random() < 0.1:
            ending, beginning = cut_pattern(rng, station.patterns)
            part += ending + b"?" + beginning + passing_word(rng, rules, max(0, k - len(beginning)))
        made += part + b"?" * rng.choice([0, 1, 1, 1, 2])
        if not part:
            made += b"?"
    return made[:length]


def cut_pattern(rng: Random, patterns: Sequence[bytes]) -> tuple[bytes, bytes]:
    """A beginning and an end of a pattern that overlap: merged there they are barred, a lesser overlap may serve."""
    long_ones = [pattern for pattern in patterns if len(pattern) >= 3]
    if not long_ones:
        return b"", b""
    pattern = rng.choice(long_ones)
    at = rng.randint(1, len(pattern) - 2)
    return pattern[: rng.randint(at + 1, len(pattern) - 1)], pattern[at:]


def two_contexts(rng: Random, station: Station, left: int, right: int) -> bytes:
    """Contexts for a join: now overlapping, now in need of a filling, at times not passing."""
    rules = station.rules()
    before = passing_word(rng, rules, left)
    tries = [passing_word(rng, rules, right) for _ in range(6)]
    after = next((made for made in tries if not rules.passes(before + made)), tries[0])
    if rng.random() < 0.3:
        ending, beginning = cut_pattern(rng, station.patterns)
        before, after = before + ending, beginning + rng.choice([b"", after])
    elif before and rng.random() < 0.35:
        after = (before[-rng.randint(1, min(8, len(before))) :] + after)[: max(right, 1)]
    if rng.random() < 0.1:
        after = word(rng, rules.letters, right, right)
    if rng.random() < 0.05:
        before = word(rng, rules.letters, left, left)
    return before + b"?" + after


def content_for(rng: Random, program: str, station: Station, length: int) -> bytes:
    if program == "rewrite":
        return some_trace(rng, station, length)
    if program == "join":
        return two_contexts(rng, station, rng.choice([0, 1, 3, 6, 12]), rng.choice([0, 1, 3, 6, 12]))
    text = passing_word(rng, station.rules(), length)
    return text if rng.random() < 0.6 else text + word(rng, station.letters, 0, 6)


def small(rng: Random, program: str) -> Station:
    station = some_rules(rng)
    station.k = window_for(rng, station)
    station.trace = content_for(rng, program, station, rng.choice([0, 3, 10, 30, 30, 80, 80, 200, 200]))
    return station


# Damages: each takes the lines of a good file and breaks them, or does what must do no harm.

Lines = list[bytes]


def a_number_line(rng: Random, lines: Lines, made: bytes) -> Lines:
    """Puts a `k` or `r` line with this content where it may stand."""
    first = rng.choice([b"k", b"r"])
    kept = [line for line in lines if not line.startswith(first)]
    at = next((i for i, line in enumerate(kept) if line[:1] in (b"!", b">") or (first == b"k" and line[:1] == b"r")), 0)
    return kept[:at] + [first + made] + kept[at:]


def bad_number(rng: Random, lines: Lines) -> Lines:
    forms = [b"  04", b"  00", b"0004", b"  4", b"4", b"   4 ", b"    4", b"4   ", b" 4  ", b"\t  4", b"  +4", b"  -4"]
    forms += [b"", b"    ", b"   x", b" 1 2", b"   4\r", b"  4\x00", b"99999", b"   \xb2"]
    return a_number_line(rng, lines, rng.choice(forms))


def other_number(rng: Random, lines: Lines) -> Lines:
    return a_number_line(rng, lines, b"%4d" % rng.choice([0, 1, 2, 3, 8, 9, 12, 13, 100, 9999]))


def carriage_return(rng: Random, lines: Lines) -> Lines:
    if rng.random() < 0.3:
        return [line + b"\r" for line in lines]
    at = rng.randrange(len(lines))
    return lines[:at] + [lines[at] + b"\r"] + lines[at + 1 :]


def empty_line(rng: Random, lines: Lines) -> Lines:
    at = rng.randint(0, len(lines))
    return lines[:at] + [b""] + lines[at:]


def swapped_lines(rng: Random, lines: Lines) -> Lines:
    made = list(lines)
    a, b = rng.randrange(len(made)), rng.randrange(len(made))
    made[a], made[b] = made[b], made[a]
    return made


def repeated_line(rng: Random, lines: Lines) -> Lines:
    at = rng.randint(0, len(lines))
    return lines[:at] + [rng.choice(lines)] + lines[at:]


def second_trace(rng: Random, lines: Lines) -> Lines:
    return [*lines, rng.choice([lines[-1], b">", b"!a", b"LA", b"k   4", b" "])]


def missing_line(rng: Random, lines: Lines) -> Lines:
    at = rng.choice([0, len(lines) - 1, rng.randrange(len(lines))])
    return lines[:at] + lines[at + 1 :]


def strange_line(rng: Random, lines: Lines) -> Lines:
    at = rng.randint(0, len(lines))
    strange = [b"x", b" ", b"LA ", b"L", b"LB", b"La", b"LAA", b"l", b"K   4", b"\xef\xbb\xbfLA", b"\x00", b"R   1"]
    return lines[:at] + [rng.choice(strange)] + lines[at:]


def other_kind(rng: Random, lines: Lines) -> Lines:
    return [rng.choice([b"LA", b"LP", b"LQ", b"LB", b"L", b"LAA", b"L A"]), *lines[1:]]


def cut_file(rng: Random, lines: Lines) -> Lines:
    data = b"\n".join(lines)
    return data[: rng.randrange(len(data) + 1)].split(b"\n")


def changed_byte(rng: Random, lines: Lines) -> Lines:
    data = bytearray(b"\n".join(lines))
    byte = rng.choice([rng.randrange(256), rng.choice(b"ab?=S\n\r\t ;!>Lkr09\x80\xff")])
    at = rng.randrange(len(data))
    match rng.randrange(3):
        case 0:
            data[at] = byte
        case 1:
            data.insert(at, byte)
        case _:
            del data[at]
    return bytes(data).split(b"\n")


def changed_bytes(rng: Random, lines: Lines) -> Lines:
    for _ in range(rng.randint(2, 6)):
        lines = changed_byte(rng, lines) or lines
        if not b"\n".join(lines):
            break
    return lines


def bad_pattern(rng: Random, lines: Lines) -> Lines:
    letters = second.KINDS.get(lines[0][1:], b"ab")
    forms = [b"", bytes(rng.choices(letters, k=13)), bytes(rng.choices(letters, k=rng.randint(14, 300)))]
    forms += [word(rng, letters, 0, 5) + bytes([c]) + word(rng, letters, 0, 13) for c in b"?x \t\r\x80\xffS"]
    return lines[:-1] + [b"!" + rng.choice(forms)] + lines[-1:]


def bad_letter(rng: Random, lines: Lines) -> Lines:
    content = lines[-1][1:]
    at = rng.randint(0, len(content))
    bad = bytes([rng.choice(b"x? \t\r;\x80\xffSaA=")])
    return [*lines[:-1], b">" + content[:at] + bad + content[at:]]


def remarks(rng: Random, lines: Lines) -> Lines:
    made: Lines = []
    for line in lines:
        while rng.random() < 0.4:
            made.append(b";" + bytes(rng.choices(b"ab;!>?kr \t\r\x80\xff", k=rng.choice([0, 1, 5, 40]))))
        made.append(line)
    return made + [b"; end"] * rng.randrange(2)


def untouched(rng: Random, lines: Lines) -> Lines:
    return lines


def memory_above(rng: Random, lines: Lines) -> Lines:
    letters = second.KINDS.get(lines[0][1:], b"ab")
    kept = [line for line in lines if line[:1] not in (b"k", b"r")]
    k = rng.randint(2, 10)
    pattern = bytes(rng.choices(letters, k=rng.randint(k + 1, 12)))
    return [kept[0], b"k%4d" % k, *kept[1:-1], b"!" + pattern, kept[-1]]


Damage = Callable[[Random, Lines], Lines]

DAMAGES: tuple[Damage, ...] = (
    bad_number, bad_number, other_number, other_number, carriage_return, empty_line, swapped_lines, repeated_line,
    second_trace, missing_line, strange_line, other_kind, cut_file, changed_byte, changed_byte, changed_bytes,
    bad_pattern, bad_pattern, bad_letter, bad_letter, memory_above, remarks, remarks, untouched,
)  # fmt: skip


def damaged(rng: Random, program: str) -> tuple[str, bytes]:
    lines = small(rng, program).lines()
    chosen = rng.choice(DAMAGES)
    lines = chosen(rng, lines)
    aim = chosen.__name__
    if rng.random() < 0.15 and any(lines):
        another = rng.choice([remarks, changed_byte, empty_line])
        lines = another(rng, lines)
        aim += ", " + another.__name__
    end = rng.choice([b"\n", b"\n", b"\n", b"", b"\n\n"]) if lines else b""
    return aim, b"\n".join(lines) + end


# Limits.


def list_of_states(rng: Random, letters: bytes, states: int) -> list[bytes]:
    """At most 64 patterns with exactly this many states."""
    while True:
        patterns: list[bytes] = []
        prefixes = {b""}
        for _ in range(second.PATTERNS):
            lacking = states - len(prefixes)
            if lacking == 0:
                return patterns
            pattern = pattern_of_new_states(rng, letters, prefixes, lacking)
            grown = prefixes | second.proper_prefixes([pattern])
            if len(grown) <= states:
                patterns.append(pattern)
                prefixes = grown


def pattern_of_new_states(rng: Random, letters: bytes, prefixes: set[bytes], lacking: int) -> bytes:
    """A whole new word while many states are lacking, else a known prefix and as many letters as are lacking."""
    longest = second.PATTERN_LETTERS
    if lacking >= longest:
        return word(rng, letters, longest, longest)
    start = rng.choice(sorted(prefix for prefix in prefixes if len(prefix) + lacking < longest))
    return start + word(rng, letters, lacking + 1, lacking + 1)


def at_patterns(rng: Random, program: str) -> Station:
    """64 or 65 patterns, repeats among them."""
    kind = rng.choice([b"A", b"P", b"Q"])
    letters = second.KINDS[kind]
    count = rng.choice([64, 65])
    pool = [word(rng, letters, 3, 6) for _ in range(rng.choice([3, 20, 70]))]
    station = Station(kind, k=rng.randint(5, 12), patterns=rng.choices(pool, k=count))
    station.trace = content_for(rng, program, station, 60)
    return station


def at_states(rng: Random, program: str) -> Station:
    """512 states, or one more."""
    kind = rng.choice([b"P", b"Q"])
    letters = second.KINDS[kind]
    patterns = list_of_states(rng, letters, 512)
    if rng.random() < 0.5 and len(patterns) < second.PATTERNS:
        shortest = min((p for p in patterns if len(p) < second.PATTERN_LETTERS), key=len, default=None)
        if shortest is not None:
            patterns.append(shortest + word(rng, letters, 1, 1))
    station = Station(kind, k=rng.choice([11, 12]), patterns=patterns)
    if rng.random() < 0.3:
        station.limit = rng.randint(1, 8)
    station.trace = content_for(rng, program, station, 60)
    return station


# Pairs of list states and run limit just under and just over 4,096 states; run automata have odd counts of states.
PAIRS_UNDER = {
    b"A": [(273, 7), (240, 8), (315, 6)],
    b"P": [(315, 2), (215, 3), (83, 8)],
    b"Q": [(455, 1), (240, 2), (63, 8)],
}
PAIRS_OVER = {
    b"A": [(241, 8), (274, 7), (300, 8)],
    b"P": [(316, 2), (216, 3), (512, 8)],
    b"Q": [(456, 1), (241, 2), (64, 8)],
}


def at_pair(rng: Random, program: str) -> Station:
    kind = rng.choice([b"A", b"P", b"Q"])
    states, limit = rng.choice(rng.choice([PAIRS_UNDER, PAIRS_OVER])[kind])
    patterns = list_of_states(rng, second.KINDS[kind], states)
    station = Station(kind, k=rng.choice([11, 12, 12]), limit=limit, patterns=patterns)
    station.trace = content_for(rng, program, station, 60)
    return station


def full_rules(rng: Random) -> Station:
    """Rules for a long text, which must not lead into a dead end."""
    while True:
        station = some_rules(rng)
        if len(passing_word(rng, station.rules(), 300)) == 300:
            memory = station.rules().memory()
            station.k = rng.randint(max(2, memory), 12)
            return station


def full_trace(rng: Random) -> Station:
    """A trace whose text ends near 30,000 letters, gaps now and then."""
    station = full_rules(rng)
    rules = station.rules()
    parts = []
    room = 30_000 + rng.choice([-40, 0, 1, 40, 3000])
    while room > 0:
        part = passing_word(rng, rules, min(room, rng.choice([100, 1000, 20_000])))
        if not part:
            break
        parts.append(part)
        room -= len(part)
    station.trace = b"?".join(parts)[:59_000]
    return station


def exact_trace(rng: Random) -> Station:
    """30,000 or 30,001 letters that are their own text."""
    station = Station(rng.choice([b"A", b"P", b"Q"]), k=rng.choice([None, 2, 12]))
    length = rng.choice([30_000, 30_001])
    station.trace = word(rng, station.letters, length, length)
    return station


def exact_taken(rng: Random) -> Station:
    """50,000 or 50,001 letters and gaps, only few windows kept; the last byte may be a gap or no letter."""
    length = rng.choice([50_000, 50_001])
    if rng.random() < 0.5:
        station = Station(b"A", k=12)
        stretches = [word(rng, b"ab", 9, 11) for _ in range(length // 9)]
        trace = b"?".join(stretches)[: length - 1]
    else:
        station = Station(b"P", k=rng.randint(4, 12), patterns=[b"++", b"--", b"S", b"=="])
        trace = word(rng, station.letters + b"SS=", length - 1, length - 1)
    station.trace = trace + rng.choice([station.letters[:1], b"?", b"x"])
    return station


def exact_bytes(rng: Random, program: str) -> bytes:
    """A file of 60,000 or 60,001 bytes, by a remark or by its `>` line."""
    size = rng.choice([60_000, 60_001])
    station = small(rng, program)
    if rng.random() < 0.5:
        lines = station.lines()
        at = rng.randint(0, len(lines))
        lacking = size - len(b"\n".join(lines)) - 1
        return b"\n".join(lines[:at] + [b";" + b"x" * (lacking - 1)] + lines[at:])
    station.trace = b""
    lacking = size - len(station.data())
    station.trace = some_trace(rng, station, lacking) if program == "rewrite" else b"?" * (program == "join")
    station.trace += passing_word(rng, station.rules(), max(0, lacking - len(station.trace)))
    return station.data()[:size]


def full_fillings(rng: Random) -> Station:
    """A gap every seven letters under rules that leave few steps, so that most rows need a search."""
    kind = rng.choice([b"P", b"Q"])
    station = Station(kind, k=rng.randint(3, 6), patterns=few_steps(rng, second.KINDS[kind]))
    if rng.random() < 0.5:
        station.limit = rng.randint(1, 3)
    rules = station.rules()
    parts = [passing_word(rng, rules, 6) for _ in range(rng.choice([1000, 2500]))]
    station.trace = b"?".join(parts)
    return station


def full_join(rng: Random) -> Station:
    """Contexts whose joined text has 30,000 letters or some more."""
    station = full_rules(rng)
    rules = station.rules()
    total = rng.choice([30_000, 30_001, 30_000, 29_000])
    left = rng.choice([0, 1, total // 2, total - 5, total])
    before = passing_word(rng, rules, left)
    after = passing_word(rng, rules, total - left)
    if before and rng.random() < 0.5:
        shared = rng.randint(1, len(before))
        after = before[-shared:] + passing_word(rng, rules, total - len(before), rules.context(before))
    station.trace = (before + b"?" + after)[:59_000]
    return station


def periodic_join(rng: Random) -> Station:
    """Long contexts that overlap in many ways, or in almost many."""
    station = Station(rng.choice([b"A", b"P"]), patterns=[])
    turn = word(rng, station.letters, 1, 4)
    before = turn * rng.randint(2000, 5000)
    after = turn * rng.randint(2000, 5000)
    if rng.random() < 0.6:
        after += word(rng, station.letters, 1, 1)
        station.patterns = [(turn + after[-1:])[-rng.randint(1, 5) :]] if rng.random() < 0.5 else []
    station.trace = before[:29_000] + b"?" + after[:29_000]
    return station


def long_contexts(rng: Random) -> Station:
    """Contexts of 50,000 letters or one more, on either side, and some that are stopped late."""
    station = full_rules(rng)
    rules = station.rules()
    sizes = [rng.choice([50_000, 50_001, 40_000]), rng.randint(0, 9_000)]
    contexts = [passing_word(rng, rules, size) for size in sizes]
    if rng.random() < 0.5:
        contexts.reverse()
    if rng.random() < 0.3:
        contexts[1] += word(rng, station.letters, 12, 12)
    station.trace = contexts[0] + b"?" + contexts[1]
    while len(station.data()) > second.FILE_BYTES and station.patterns:
        station.patterns.pop()
    return station


def full_check(rng: Random) -> Station:
    station = full_rules(rng)
    station.trace = passing_word(rng, station.rules(), rng.choice([30_000, 50_000, 59_000]))
    if rng.random() < 0.5:
        station.trace = (station.trace + word(rng, station.letters, 30, 30))[:59_000]
    return station


def full_size(rng: Random, program: str) -> tuple[str, bytes]:
    if rng.random() < 0.25:
        return "exact_bytes", exact_bytes(rng, program)
    builders: dict[str, list[Callable[[Random], Station]]] = {
        "rewrite": [full_trace, full_trace, exact_trace, exact_taken, exact_taken, full_fillings],
        "join": [full_join, full_join, periodic_join, long_contexts],
        "check": [full_check],
    }
    builder = rng.choice(builders[program])
    return builder.__name__, builder(rng).data()


LIMITS: tuple[Callable[[Random, str], Station], ...] = (at_patterns, at_states, at_pair)


def cases(seed: int, count: int, full_every: int = 25) -> Iterator[Case]:
    """`count` cases, every `full_every`th of full size. The same seed gives the same cases."""
    rng = random.Random(seed)
    for i in range(count):
        program = rng.choices(PROGRAMS, weights=[5, 4, 2])[0]
        choice = rng.random()
        if i % full_every == full_every - 1:
            aim, data = full_size(rng, program)
        elif choice < 0.05:
            builder = rng.choice(LIMITS)
            aim, data = builder.__name__, builder(rng, program).data()
        elif choice < 0.65:
            aim, data = "small", small(rng, program).data()
        else:
            aim, data = damaged(rng, program)
        yield Case(program, aim, data)


# How often each refusal and each kind of answer came up.


def answer_kind(program: str, printed: bytes) -> str:
    if printed[:1] == b"R":
        return f"refused {int(printed[1:5])} {printed[5:6].decode()}"
    shown = printed.decode()
    if program == "rewrite":
        counts = [int(count) for count in shown.split("\n")[1].split()]
        return rewrite_kind(*counts)
    if program == "join":
        values = dict(line.split(": ") for line in shown.splitlines() if ": " in line)
        if values["filled"] != "0":
            return "joined with a filling"
        return "joined with an overlap" if values["overlap"] != "0" else "joined end to end"
    return "passes" if shown.endswith("passes\n") else "stopped"


def rewrite_kind(letters: int, kept: int, skipped: int, text: int, filled: int) -> str:
    if kept == 0:
        return "empty text"
    told = "text with fillings" if filled else "text without fillings"
    return told + (", some skipped" if skipped else "")


class Coverage:
    """Counts kinds of answers by program."""

    def __init__(self) -> None:
        self.kinds: dict[str, Counter[str]] = {program: Counter() for program in PROGRAMS}

    def note(self, program: str, printed: bytes) -> None:
        self.kinds[program][answer_kind(program, printed)] += 1

    def table(self) -> str:
        rows = sorted({kind for counter in self.kinds.values() for kind in counter}, key=kind_order)
        shown = [f"{'':34}" + "".join(f"{program:>9}" for program in PROGRAMS)]
        for kind in rows:
            counts = "".join(f"{self.kinds[program][kind] or '-':>9}" for program in PROGRAMS)
            shown.append(f"{kind:34}{counts}")
        return "\n".join(shown)


def kind_order(kind: str) -> tuple[int, str]:
    return (int(kind.split()[1]), kind) if kind.startswith("refused") else (99, kind)


def main(arguments: Sequence[str]) -> int:
    parser = argparse.ArgumentParser(description="Random station files, and what second.py makes of them.")
    parser.add_argument("--seed", type=int, default=1)
    parser.add_argument("--count", type=int, default=3000)
    parser.add_argument("--full-every", type=int, default=25)
    parser.add_argument("--write", type=Path, metavar="FOLDER")
    options = parser.parse_args(arguments)
    coverage = Coverage()
    for i, case in enumerate(cases(options.seed, options.count, options.full_every)):
        coverage.note(case.program, second.PROGRAMS[case.program](case.data)[0])
        if options.write:
            options.write.mkdir(parents=True, exist_ok=True)
            (options.write / f"{i:06}.{case.program}").write_bytes(case.data)
    print(coverage.table())
    return 0


if __name__ == "__main__":
    sys.exit(main(sys.argv[1:]))
