//! `check`, `join` and `rewrite` of a station file in plain Rust: a third hand for the comparisons, and the yardstick
//! of the benchmark. Build with `rustc -O`, run as `plain check|join|rewrite < FILE`.

use std::io::{self, Read, Write};
use std::process::ExitCode;

const FILE_BYTES: usize = 60_000;
const TEXT_LETTERS: usize = 30_000;
const TAKEN: usize = 50_000;
const CONTEXT_LETTERS: usize = 50_000;
const PATTERN_LETTERS: usize = 12;
const PATTERNS: usize = 64;
const LIST_STATES: usize = 512;
const PAIR_STATES: usize = 4_096;
const WINDOW: usize = 4;

/// Letters of one row of a table: the largest kind has eight, so that a row is found by a shift.
const STRIDE: usize = 8;
const STOP: u16 = u16::MAX;
const NO_LETTER: u8 = u8::MAX;

struct Fault {
    number: u16,
    layer: char,
    place: usize,
}

fn fault<T>(number: u16, layer: char, place: usize) -> Result<T, Fault> {
    Err(Fault { number, layer, place })
}

fn broken<T>() -> Result<T, Fault> {
    fault(11, 'F', 0)
}

struct Kind {
    name: char,
    letters: &'static [u8],
    numbers: [u8; 256],
}

impl Kind {
    fn named(name: &[u8]) -> Option<Kind> {
        let letters: &'static [u8] = match name {
            b"A" => b"ab",
            b"P" => b"=+-*/S",
            b"Q" => b"aAbBcCdD",
            _ => return None,
        };
        let mut numbers = [NO_LETTER; 256];
        for (number, &byte) in (0..).zip(letters) {
            numbers[usize::from(byte)] = number;
        }
        Some(Kind { name: char::from(name[0]), letters, numbers })
    }

    fn count(&self) -> usize {
        self.letters.len()
    }

    fn read(&self, byte: u8) -> Option<u8> {
        let number = self.numbers[usize::from(byte)];
        (number != NO_LETTER).then_some(number)
    }

    fn read_all(&self, bytes: &[u8]) -> Result<Vec<u8>, Fault> {
        match bytes.iter().position(|&byte| self.read(byte).is_none()) {
            Some(place) => fault(1, 'L', place),
            None => Ok(bytes.iter().map(|&byte| self.numbers[usize::from(byte)]).collect()),
        }
    }

    fn write_all(&self, letters: &[u8], out: &mut Vec<u8>) {
        out.extend(letters.iter().map(|&letter| self.letters[usize::from(letter)]));
    }
}

/// The patterns as a trie of their proper prefixes. The last letter of a pattern leads to no node: it stops.
struct Trie {
    children: Vec<[Option<u16>; STRIDE]>,
    stops: Vec<[bool; STRIDE]>,
    patterns: usize,
    longest: usize,
}

impl Trie {
    fn new() -> Trie {
        Trie { children: vec![[None; STRIDE]], stops: vec![[false; STRIDE]], patterns: 0, longest: 0 }
    }

    fn states(&self) -> usize {
        self.children.len()
    }

    fn memory(&self) -> usize {
        self.longest.saturating_sub(1)
    }

    fn add(&mut self, pattern: &[u8]) -> Result<(), Fault> {
        if pattern.len() > PATTERN_LETTERS {
            return fault(2, 'P', pattern.len());
        }
        let Some((&last, prefix)) = pattern.split_last() else {
            return fault(2, 'P', 0);
        };
        let (mut node, known) = self.descend(prefix);
        let wanted = &prefix[known..];
        if self.patterns == PATTERNS || self.states() + wanted.len() > LIST_STATES {
            return fault(3, 'P', self.patterns);
        }
        for &letter in wanted {
            node = self.grow(node, letter);
        }
        self.stops[node][usize::from(last)] = true;
        self.patterns += 1;
        self.longest = self.longest.max(pattern.len());
        Ok(())
    }

    /// The node of the longest known prefix, and its length.
    fn descend(&self, prefix: &[u8]) -> (usize, usize) {
        let mut node = 0;
        for (depth, &letter) in prefix.iter().enumerate() {
            match self.children[node][usize::from(letter)] {
                Some(child) => node = usize::from(child),
                None => return (node, depth),
            }
        }
        (node, prefix.len())
    }

    fn grow(&mut self, node: usize, letter: u8) -> usize {
        let child = self.states();
        self.children[node][usize::from(letter)] = Some(child as u16);
        self.children.push([None; STRIDE]);
        self.stops.push([false; STRIDE]);
        child
    }

    /// The whole table of steps, breadth first: the node that a node falls back to is shorter, hence done before it.
    fn table(&self, letters: usize) -> Vec<u16> {
        let mut table = vec![STOP; self.states() * STRIDE];
        let mut queue: Vec<(usize, usize)> = vec![(0, 0)];
        let mut head = 0;
        while let Some(&(node, shorter)) = queue.get(head) {
            head += 1;
            for letter in 0..letters {
                let fallback = if node == 0 { 0 } else { table[shorter * STRIDE + letter] };
                let step = if self.stops[node][letter] || fallback == STOP {
                    STOP
                } else if let Some(child) = self.children[node][letter] {
                    queue.push((usize::from(child), usize::from(fallback)));
                    child
                } else {
                    fallback
                };
                table[node * STRIDE + letter] = step;
            }
        }
        table
    }
}

/// A table of steps over the states that can be reached, the first state being 0.
struct Automaton {
    letters: usize,
    table: Vec<u16>,
    memory: usize,
    /// As its parts count them, reached or not.
    states: usize,
}

impl Automaton {
    fn new(trie: &Trie, kind: &Kind, limit: Option<u16>) -> Result<Automaton, Fault> {
        let letters = kind.count();
        let Some(limit) = limit else {
            let table = trie.table(letters);
            return Ok(Automaton { letters, table, memory: trie.memory(), states: trie.states() });
        };
        if !(1..=8).contains(&limit) {
            return fault(5, 'S', usize::from(limit));
        }
        let limit = usize::from(limit);
        let states = trie.states() * (1 + limit * letters);
        if states > PAIR_STATES {
            return fault(5, 'S', states);
        }
        let table = pair_table(&trie.table(letters), letters, limit);
        Ok(Automaton { letters, table, memory: trie.memory().max(limit), states })
    }

    fn step(&self, state: u16, letter: u8) -> u16 {
        self.table[usize::from(state) * STRIDE + usize::from(letter)]
    }

    /// The state after these letters.
    fn walk(&self, mut state: u16, letters: &[u8]) -> Option<u16> {
        for &letter in letters {
            state = self.step(state, letter);
            if state == STOP {
                return None;
            }
        }
        Some(state)
    }

    /// The state after a text from the first state, or the place of the letter that stops it.
    fn check(&self, text: &[u8]) -> Result<u16, usize> {
        let mut state = 0;
        for (place, &letter) in text.iter().enumerate() {
            state = self.step(state, letter);
            if state == STOP {
                return Err(place);
            }
        }
        Ok(state)
    }
}

/// The table of a list together with a run limit. A run state is 0, or 1 + letter * limit + (run - 1).
fn pair_table(list: &[u16], letters: usize, limit: usize) -> Vec<u16> {
    let runs = 1 + limit * letters;
    let mut numbers = vec![STOP; list.len() / STRIDE * runs];
    numbers[0] = 0;
    let mut reached = vec![(0usize, 0usize)];
    let mut table = Vec::new();
    let mut head = 0;
    while let Some(&(listed, run)) = reached.get(head) {
        head += 1;
        let mut row = [STOP; STRIDE];
        for (letter, step) in row.iter_mut().enumerate().take(letters) {
            let Some(run) = run_step(run, letter, limit) else { continue };
            let listed = list[listed * STRIDE + letter];
            if listed == STOP {
                continue;
            }
            let number = &mut numbers[usize::from(listed) * runs + run];
            if *number == STOP {
                *number = reached.len() as u16;
                reached.push((usize::from(listed), run));
            }
            *step = *number;
        }
        table.extend_from_slice(&row);
    }
    table
}

fn run_step(run: usize, letter: usize, limit: usize) -> Option<usize> {
    let first = 1 + letter * limit;
    if (first..first + limit).contains(&run) {
        (run + 1 < first + limit).then_some(run + 1)
    } else {
        Some(first)
    }
}

/// Breadth-first search for fillings. Marks carry the number of their search, so that none needs clearing.
struct Search {
    round: u32,
    marks: Vec<u32>,
    from: Vec<(u16, u8)>,
    queue: Vec<u16>,
}

impl Search {
    fn new(automaton: &Automaton) -> Search {
        let states = automaton.table.len() / STRIDE;
        Search { round: 0, marks: vec![0; states], from: vec![(STOP, 0); states], queue: Vec::with_capacity(states) }
    }

    /// The least filling after `start` after which `right` can be walked, and the state after both.
    fn filling(&mut self, automaton: &Automaton, start: u16, right: &[u8]) -> Option<(Vec<u8>, u16)> {
        self.round += 1;
        self.queue.clear();
        self.mark(start, (STOP, 0));
        let mut head = 0;
        while let Some(&state) = self.queue.get(head) {
            head += 1;
            if let Some(end) = automaton.walk(state, right) {
                return Some((self.letters_to(state), end));
            }
            for letter in 0..automaton.letters as u8 {
                let next = automaton.step(state, letter);
                if next != STOP && self.marks[usize::from(next)] != self.round {
                    self.mark(next, (state, letter));
                }
            }
        }
        None
    }

    fn mark(&mut self, state: u16, from: (u16, u8)) {
        self.marks[usize::from(state)] = self.round;
        self.from[usize::from(state)] = from;
        self.queue.push(state);
    }

    fn letters_to(&self, mut state: u16) -> Vec<u8> {
        let mut letters = Vec::new();
        loop {
            let (before, letter) = self.from[usize::from(state)];
            if before == STOP {
                break;
            }
            letters.push(letter);
            state = before;
        }
        letters.reverse();
        letters
    }
}

/// What is appended to a text: a filling, and then the right context from `overlap` on.
struct Row {
    filling: Vec<u8>,
    overlap: usize,
    end: u16,
}

/// The shortest row that makes a text, which ends with `left` and leads to `state`, end with `right`.
fn least_row(
    automaton: &Automaton,
    search: &mut Search,
    (left, state): (&[u8], u16),
    right: &[u8],
    most_overlap: usize,
) -> Option<Row> {
    for overlap in (1..=most_overlap.min(left.len())).rev() {
        if left.ends_with(&right[..overlap]) {
            if let Some(end) = automaton.walk(state, &right[overlap..]) {
                return Some(Row { filling: Vec::new(), overlap, end });
            }
        }
    }
    let (filling, end) = search.filling(automaton, state, right)?;
    Some(Row { filling, overlap: 0, end })
}

/// Takes a trace letter by letter.
struct Sheet {
    automaton: Automaton,
    search: Search,
    k: usize,
    /// The letters since the last gap or the opening; only the last k matter.
    running: Vec<u8>,
    last: Vec<u8>,
    state: u16,
    text: Vec<u8>,
    letters: usize,
    gaps: usize,
    kept: usize,
    skipped: usize,
    filled: usize,
}

impl Sheet {
    fn open(automaton: Automaton, k: usize) -> Result<Sheet, Fault> {
        if !(2..=12).contains(&k) {
            return fault(5, 'T', k);
        }
        if automaton.memory > k {
            return fault(6, 'T', automaton.memory);
        }
        Ok(Sheet {
            search: Search::new(&automaton),
            automaton,
            k,
            running: Vec::new(),
            last: Vec::new(),
            state: 0,
            text: Vec::with_capacity(TEXT_LETTERS),
            letters: 0,
            gaps: 0,
            kept: 0,
            skipped: 0,
            filled: 0,
        })
    }

    fn taken(&self) -> usize {
        self.letters + self.gaps
    }

    fn gap(&mut self) -> Result<(), Fault> {
        if self.taken() == TAKEN {
            return fault(10, 'T', TAKEN);
        }
        self.gaps += 1;
        self.running.clear();
        Ok(())
    }

    fn letter(&mut self, letter: u8) -> Result<(), Fault> {
        if self.taken() == TAKEN {
            return fault(10, 'T', TAKEN);
        }
        self.running.push(letter);
        if self.running.len() >= self.k {
            self.window(self.running.len() - self.k)?;
        }
        self.letters += 1;
        Ok(())
    }

    /// Keeps or skips the running window, which starts at `start` of the running letters.
    fn window(&mut self, start: usize) -> Result<(), Fault> {
        let window = &self.running[start..];
        let Some(alone) = self.automaton.walk(0, window) else {
            self.skipped += 1;
            return Ok(());
        };
        let row = if self.kept == 0 {
            Row { filling: Vec::new(), overlap: 0, end: alone }
        } else {
            let text = (&self.last[..], self.state);
            match least_row(&self.automaton, &mut self.search, text, window, self.k - 1) {
                Some(row) => row,
                None => return fault(8, 'J', self.letters + self.gaps),
            }
        };
        let length = self.text.len() + row.filling.len() + self.k - row.overlap;
        if length > TEXT_LETTERS {
            return fault(9, 'J', length);
        }
        self.text.extend_from_slice(&row.filling);
        self.text.extend_from_slice(&window[row.overlap..]);
        self.last.clear();
        self.last.extend_from_slice(window);
        self.state = row.end;
        self.kept += 1;
        self.filled += row.filling.len();
        Ok(())
    }
}

struct Settings {
    kind: Kind,
    k: Option<u16>,
    limit: Option<u16>,
    trie: Trie,
}

impl Settings {
    fn automaton(&self) -> Result<Automaton, Fault> {
        Automaton::new(&self.trie, &self.kind, self.limit)
    }

    fn heading(&self, automaton: &Automaton) -> String {
        let limit = self.limit.map_or("none".to_string(), |limit| limit.to_string());
        format!(
            "kind {}: {}\npatterns: {}\nrun limit: {}\nautomaton: {} states, memory {}\n",
            self.kind.name,
            String::from_utf8_lossy(self.kind.letters),
            self.trie.patterns,
            limit,
            automaton.states,
            automaton.memory
        )
    }
}

#[derive(Clone, Copy)]
enum Program {
    Check,
    Join,
    Rewrite,
}

struct Output {
    bytes: Vec<u8>,
    good: bool,
}

impl Program {
    fn named(name: &str) -> Option<Program> {
        match name {
            "check" => Some(Program::Check),
            "join" => Some(Program::Join),
            "rewrite" => Some(Program::Rewrite),
            _ => None,
        }
    }

    /// What the program makes of the content of the `>` line.
    fn finish(self, settings: &Settings, content: &[u8]) -> Result<Output, Fault> {
        match self {
            Program::Check => check(settings, content),
            Program::Join => join(settings, content),
            Program::Rewrite => rewrite(settings, content),
        }
    }
}

fn check(settings: &Settings, content: &[u8]) -> Result<Output, Fault> {
    let automaton = settings.automaton()?;
    let text = settings.kind.read_all(content)?;
    let stopped = automaton.check(&text).err();
    let verdict = stopped.map_or("passes".to_string(), |place| format!("stopped at {place}"));
    let bytes = format!(
        "{}text: {} letters\nwalked: {} letters\n{}\n",
        settings.heading(&automaton),
        text.len(),
        stopped.unwrap_or(text.len()),
        verdict
    );
    Ok(Output { bytes: bytes.into_bytes(), good: stopped.is_none() })
}

fn join(settings: &Settings, content: &[u8]) -> Result<Output, Fault> {
    let Some(gap) = content.iter().position(|&byte| byte == b'?') else {
        return broken();
    };
    let left = settings.kind.read_all(&content[..gap])?;
    let right = match settings.kind.read_all(&content[gap + 1..]) {
        Ok(right) => right,
        Err(refused) => return fault(refused.number, refused.layer, gap + 1 + refused.place),
    };
    let automaton = settings.automaton()?;
    for context in [&left, &right] {
        if context.len() > CONTEXT_LETTERS {
            return fault(10, 'J', context.len());
        }
    }
    let state = match automaton.check(&left) {
        Ok(state) => state,
        Err(place) => return fault(7, 'J', place),
    };
    if let Err(place) = automaton.check(&right) {
        return fault(7, 'J', left.len() + place);
    }
    let mut search = Search::new(&automaton);
    let Some(row) = least_row(&automaton, &mut search, (&left, state), &right, right.len()) else {
        return fault(8, 'J', 0);
    };
    let length = left.len() + row.filling.len() + right.len() - row.overlap;
    if length > TEXT_LETTERS {
        return fault(9, 'J', length);
    }
    let mut bytes = format!(
        "{}left: {} letters\nright: {} letters\noverlap: {}\nfilled: {}\nlength: {}\n",
        settings.heading(&automaton),
        left.len(),
        right.len(),
        row.overlap,
        row.filling.len(),
        length
    )
    .into_bytes();
    for part in [&left[..], &row.filling, &right[row.overlap..]] {
        settings.kind.write_all(part, &mut bytes);
    }
    bytes.push(b'\n');
    Ok(Output { bytes, good: true })
}

fn rewrite(settings: &Settings, trace: &[u8]) -> Result<Output, Fault> {
    let k = settings.k.map_or(WINDOW, usize::from);
    let mut sheet = Sheet::open(settings.automaton()?, k)?;
    for (place, &byte) in trace.iter().enumerate() {
        match settings.kind.read(byte) {
            Some(letter) => sheet.letter(letter)?,
            None if byte == b'?' => sheet.gap()?,
            None => return fault(1, 'L', place),
        }
    }
    let mut bytes = Vec::with_capacity(sheet.text.len() + 32);
    settings.kind.write_all(&sheet.text, &mut bytes);
    let counts = [sheet.letters, sheet.kept, sheet.skipped, sheet.text.len(), sheet.filled];
    bytes.push(b'\n');
    for count in counts {
        bytes.extend_from_slice(format!("{count:6}").as_bytes());
    }
    bytes.push(b'\n');
    Ok(Output { bytes, good: true })
}

/// A number right-justified in four columns, with no needless zero.
fn number(content: &[u8]) -> Result<u16, Fault> {
    let blanks = content.iter().take_while(|&&byte| byte == b' ').count();
    let digits = &content[blanks..];
    let needless = digits.len() > 1 && digits[0] == b'0';
    if content.len() != 4 || digits.is_empty() || needless || !digits.iter().all(u8::is_ascii_digit) {
        return broken();
    }
    Ok(digits.iter().fold(0, |value, digit| 10 * value + u16::from(digit - b'0')))
}

/// How far the lines have come. A setting may only follow lines of a lower stage.
#[derive(Clone, Copy, PartialEq, PartialOrd)]
enum Stage {
    Kind,
    Window,
    Limit,
    Patterns,
}

/// Reads the lines up to the `>` line and, with it, finishes.
struct Reader {
    program: Program,
    settings: Option<Settings>,
    stage: Stage,
    output: Option<Output>,
}

impl Reader {
    fn line(&mut self, line: &[u8]) -> Result<(), Fault> {
        let Some((&first, content)) = line.split_first() else {
            return broken();
        };
        if first == b';' {
            return Ok(());
        }
        if self.output.is_some() {
            return broken();
        }
        let Some(settings) = &mut self.settings else {
            return self.kind_line(first, content);
        };
        match first {
            b'k' if self.stage < Stage::Window => {
                settings.k = Some(number(content)?);
                self.stage = Stage::Window;
            }
            b'r' if self.stage < Stage::Limit => {
                settings.limit = Some(number(content)?);
                self.stage = Stage::Limit;
            }
            b'!' => {
                let pattern = settings.kind.read_all(content)?;
                settings.trie.add(&pattern)?;
                self.stage = Stage::Patterns;
            }
            b'>' => self.output = Some(self.program.finish(settings, content)?),
            _ => return broken(),
        }
        Ok(())
    }

    fn kind_line(&mut self, first: u8, content: &[u8]) -> Result<(), Fault> {
        match Kind::named(content) {
            Some(kind) if first == b'L' => {
                self.settings = Some(Settings { kind, k: None, limit: None, trie: Trie::new() });
                Ok(())
            }
            _ => broken(),
        }
    }
}

fn refused(fault: &Fault, line: usize) -> Output {
    let bytes = format!("R{:4}{}{:6}{:6}\n", fault.number, fault.layer, fault.place, line);
    Output { bytes: bytes.into_bytes(), good: false }
}

fn run(program: Program, data: &[u8]) -> Output {
    let broken_file = refused(&Fault { number: 11, layer: 'F', place: 0 }, 0);
    if data.len() > FILE_BYTES {
        return broken_file;
    }
    let mut reader = Reader { program, settings: None, stage: Stage::Kind, output: None };
    let lines = data.strip_suffix(b"\n").unwrap_or(data);
    if !data.is_empty() {
        for (at, line) in lines.split(|&byte| byte == b'\n').enumerate() {
            if let Err(fault) = reader.line(line) {
                return refused(&fault, at + 1);
            }
        }
    }
    reader.output.unwrap_or(broken_file)
}

fn main() -> io::Result<ExitCode> {
    let Some(program) = std::env::args().nth(1).and_then(|name| Program::named(&name)) else {
        eprintln!("usage: plain check|join|rewrite < FILE");
        return Ok(ExitCode::from(2));
    };
    let mut data = Vec::with_capacity(FILE_BYTES + 1);
    io::stdin().lock().take(FILE_BYTES as u64 + 1).read_to_end(&mut data)?;
    let output = run(program, &data);
    io::stdout().lock().write_all(&output.bytes)?;
    Ok(if output.good { ExitCode::SUCCESS } else { ExitCode::FAILURE })
}
