//! Compares the compiled month board with its model, call by call, word by word and byte by byte: on arrays
//! that runs of calls leave, with jobs of three years among other keys, on such arrays with damage, on
//! directories of depth 12 with damaged entries, and on arrays of random words.
use crate::board_model::{self, key_of, BoardCall};
use crate::model::{first_word, folded, Answer, Call, ABSENT, DONE};
use crate::{allowance, answer, compare, damage, has_old_mark, key, random_words, unfolded, Counts, Random};
use page_index::board::{self, Job};

/// The replies that must come, for each call.
const WANTED: [(&str, &[u32]); 4] = [
    ("set", &[0, 1, 3, 4, 5, 6, 7, 11, 12, 13]),
    ("read", &[0, 1, 3, 11, 12, 13, 255]),
    ("remove", &[0, 1, 3, 4, 7, 11, 12, 13, 255]),
    ("print", &[0, 1, 3, 10, 11]),
];

/// The byte that a buffer holds where nothing was written.
const UNWRITTEN: u8 = 0xe7;

/// One array for the compiled board and one for the model, the years of its jobs, and the jobs set so far.
struct Pair {
    ours: Vec<u64>,
    theirs: Vec<u64>,
    damaged: bool,
    years: [u64; 3],
    used: Vec<Job>,
}

/// What was counted: the board's calls, and those that the index made on the same arrays.
#[derive(Default)]
pub struct BoardCounts {
    board: Counts,
    index: Counts,
    /// Done prints of an array with an entry that is out of range.
    beside_damage: u64,
}

/// The call made by the compiled board.
fn made(words: &mut [u64], call: BoardCall) -> Answer {
    answer(match call {
        BoardCall::Set(job, pages, n) => board::set(words, job, pages, n).map(|stores| (DONE, stores, 0)),
        BoardCall::Read(job) => board::read(words, job).map(|v| v.map_or((ABSENT, 0, 0), |v| (DONE, 0, v))),
        BoardCall::Remove(job, n) => board::remove(words, job, n).map(|s| s.map_or((ABSENT, 0, 0), |s| (DONE, s, 0))),
    })
}

fn name(call: BoardCall) -> &'static str {
    match call {
        BoardCall::Set(..) => "set",
        BoardCall::Read(..) => "read",
        BoardCall::Remove(..) => "remove",
    }
}

impl Pair {
    fn new(words: Vec<u64>, r: &mut Random) -> Pair {
        let first = [1, 9998, 1 + r.below(9998), 2026][r.below(4) as usize];
        let years = [first, first + 1, 1 + r.below(9999)];
        Pair { theirs: words.clone(), ours: words, damaged: false, years, used: Vec::new() }
    }

    fn count(&self, call: &'static str, got: Answer, counts: &mut BoardCounts) {
        counts.board.count(call, got);
        counts.board.damaged += self.damaged as u64;
        counts.board.old += has_old_mark(&self.ours) as u64;
    }

    fn index_call(&mut self, call: Call, counts: &mut BoardCounts) {
        compare(&mut self.ours, &mut self.theirs, call, 0, &mut counts.index);
    }

    /// Changes a word of both arrays.
    fn spoil(&mut self, at: usize, word: u64) {
        self.ours[at] = word;
        self.theirs[at] = word;
        self.damaged = true;
    }

    fn board_call(&mut self, call: BoardCall, counts: &mut BoardCounts) {
        let got = made(&mut self.ours, call);
        let due = board_model::perform(&mut self.theirs, call);
        assert_eq!(got, due, "{call:?}: the answers differ");
        assert!(self.ours == self.theirs, "{call:?}: the arrays differ after {got:?}");
        self.count(name(call), got, counts);
    }

    /// Prints a year into buffers of exactly the bytes needed, one byte short, longer and empty or half as
    /// long. Answers whether the lines can be printed.
    fn print(&self, year: u64, r: &mut Random, counts: &mut BoardCounts) -> bool {
        let lines = board_model::lines(&self.theirs, year);
        let exact = lines.as_ref().map_or(r.below(100) as usize, String::len);
        let longer = exact + 1 + r.below(40) as usize;
        for room in [exact, exact.saturating_sub(1), longer, r.below(2) as usize * exact / 2] {
            let mut buffer = vec![UNWRITTEN; room];
            let mut due_buffer = buffer.clone();
            let got = board::print(&self.ours, year, &mut buffer).map(|bytes| (DONE, 0, bytes as u64));
            let due = board_model::print(&lines, &mut due_buffer);
            assert_eq!(answer(got), due, "print of {year} into {room} bytes: the answers differ");
            assert!(buffer == due_buffer, "print of {year} into {room} bytes: the bytes differ");
            assert!(self.ours == self.theirs, "print of {year}: a word was changed");
            self.count("print", due, counts);
        }
        lines.is_ok()
    }

    /// One random call of the board or, with another key, of the index.
    fn step(&mut self, r: &mut Random, counts: &mut BoardCounts) {
        match r.below(16) {
            0..=7 => {
                let job = self.job(r);
                self.used.push(job);
                self.board_call(BoardCall::Set(job, pages(r), allowance(r)), counts);
            }
            8..=9 => self.board_call(BoardCall::Read(self.known(r)), counts),
            10..=11 => self.board_call(BoardCall::Remove(self.known(r), allowance(r)), counts),
            12 => self.index_call(Call::Put(self.other_key(r), r.next(), allowance(r)), counts),
            13 => self.index_call(Call::Remove(self.other_key(r), allowance(r)), counts),
            _ => self.index_call(Call::Mend(allowance(r)), counts),
        }
    }

    /// Such a call, one in six after some damage, which word 0 mostly survives.
    fn damaged_step(&mut self, r: &mut Random, counts: &mut BoardCounts) {
        if r.chance(6) {
            let first = self.ours[0];
            damage(&mut self.ours, r);
            if !r.chance(4) {
                self.ours[0] = first;
            }
            self.theirs.copy_from_slice(&self.ours);
            self.damaged = true;
        }
        self.step(r, counts);
    }

    /// A job of the array's years; one in eight has a year, a month or a number that is bad, or several.
    fn job(&self, r: &mut Random) -> Job {
        let (year, month) = (self.year(r), month(r));
        let mut job = Job { year, month, number: number(r, year, month) };
        if r.chance(8) {
            let which = 1 + r.below(7);
            job.year = if which & 1 != 0 { bad(r, 10_000, 1 << 48, job.year) } else { job.year };
            job.month = if which & 2 != 0 { bad(r, 13, 1 << 52, job.month) } else { job.month };
            job.number = if which & 4 != 0 { bad(r, 4096, 4096, job.number) } else { job.number };
        }
        job
    }

    fn year(&self, r: &mut Random) -> u64 {
        self.years[r.below(3) as usize]
    }

    /// A job of a read or a remove: often one that was set.
    fn known(&self, r: &mut Random) -> Job {
        if self.used.is_empty() || r.chance(3) {
            return self.job(r);
        }
        self.used[r.below(self.used.len() as u64) as usize]
    }

    /// A key that is no job's, often close to one: of month 0 or 13 to 15, of year 0 or 10,000, or with
    /// the bits of a job below others.
    fn other_key(&self, r: &mut Random) -> u64 {
        let (year, month) = match r.below(5) {
            0 => (self.year(r), no_month(r)),
            1 => (0, month(r)),
            2 => (10_000 + r.below(2), month(r)),
            3 => (self.year(r) | (1 + r.below(9)) << 16, month(r)),
            _ => return key(r),
        };
        key_of(year, month, number(r, year, month))
    }
}

fn month(r: &mut Random) -> u64 {
    match r.below(4) {
        0 => [1, 12][r.below(2) as usize],
        _ => 1 + r.below(12),
    }
}

/// What a key has in the place of the month, but no job.
fn no_month(r: &mut Random) -> u64 {
    [0, 13, 14, 15][r.below(4) as usize]
}

/// A number for a job of this month: small, at the end, any, or one of those that share a window.
fn number(r: &mut Random, year: u64, month: u64) -> u64 {
    match r.below(7) {
        0 => r.below(12),
        1 => 4095 - r.below(3),
        2 => r.below(4096),
        3 => number_with(year, month, 7 + 16 * r.below(40)),
        _ => number_with(year, month, 7 + 64 * r.below(40)),
    }
}

/// The number with which the folded key of a job of this month has these twelve low bits.
fn number_with(year: u64, month: u64, bits: u64) -> u64 {
    unfolded((folded(key_of(year, month, 0)) ^ bits) % 4096)
}

/// Mostly a number that is out of range: the first behind it, the last of all, any, or one so far behind a
/// good one, `wrap`, that its key would be that of a job.
fn bad(r: &mut Random, first_bad: u64, wrap: u64, good: u64) -> u64 {
    match r.below(5) {
        0 => 0,
        1 => first_bad,
        2 => u64::MAX,
        3 => good + wrap,
        _ => r.next(),
    }
}

/// Pages of any number of digits, the least and the largest of each.
fn pages(r: &mut Random) -> u64 {
    match r.below(4) {
        0 => 10u64.pow(r.below(20) as u32),
        1 => 10u64.pow(r.below(20) as u32) - 1,
        2 => u64::MAX >> r.below(64),
        _ => r.next() >> r.below(64),
    }
}

/// A run from a format on, then calls on its array with damage. One array in four is printed.
fn run(r: &mut Random, steps: u64, damaged_steps: u64, counts: &mut BoardCounts) {
    let d = 2 + r.below(5);
    let s = 1 + r.below((1 << d).min(24));
    let mut pair = Pair::new(vec![0; ((2 << d) + 128 * s) as usize], r);
    pair.index_call(Call::Format(d, s, u32::MAX), counts);
    for _ in 0..steps {
        pair.step(r, counts);
    }
    pair.print(bad(r, 10_000, 1 << 48, pair.years[0]), r, counts);
    for _ in 0..damaged_steps {
        pair.damaged_step(r, counts);
    }
    if r.chance(4) {
        pair.print(pair.year(r), r, counts);
    }
}

/// The place of the key's entry in a directory of depth 12.
fn entry_at_depth_12(key: u64) -> usize {
    4096 + ((folded(key) >> 4 & 0xfff) as u16).reverse_bits() as usize / 16
}

/// A directory of depth 12, in which no job of one year reaches the entries that its months 0 and 13 to 15 would
/// have. First one of these is put out of range, which no print of the year may see, then any entry.
fn deep(r: &mut Random, counts: &mut BoardCounts) {
    let s = 1 + r.below(8);
    let mut words = vec![0; (8192 + 128 * s) as usize];
    words[0] = first_word(12, 12, s);
    let mut pair = Pair::new(words, r);
    for _ in 0..60 {
        pair.step(r, counts);
    }
    pair.index_call(Call::Mend(u32::MAX), counts);
    let (year, out_of_range) = (pair.year(r), if r.chance(2) { s } else { 13 << 32 });
    pair.spoil(entry_at_depth_12(key_of(year, no_month(r), r.below(4096))), out_of_range);
    counts.beside_damage += pair.print(year, r, counts) as u64;
    pair.spoil(4096 + r.below(4096) as usize, out_of_range);
    pair.print(pair.year(r), r, counts);
    for _ in 0..8 {
        pair.damaged_step(r, counts);
    }
}

/// A few calls and a print on an array of random words with a likely word 0, or with none.
fn random_array(r: &mut Random, counts: &mut BoardCounts) {
    let mut pair = Pair { damaged: true, ..Pair::new(random_words(r), r) };
    for _ in 0..3 {
        pair.step(r, counts);
    }
    pair.print(pair.year(r), r, counts);
}

/// A print of a year with all its jobs, in an array made by hand: a segment for each entry of a directory of
/// depth 12, and in each bucket another key of that bucket in front of the job's.
fn full_year(r: &mut Random, counts: &mut BoardCounts) {
    let year = 1 + r.below(9999);
    let mut words = vec![0; 8192 + 128 * 4096];
    words[0] = first_word(12, 12, 4096);
    for entry in 0..4096 {
        words[4096 + entry] = entry as u64 | 12 << 32;
    }
    for key in key_of(year, 1, 0)..key_of(year, 13, 0) {
        let segment = entry_at_depth_12(key) - 4096;
        let at = 8192 + 128 * segment + 8 * (folded(key) % 16) as usize;
        words[at..at + 4].copy_from_slice(&[key | 1 << 32, 1, key, pages(r)]);
    }
    Pair::new(words, r).print(year, r, counts);
}

/// The comparison for one seed.
pub fn compare_board(r: &mut Random, rounds: u64, counts: &mut BoardCounts) {
    full_year(r, counts);
    for round in 0..rounds {
        run(r, 600, 0, counts);
        run(r, 200, 100, counts);
        if round % 4 == 0 {
            deep(r, counts);
        }
        for _ in 0..3 {
            random_array(r, counts);
        }
    }
}

/// Prints what was counted; false where a wanted reply never came.
pub fn report(counts: &BoardCounts) -> bool {
    let board = &counts.board;
    println!("board calls {}", board.said());
    println!(
        "prints beside an entry out of range {}, calls of the index between {}",
        counts.beside_damage, counts.index.calls
    );
    for ((call, code), count) in &board.codes {
        println!("board {call} {code}: {count}");
    }
    let wanted = WANTED.iter().flat_map(|(call, codes)| codes.iter().map(move |&code| (*call, code)));
    let missing: Vec<_> = wanted.filter(|reply| !board.codes.contains_key(reply)).collect();
    if !missing.is_empty() {
        println!("never came from the board: {missing:?}");
    }
    missing.is_empty() && counts.beside_damage > 0 && board.old > 0
}
