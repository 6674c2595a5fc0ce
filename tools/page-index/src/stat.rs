//! `stat`: the shape of an index, how full it is, and whether it is mended.
use crate::calls::Ended;
use crate::dump::Dump;
use crate::failure::Outcome;
use crate::findings::Findings;
use crate::json::Object;
use crate::numbers::counted;
use crate::reading::{not_zero, Block, Shape, State, SLOTS};
use crate::restored;
use std::io::{self, Write};

/// The figures of an index whose leaders are valid.
struct Figures {
    blocks: usize,
    /// The least and the largest local depth.
    depths: (usize, usize),
    used: usize,
    live: usize,
    stale: usize,
    /// The keys in segments that no entry names: no lookup reads them.
    leftovers: usize,
    /// The live records of each block.
    loads: Vec<usize>,
}

/// The least and the largest of some numbers.
fn range(numbers: impl Iterator<Item = usize> + Clone) -> (usize, usize) {
    (numbers.clone().min().unwrap_or(0), numbers.max().unwrap_or(0))
}

fn leftovers(words: &[u64], shape: &Shape, named: &[bool]) -> usize {
    let keys = |segment| (0..SLOTS).filter(move |slot| words[shape.segment_word(segment) + 2 * slot] != 0).count();
    (0..shape.segments).filter(|segment| !named[*segment]).map(keys).sum()
}

impl Figures {
    fn of(words: &[u64], shape: &Shape, blocks: &[Block]) -> Figures {
        let of = |block, state| shape.slots(words, block).filter(|slot| slot.state == state).count();
        let loads: Vec<usize> = blocks.iter().map(|block| of(block, State::Live)).collect();
        let named = shape.named(words);
        Figures {
            blocks: blocks.len(),
            depths: range(blocks.iter().map(|block| block.entry.depth as usize)),
            used: named.iter().filter(|named| **named).count(),
            live: loads.iter().sum(),
            stale: blocks.iter().map(|block| of(block, State::Stale)).sum(),
            leftovers: leftovers(words, shape, &named),
            loads,
        }
    }

    /// The empty slots in the segments of blocks.
    fn empty(&self) -> usize {
        SLOTS * self.blocks - self.live - self.stale
    }
}

/// The share in per cent, rounded down.
fn share(part: usize, whole: usize) -> usize {
    100 * part / whole
}

/// Says how many blocks have 0 to 7 live records, 8 to 15 and so on.
fn say_loads(out: &mut dyn Write, loads: &[usize]) -> io::Result<()> {
    for class in 0..=SLOTS / 8 {
        let records = if class == SLOTS / 8 { "64".to_string() } else { format!("{} to {}", 8 * class, 8 * class + 7) };
        let blocks = loads.iter().filter(|live| **live / 8 == class).count();
        if blocks > 0 {
            writeln!(out, "  {records:>8} live     {}", counted(blocks, "block"))?;
        }
    }
    Ok(())
}

/// Says the blocks, their segments and their records.
fn say_figures(out: &mut dyn Write, shape: &Shape, figures: &Figures) -> io::Result<()> {
    let Figures { blocks, depths, used, live, stale, leftovers, loads } = figures;
    writeln!(out, "blocks              {blocks}, of local depths {} to {}", depths.0, depths.1)?;
    writeln!(out, "segments used       {used}, free {}", shape.segments - used)?;
    writeln!(out, "live records        {live}")?;
    writeln!(out, "stale records       {stale}")?;
    writeln!(out, "empty slots         {}, in the segments of blocks", figures.empty())?;
    writeln!(out, "in free segments    {}, which no lookup reads", counted(*leftovers, "key"))?;
    let (of_blocks, of_all) = (share(*live, SLOTS * blocks), share(*live, SLOTS * shape.segments));
    writeln!(out, "load                {of_blocks} % of the slots of blocks, {of_all} % of all")?;
    let (least, most) = range(loads.iter().copied());
    writeln!(out, "records of a block  {least} to {most}")?;
    say_loads(out, loads)
}

/// Says what is in a file whose word 0 is 0 while others are not: much, if word 0 alone is damaged.
fn say_words(out: &mut dyn Write, words: &[u64]) -> io::Result<()> {
    writeln!(out, "words               {} in the file, {} of them not 0", words.len(), not_zero(words))?;
    writeln!(out, "word 0 put right    {}", restored::said(words))
}

/// How a description ends: with the exit code of a damaged file, where the findings are damage.
fn ended(dump: &Dump, findings: &Findings) -> Ended {
    match findings.is_damage() {
        false => Ok(Outcome::Done),
        true => Err(dump.damaged(format!("damaged, as no call leaves it: {findings}"))),
    }
}

pub fn stat(out: &mut dyn Write, dump: &Dump) -> Ended {
    if dump.has_lost_word_0() {
        say_words(out, dump.words)?;
    }
    let shape = dump.shape()?;
    writeln!(out, "largest depth D     {}", shape.max_depth)?;
    writeln!(out, "segments S          {}", shape.segments)?;
    writeln!(out, "depth G             {}", shape.depth)?;
    writeln!(out, "words               {}, of {} in the file", shape.words(), dump.words.len())?;
    let (_, blocks) = dump.read()?;
    say_figures(out, &shape, &Figures::of(dump.words, &shape, &blocks))?;
    let findings = Findings::of(dump.words, &shape, &blocks);
    match findings.mending.stores {
        0 => writeln!(out, "mended              yes")?,
        stores => writeln!(out, "mended              no: a mend has {} to make", counted(stores, "store"))?,
    }
    ended(dump, &findings)
}

/// The same as an object of JSON, which has those members that can be said of the file.
pub fn stat_json(out: &mut dyn Write, dump: &Dump) -> Ended {
    let mut object = Object::default();
    object.text("file", dump.path);
    object.number("bytes_in_file", dump.bytes.len());
    object.number("words_in_file", dump.words.len());
    object.number("words_not_0", not_zero(dump.words));
    let answer = add_index(&mut object, dump);
    object.flag("damaged", answer.is_err());
    if let Err(failure) = &answer {
        object.text("damage", &failure.to_string());
    }
    object.write(out)?;
    answer
}

/// Adds what can be said of an index, up to the first damage.
fn add_index(object: &mut Object, dump: &Dump) -> Ended {
    if let Some(restored) = dump.has_lost_word_0().then(|| restored::restored(dump.words)).flatten() {
        object.text("word_0_put_right", &restored.to_string());
    }
    let shape = dump.shape()?;
    object.number("words", shape.words());
    object.number("largest_depth", shape.max_depth as usize);
    object.number("segments", shape.segments);
    object.number("depth", shape.depth as usize);
    let (_, blocks) = dump.read()?;
    add_figures(object, &shape, &Figures::of(dump.words, &shape, &blocks));
    let findings = Findings::of(dump.words, &shape, &blocks);
    object.flag("mended", findings.mending.stores == 0);
    object.number("stores_of_a_mend", findings.mending.stores);
    object.number("segments_that_two_blocks_name", findings.shared.len());
    object.number("records_that_no_lookup_finds", findings.strays.len());
    object.number("lookups_that_a_mend_changes", findings.mending.lookups);
    object.number("entries_out_of_range", findings.mending.out_of_range);
    ended(dump, &findings)
}

fn add_figures(object: &mut Object, shape: &Shape, figures: &Figures) {
    let (least, most) = range(figures.loads.iter().copied());
    for (name, number) in [
        ("blocks", figures.blocks),
        ("least_local_depth", figures.depths.0),
        ("largest_local_depth", figures.depths.1),
        ("segments_used", figures.used),
        ("segments_free", shape.segments - figures.used),
        ("live_records", figures.live),
        ("stale_records", figures.stale),
        ("empty_slots", figures.empty()),
        ("keys_in_free_segments", figures.leftovers),
        ("least_records_of_a_block", least),
        ("most_records_of_a_block", most),
    ] {
        object.number(name, number);
    }
}
