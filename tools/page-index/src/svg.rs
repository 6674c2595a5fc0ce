//! `show --svg`: the directory and its segments as a picture.
use crate::calls::Ended;
use crate::dump::Dump;
use crate::failure::{Failure, Outcome};
use crate::reading::{Block, Shape, State, BUCKET_SLOTS, SLOTS};
use crate::show::indices;
use page_index::mapped::open_regular;
use std::fmt::Write;
use std::fs::{File, OpenOptions};
use std::io::{self, ErrorKind, Read, Seek};

/// How a picture begins: by this a file is known as one.
const START: &str = "<svg xmlns=\"http://www.w3.org/2000/svg\" width=\"";

const LIVE: &str = "#2b6cb0";
const STALE: &str = "#ed8936";
const EMPTY: &str = "#edf2f7";
const UNMENDED: &str = "#c53030";

/// All lengths are in units of the picture. A slot is a square, with a gap beside it.
const SIDE: usize = 7;
const CELL: usize = SIDE + 1;
const BOX_WIDTH: usize = CELL * SLOTS / BUCKET_SLOTS;
const BOX_HEIGHT: usize = CELL * BUCKET_SLOTS;
const COLUMN: usize = BOX_WIDTH + 24;
const ROW: usize = BOX_HEIGHT + 34;
const MARGIN: usize = 16;
/// The directory: its first line, and the height that each local depth adds to a block.
const DIRECTORY_TOP: usize = 64;
const STEP: usize = 6;

/// How many segments stand in a row: four, and more where there are many.
fn columns(blocks: usize) -> usize {
    match blocks {
        0..=64 => 4,
        65..=512 => 8,
        _ => 32,
    }
}

/// The squares of one state in a box.
fn squares(shape: &Shape, words: &[u64], block: &Block, state: State) -> String {
    let mut path = String::new();
    for slot in shape.slots(words, block).filter(|slot| slot.state == state) {
        let (x, y) = (CELL * (slot.number / BUCKET_SLOTS), CELL * (slot.number % BUCKET_SLOTS));
        let _ = write!(path, "M{x} {y}h{SIDE}v{SIDE}h-{SIDE}z");
    }
    path
}

/// A segment: what its block is, and its slots, a column for each bucket.
fn segment(svg: &mut String, shape: &Shape, words: &[u64], block: &Block, (x, y): (usize, usize)) {
    let _ = writeln!(svg, "<g transform=\"translate({x} {y})\">");
    let said = format!("index {}: segment {}", indices(block), block.entry.segment);
    let colour = if block.unequal > 0 { UNMENDED } else { "#1a202c" };
    let _ = writeln!(svg, "<text y=\"-5\" font-size=\"9\" fill=\"{colour}\">{said}</text>");
    let _ = writeln!(svg, "<rect width=\"{BOX_WIDTH}\" height=\"{BOX_HEIGHT}\" fill=\"{EMPTY}\"/>");
    for (state, colour) in [(State::Live, LIVE), (State::Stale, STALE)] {
        let path = squares(shape, words, block, state);
        if !path.is_empty() {
            let _ = writeln!(svg, "<path d=\"{path}\" fill=\"{colour}\"/>");
        }
    }
    svg.push_str("</g>\n");
}

/// The directory: each block as wide as its share, and the lower the deeper it is.
fn directory(svg: &mut String, shape: &Shape, blocks: &[Block], width: usize) {
    for block in blocks {
        let at = |index: usize| MARGIN + width * index / shape.entries();
        let (x, wide) = (at(block.start), at(block.start + block.width) - at(block.start));
        let height = 16 + STEP * block.entry.depth as usize;
        let colour = if block.unequal > 0 { UNMENDED } else { "#a0aec0" };
        let place = format!("x=\"{x}\" y=\"{DIRECTORY_TOP}\" width=\"{wide}\" height=\"{height}\"");
        let _ = writeln!(svg, "<rect {place} fill=\"{colour}\" stroke=\"white\" stroke-width=\"0.5\"/>");
        if wide >= 20 {
            let _ = writeln!(svg, "<text x=\"{}\" y=\"{}\">{}</text>", x + 4, DIRECTORY_TOP + 12, block.entry.segment);
        }
    }
}

/// The squares of the states and their names.
fn legend(svg: &mut String, unmended: bool) {
    let mut names = vec![("live", LIVE), ("stale", STALE), ("empty", EMPTY)];
    if unmended {
        names.push(("awaits mending", UNMENDED));
    }
    for (number, (name, colour)) in names.into_iter().enumerate() {
        let x = MARGIN + 70 * number;
        let _ =
            writeln!(svg, "<rect x=\"{x}\" y=\"24\" width=\"9\" height=\"9\" fill=\"{colour}\" stroke=\"#718096\"/>");
        let _ = writeln!(svg, "<text x=\"{}\" y=\"33\">{name}</text>", x + 14);
    }
}

/// The picture of an index.
fn picture(shape: &Shape, words: &[u64], blocks: &[Block]) -> String {
    let columns = columns(blocks.len());
    let width = columns.min(blocks.len().max(3)) * COLUMN - (COLUMN - BOX_WIDTH);
    let top = DIRECTORY_TOP + 16 + STEP * shape.depth as usize + 40;
    let height = top + blocks.len().div_ceil(columns) * ROW;
    let mut svg = String::new();
    let size = format!("{0}\" height=\"{height}\" viewBox=\"0 0 {0} {height}\"", width + 2 * MARGIN);
    let _ = writeln!(svg, "{START}{size} font-family=\"sans-serif\" font-size=\"10\">");
    svg.push_str("<rect width=\"100%\" height=\"100%\" fill=\"white\"/>\n");
    let mut text = |y: usize, said: &str| writeln!(svg, "<text x=\"{MARGIN}\" y=\"{y}\">{said}</text>");
    let _ = text(16, &shape.to_string());
    let _ = text(DIRECTORY_TOP - 5, "Directory: a block as wide as its share, with its segment");
    let _ = text(top - 22, "Segments of the blocks: a column for each bucket");
    legend(&mut svg, blocks.iter().any(|block| block.unequal > 0));
    directory(&mut svg, shape, blocks, width);
    for (number, block) in blocks.iter().enumerate() {
        let place = (MARGIN + number % columns * COLUMN, top + number / columns * ROW);
        segment(&mut svg, shape, words, block, place);
    }
    svg.push_str("</svg>\n");
    svg
}

/// Whether a file begins as a picture does.
fn is_picture(file: &mut File) -> io::Result<bool> {
    let mut start = Vec::new();
    file.take(START.len() as u64).read_to_end(&mut start)?;
    Ok(start == START.as_bytes())
}

/// Opens a file that is there and a picture, and empties it. Every other may be an index, this one too, and is left as
/// it is.
fn open_picture(path: &str) -> Result<File, Failure> {
    let mut file =
        open_regular(path, OpenOptions::new().read(true).write(true)).map_err(|error| Failure::file(path, error))?;
    if !is_picture(&mut file).map_err(|error| Failure::file(path, error))? {
        return Err(Failure::file(path, "it is there and no picture, and is left as it is"));
    }
    file.set_len(0).and_then(|()| file.rewind()).map_err(|error| Failure::file(path, error))?;
    Ok(file)
}

/// Writes the picture of an index to a file. A damaged index has none, and no file is made; nor is one left that could not
/// be written to the end.
pub fn draw(dump: &Dump, path: &str) -> Ended {
    let (shape, blocks) = dump.read()?;
    let svg = picture(&shape, dump.words, &blocks);
    let mut file = match OpenOptions::new().write(true).create_new(true).open(path) {
        Err(error) if error.kind() == ErrorKind::AlreadyExists => open_picture(path)?,
        made => made.map_err(|error| Failure::file(path, error))?,
    };
    io::Write::write_all(&mut file, svg.as_bytes()).map_err(|error| {
        // What the error says counts, and not whether this works too.
        let _ = std::fs::remove_file(path);
        Failure::file(path, error)
    })?;
    Ok(Outcome::Done)
}
