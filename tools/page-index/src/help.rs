//! What `--help` and `--version` say.
use crate::failure::EXIT_CODES;
use crate::reading::MARK;

const COMMANDS: &str = "\
page-index: a page index in a file

Looking (nothing is written to FILE):
  page-index stat FILE              shape, depth, segments, records, load, mended or not; --json: as JSON
  page-index check FILE             all that is wrong with it, a line for each finding
  page-index find FILE KEY          where a key is looked for: entry, segment, the sixteen slots with byte offsets
  page-index show FILE              directory and segments, drawn as text
             --records              every record with its place, live or stale
             --svg OUT              as a picture; OUT must not be there, or be such a picture
  page-index diff A B               the records that differ
             --words                the words that differ, and what each is
  page-index copy FILE COPY         a copy, which is on the disk before it replaces the last one. --force replaces what is
                                    no index, or by a damaged FILE. (It is written to COPY.PROCESS.part first.)

The calls, by the proved library on the mapped file:
  page-index format FILE D S        an empty index; a FILE that is not there, or empty, gets its length.
                                    A FILE of which a word is not 0 is not new: --force empties it
  page-index get FILE KEY
  page-index put FILE KEY VALUE
  page-index put FILE -             the records of standard input, as list writes them; the first line that is refused
                                    or no record ends it, with --keep-going it is said, counted and passed over
  page-index remove FILE KEY
  page-index mend FILE              refused where lookups would change, by damage; --force mends all the same
             --dry-run              says how many entries it would store, and whether a lookup would change
  page-index merge FILE KEY         --all in place of KEY: until nothing merges
  page-index list FILE              key, a tab, value; a line for each record
  --allowance N                     the stores that format, put, remove, mend, merge or a board's set or remove may make;
                                    not with -, --all and --dry-run

The month board, in a FILE of its own (MONTH is 1 to 12, or Jan to Dec):
  page-index board FILE print YEAR                      month, number and pages of each job; --sums: and behind them the
                                                        jobs and pages of each month and of the year
  page-index board FILE set YEAR MONTH NUMBER PAGES
  page-index board FILE get YEAR MONTH NUMBER
  page-index board FILE remove YEAR MONTH NUMBER

Numbers are decimal, or hexadecimal behind 0x. A file is locked meanwhile (flock). --version: that of this program.
";

/// All commands, and the exit codes.
pub fn help() -> String {
    format!("{COMMANDS}\n{EXIT_CODES}")
}

/// The version of the tool, and the mark of the indexes that it knows.
pub fn version() -> String {
    format!("page-index {}, for indexes with the mark {MARK:#x}", page_index::VERSION)
}
