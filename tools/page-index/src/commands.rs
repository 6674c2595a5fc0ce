//! The commands: the arguments of each, and what is done with them.
use crate::arguments::{number_of, Arguments};
use crate::calls::{open, Ended};
use crate::dump::Dump;
use crate::failure::Failure;
use crate::{board, calls, check, copy, diff, find, formatting, putting, show, stat, svg};
use std::io::{self, Write};

/// Carries a command out.
pub fn run(out: &mut dyn Write, command: &str, given: &[String]) -> Ended {
    let carry_out = match command {
        "stat" => describe,
        "check" => look_for_damage,
        "find" => find_key,
        "show" => draw,
        "diff" => compare,
        "copy" => make_copy,
        "format" => format,
        "get" => get,
        "put" => put,
        "remove" => remove,
        "mend" => mend,
        "merge" => merge,
        "list" => list,
        "board" => call_board,
        _ => return Err(Failure::Usage(format!("{command} is no command"))),
    };
    carry_out(out, Arguments::read(command, given, &["--svg", "--allowance"])?)
}

fn describe(out: &mut dyn Write, mut given: Arguments) -> Ended {
    let say = if given.flag("--json") { stat::stat_json } else { stat::stat };
    let [path] = given.others("FILE")?;
    say(out, &Dump::of(&path, &open(&path)?))
}

fn look_for_damage(out: &mut dyn Write, given: Arguments) -> Ended {
    let [path] = given.others("FILE")?;
    check::check(out, &Dump::of(&path, &open(&path)?))
}

fn find_key(out: &mut dyn Write, given: Arguments) -> Ended {
    let [path, key] = given.others("FILE KEY")?;
    let key = number_of("KEY", &key)?;
    find::find(out, &Dump::of(&path, &open(&path)?), key)
}

fn draw(out: &mut dyn Write, mut given: Arguments) -> Ended {
    let (records, picture) = (given.flag("--records"), given.value("--svg"));
    let [path] = given.others("FILE")?;
    let file = open(&path)?;
    let dump = Dump::of(&path, &file);
    match picture {
        Some(_) if records => Err(Failure::Usage("show takes --records or --svg, not both".to_string())),
        Some(picture) => svg::draw(&dump, &picture),
        None if records => show::records(out, &dump),
        None => show::show(out, &dump),
    }
}

fn compare(out: &mut dyn Write, mut given: Arguments) -> Ended {
    let compare = if given.flag("--words") { diff::by_word } else { diff::by_record };
    let [a, b] = given.others("A B")?;
    let (in_a, in_b) = (open(&a)?, open(&b)?);
    compare(out, &Dump::of(&a, &in_a), &Dump::of(&b, &in_b))
}

fn make_copy(out: &mut dyn Write, mut given: Arguments) -> Ended {
    let force = given.flag("--force");
    let [path, copy] = given.others("FILE COPY")?;
    copy::copy(out, &path, &copy, force)
}

fn format(out: &mut dyn Write, mut given: Arguments) -> Ended {
    let (force, allowance) = (given.flag("--force"), given.allowance()?);
    let [path, depth, segments] = given.others("FILE D S")?;
    let shape = (number_of("D", &depth)?, number_of("S", &segments)?);
    formatting::format(out, &path, shape, force, allowance)
}

fn get(out: &mut dyn Write, given: Arguments) -> Ended {
    let [path, key] = given.others("FILE KEY")?;
    calls::get(out, &path, number_of("KEY", &key)?)
}

/// A put of one record, or of those of standard input.
fn put(out: &mut dyn Write, mut given: Arguments) -> Ended {
    if given.is_at(1, "-") {
        let keep_going = given.flag("--keep-going");
        let [path, _] = given.others("FILE -")?;
        return putting::put_lines(out, &path, io::stdin().lock(), keep_going);
    }
    let allowance = given.allowance()?;
    let [path, key, value] = given.others("FILE KEY VALUE")?;
    calls::put(out, &path, number_of("KEY", &key)?, number_of("VALUE", &value)?, allowance)
}

fn remove(out: &mut dyn Write, mut given: Arguments) -> Ended {
    let allowance = given.allowance()?;
    let [path, key] = given.others("FILE KEY")?;
    calls::remove(out, &path, number_of("KEY", &key)?, allowance)
}

/// A mend, or what it would do.
fn mend(out: &mut dyn Write, mut given: Arguments) -> Ended {
    let force = given.flag("--force");
    if given.flag("--dry-run") {
        let [path] = given.others("FILE --dry-run")?;
        return calls::mend_dry(out, &path, force);
    }
    let allowance = given.allowance()?;
    let [path] = given.others("FILE")?;
    calls::mend(out, &path, force, allowance)
}

/// One merge, or all that there are.
fn merge(out: &mut dyn Write, mut given: Arguments) -> Ended {
    if given.flag("--all") {
        let [path] = given.others("FILE --all")?;
        return calls::merge_all(out, &path);
    }
    let allowance = given.allowance()?;
    let [path, key] = given.others("FILE KEY")?;
    calls::merge(out, &path, number_of("KEY", &key)?, allowance)
}

fn list(out: &mut dyn Write, given: Arguments) -> Ended {
    let [path] = given.others("FILE")?;
    calls::list(out, &path)
}

/// A call of the month board, which is the argument behind the file.
fn call_board(out: &mut dyn Write, mut given: Arguments) -> Ended {
    if given.is_at(1, "print") {
        let sums = given.flag("--sums");
        let [path, _, year] = given.others("FILE print YEAR")?;
        return board::print(out, &path, number_of("YEAR", &year)?, sums);
    }
    if given.is_at(1, "get") {
        let [path, _, year, month, number] = given.others("FILE get YEAR MONTH NUMBER")?;
        return board::get(out, &path, board::job_of([&year, &month, &number])?);
    }
    if given.is_at(1, "set") {
        let allowance = given.allowance()?;
        let [path, _, year, month, number, pages] = given.others("FILE set YEAR MONTH NUMBER PAGES")?;
        let (job, pages) = (board::job_of([&year, &month, &number])?, number_of("PAGES", &pages)?);
        return board::set(out, &path, job, pages, allowance);
    }
    if given.is_at(1, "remove") {
        let allowance = given.allowance()?;
        let [path, _, year, month, number] = given.others("FILE remove YEAR MONTH NUMBER")?;
        return board::remove(out, &path, board::job_of([&year, &month, &number])?, allowance);
    }
    Err(Failure::Usage("board takes FILE, then print, set, get or remove".to_string()))
}
