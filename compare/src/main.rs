//! The second program: document 01 with requests 1 to 12 implemented on its own, beside the static library, the label
//! program and the page program.

mod big;
mod cases;
mod distance;
mod double;
mod draft;
mod drive;
mod economies;
mod edges;
mod former;
mod generate;
mod harness;
mod image;
mod label;
mod made;
mod optimum;
mod page;
mod plain;
mod process;
mod random;
mod ranges;
mod rest;
mod rules;
mod runs;
mod sheet;
mod solve;
mod trials;

use std::fs::{File, create_dir_all};
use std::path::PathBuf;
use std::process::ExitCode;
use std::time::Instant;

use drive::Drive;
use harness::{Covered, Harness, NUMBERS};
use image::Number;

const USAGE: &str = "compare [--seed N] [--count N | --long] [--only GROUP:INDEX] [--self] [--work FOLDER]
compare --label and compare --page act as the label and the page program in the current folder";
/// Random solves of a run; the other groups are in proportion.
const COUNT: u64 = 100_000;
const LONG_COUNT: u64 = 20 * COUNT;
/// From this count on a run has to have met every number of every call, every size, every nr with every n and with every
/// nx, limits that change along every N, every edge of checks 12 and 17, every way to round a table, every way to come to
/// rest, every kind of D and of optimum, all that requests 4, 6 and 7 change, and every edge of requests 9 to 12.
const COVERING_COUNT: u64 = 20_000;

struct Options {
    seed: u64,
    count: u64,
    only: Option<(String, u64)>,
    on_itself: bool,
    work: PathBuf,
}

fn options() -> Result<Options, String> {
    let mut options =
        Options { seed: 1, count: COUNT, only: None, on_itself: false, work: PathBuf::from("target/compare") };
    let mut arguments = std::env::args().skip(1);
    while let Some(argument) = arguments.next() {
        let mut value = || arguments.next().ok_or(format!("{argument} needs a value\n{USAGE}"));
        let number = |text: &str| text.parse().map_err(|_| format!("not a number: {text}\n{USAGE}"));
        match argument.as_str() {
            "--seed" => options.seed = number(&value()?)?,
            "--count" => options.count = number(&value()?)?,
            "--long" => options.count = LONG_COUNT,
            "--self" => options.on_itself = true,
            "--work" => options.work = PathBuf::from(value()?),
            "--only" => {
                let text = value()?;
                let (group, index) = text.split_once(':').ok_or(format!("not GROUP:INDEX: {text}"))?;
                options.only = Some((group.to_string(), number(index)?));
            }
            _ => return Err(USAGE.to_string()),
        }
    }
    Ok(options)
}

/// The drive under comparison, and whether it has the conversions that only tests need.
fn drive(on_itself: bool) -> Result<(Box<dyn Drive>, bool), String> {
    if on_itself {
        println!("the reference is compared with itself: this says nothing about the library");
        return Ok((Box::new(drive::Reference { rules: rules::Rules::default() }), true));
    }
    #[cfg(linked)]
    return Ok((Box::new(drive::Linked), cfg!(probe)));
    #[cfg(not(linked))]
    Err("no library is linked: set GANTRY_LIB_DIR, or give --self to try this program on itself".to_string())
}

fn main() -> ExitCode {
    let program = match std::env::args().nth(1).as_deref() {
        Some("--label") => Some(label::PROGRAM),
        Some("--page") => Some(page::PROGRAM),
        _ => None,
    };
    if let Some(program) = program {
        program.act();
        return ExitCode::SUCCESS;
    }
    match options().and_then(run) {
        Ok(true) => ExitCode::SUCCESS,
        Ok(false) => ExitCode::FAILURE,
        Err(message) => {
            eprintln!("{message}");
            ExitCode::from(2)
        }
    }
}

fn run(options: Options) -> Result<bool, String> {
    let (drive, has_conversions) = drive(options.on_itself)?;
    println!("seed {}, count {}", options.seed, options.count);
    create_dir_all(&options.work).map_err(|error| error.to_string())?;
    let place_file = File::create(options.work.join("place")).map_err(|error| error.to_string())?;
    let mut harness = Harness::new(&*drive, options.seed, Some(place_file));
    let groups = trials::groups(options.count, has_conversions, &options.work);
    match &options.only {
        None => {
            for group in &groups {
                let begun = Instant::now();
                (0..group.count).for_each(|index| trials::run(&mut harness, group, index));
                println!("{}: {} trials, {:.1} s", group.name, group.count, begun.elapsed().as_secs_f64());
            }
        }
        Some((name, index)) => {
            let group = groups.iter().find(|group| group.name == name).ok_or(format!("no group {name}"))?;
            trials::run(&mut harness, group, *index);
        }
    }
    print_numbers(&harness);
    if options.only.is_none() && options.count >= COVERING_COUNT {
        require_cover(&mut harness);
    }
    println!("compare: {} passed, {} failed", harness.passed, harness.failed);
    Ok(harness.failed == 0)
}

fn print_numbers(harness: &Harness) {
    let row = |name: &str, cells: Vec<String>| {
        let cells: String = cells.iter().map(|cell| format!("{cell:>8}")).collect();
        println!("{name:<12}{cells}");
    };
    row("number", (0..NUMBERS).map(|number| number.to_string()).collect());
    for (call, numbers) in &harness.met {
        let cell = |&count: &u64| {
            if count == 0 { "-".to_string() } else { count.to_string() }
        };
        row(call, numbers.iter().map(cell).collect());
    }
}

/// A number that a call can answer and never did was not compared.
fn require_cover(harness: &mut Harness) {
    harness.enter("cover", 0);
    let conversions: [Number; 1] = [5];
    let can: [(&str, &[Number]); 16] = [
        ("intake", &generate::INTAKE_NUMBERS),
        ("page", &generate::PAGE_NUMBERS),
        ("cold_start", &generate::COLD_START_NUMBERS),
        ("solve", &generate::SOLVE_NUMBERS),
        ("range_solve", &generate::RANGE_SOLVE_NUMBERS),
        ("make", &generate::MAKE_NUMBERS),
        ("ask", &generate::ASK_NUMBERS),
        ("commit", &generate::COMMIT_NUMBERS),
        ("new_image", &generate::NEW_IMAGE_NUMBERS),
        ("period", &generate::PERIOD_NUMBERS),
        ("done", &generate::DONE_NUMBERS),
        ("label", &generate::LABEL_NUMBERS),
        ("page_program", &generate::PAGE_PROGRAM_NUMBERS),
        ("to_word", &conversions),
        ("inward", &conversions),
        ("to_double", &[3, 5]),
    ];
    for (call, numbers) in can {
        let Some(met) = harness.met.get(call).copied() else {
            continue;
        };
        for &number in [0].iter().chain(numbers) {
            harness.check(met[number as usize] > 0, || format!("  {call} never answered {number}"));
        }
    }
    require_problems(harness);
    let stopped = trials::STOPPED.into_iter().map(|(_, edge)| edge);
    let distances = distance::EDGES.into_iter().chain(optimum::EDGES);
    for edge in edges::all().chain(trials::CHANGES).chain(stopped).chain(rest::EDGES).chain(distances) {
        let met = harness.edges.get(edge).copied().unwrap_or(0);
        println!("random solves, {edge}: {met}");
        harness.check(met > 0, || format!("  no random solve: {edge}"));
    }
    require_tables(harness);
    require_runs(harness);
    for edge in trials::range_edges() {
        let met = harness.edges.get(edge).copied().unwrap_or(0);
        println!("random range solves, {edge}: {met}");
        harness.check(met > 0, || format!("  no random range solve: {edge}"));
    }
}

/// What requests 9 to 11 are about.
fn require_runs(harness: &mut Harness) {
    let (committed, renewed) = (harness.committed.len(), harness.renewed.len());
    println!("random runs: of 33 pairs of nu and N {renewed} were new images, and {committed} of 132 heads committed");
    harness.check((committed, renewed) == (132, 33), || "  some sizes were never committed, or new".to_string());
    for edge in runs::edges() {
        let met = harness.edges.get(edge).copied().unwrap_or(0);
        println!("random runs, {edge}: {met}");
        harness.check(met > 0, || format!("  no random run: {edge}"));
    }
}

/// What rounding did to the numbers of tables, and to the numbers of sheets.
fn require_tables(harness: &mut Harness) {
    let all = edges::of_tables();
    let met = all.iter().filter(|edge| harness.tables.contains(edge)).count();
    println!("random sheets: {met} of {} ways to round a table's number", all.len());
    for edge in all {
        let met = harness.tables.contains(&edge);
        harness.check(met, || format!("  no number of a table (kind, below zero, fate): {edge:?}"));
    }
    for (_, _, edge) in trials::ROUNDED {
        let met = harness.edges.get(edge).copied().unwrap_or(0);
        println!("random sheets, {edge}: {met}");
        harness.check(met > 0, || format!("  no random sheet: {edge}"));
    }
}

fn counts((name, covered): (&'static str, &Covered)) -> (&'static str, [usize; 5]) {
    let Covered { sizes, formats, targets, inputs, changing } = covered;
    (name, [sizes.len(), formats.len(), targets.len(), inputs.len(), changing.len()])
}

fn require_problems(harness: &mut Harness) {
    for (name, covered) in [("solves", &harness.solved), ("range solves", &harness.ranged)].map(counts) {
        let [sizes, formats, targets, inputs, changing] = covered;
        println!("random accepted {name}: {sizes} of 396 sizes, {formats} of 320 pairs of b and W");
        println!("random accepted {name}: {targets} of 80 pairs of n and nr, {inputs} of 60 of nx and nr");
        println!("random accepted {name} with limits that change: {changing} of 29 pairs of nu and N above 1");
        harness
            .check(covered == [396, 320, 80, 60, 29], || format!("  {name} never had some sizes, or changing limits"));
    }
    println!("accepted pages: {} of 16 pairs of kind and mark", harness.marks.len());
    for (kind, mark) in (b'2'..=b'9').flat_map(|kind| [(kind, b'K'), (kind, b'M')]) {
        let met = harness.marks.contains(&(kind, mark));
        harness.check(met, || format!("  no page had {} on a line 0{}", mark as char, kind as char));
    }
}
