//! The office program: its commands, files and errors.

mod commands;

use office::answer::{refusal, Answer};
use office::check::{check, Verdict};
use office::draw::{page, BEGIN};
use office::explain::explain;
use office::job::Job;
use office::listing::Listing;
use office::patterns::patterns;
use office::remains::{self, Remains};
use office::solution::{Names, Solution};
use office::{cut_list, help, list, model, plan, prices, totals};
use std::ffi::{OsStr, OsString};
use std::io::{self, Read, Write};
use std::process::ExitCode;
use std::{env, fs};

fn main() -> ExitCode {
    let given = env::args_os().skip(1).map(OsString::into_string);
    let arguments: Vec<String> = match given.collect() {
        Ok(arguments) => arguments,
        Err(word) => return not_utf_8(&word),
    };
    let words: Vec<&str> = arguments.iter().map(String::as_str).collect();
    if let ["check", files @ ..] = &words[..] {
        if !asks_for_help(files) {
            return checked(files);
        }
    }
    match run(&words) {
        Ok(output) => written(&output),
        Err(fault) => {
            eprintln!("office: {fault}");
            ExitCode::FAILURE
        }
    }
}

/// Says that an argument is not in UTF-8, as the name of a file may be. Of a check that is status 2, since 1
/// says that the saw refused.
fn not_utf_8(word: &OsStr) -> ExitCode {
    let word = word.to_string_lossy();
    eprintln!("office: the argument {word} is not in UTF-8: give the file another name");
    let checks = env::args_os()
        .nth(1)
        .is_some_and(|command| command == "check");
    ExitCode::from(if checks { 2 } else { 1 })
}

/// Writes the result. A reader that has gone away is no fault of ours.
fn written(output: &str) -> ExitCode {
    match io::stdout().lock().write_all(output.as_bytes()) {
        Err(fault) if fault.kind() != io::ErrorKind::BrokenPipe => {
            eprintln!("office: cannot write the result: {fault}");
            ExitCode::FAILURE
        }
        _ => ExitCode::SUCCESS,
    }
}

/// Whether the words after a command ask for its use.
fn asks_for_help(words: &[&str]) -> bool {
    words.contains(&"--help") || words.contains(&"-h")
}

/// Whether the words at the end of a command may be the two lengths of a usable offcut, or none are given.
fn two_or_none(words: &[&str]) -> bool {
    matches!(words, [] | [_, _]) && !words.contains(&"--csv")
}

/// Does what the arguments ask for.
fn run(words: &[&str]) -> Result<String, String> {
    match words {
        ["--help" | "-h" | "help"] => Ok(help::HELP.into()),
        ["--version" | "-V"] => Ok(format!("office {}\n", env!("CARGO_PKG_VERSION"))),
        [command, rest @ ..] if asks_for_help(rest) => help::of_command(command)
            .map(str::to_string)
            .ok_or_else(|| unknown(command)),
        ["list", job] => write_list(job, list::text),
        ["list", job, "--csv", "plates"] => write_list(job, list::csv_of_plates),
        ["list", job, "--csv", "cuts"] => write_list(job, list::csv_of_cuts),
        ["model", job] => write_model(job),
        ["model", "--mps", job] | ["model", job, "--mps"] => commands::mps(job),
        ["plan", job, solution] => write_plan(job, solution),
        ["first", job] => commands::first(job),
        ["prices", text] => write_prices(text, None),
        ["prices", text, solution] => write_prices(text, Some(solution)),
        ["draw", job, output, folder, lengths @ ..] if two_or_none(lengths) => {
            draw(job, output, folder, remains::lengths(lengths)?)
        }
        ["cuts", job, output, "--csv", lengths @ ..]
        | ["cuts", job, output, lengths @ .., "--csv"]
            if two_or_none(lengths) =>
        {
            write_cuts(job, output, remains::lengths(lengths)?, true)
        }
        ["cuts", job, output, lengths @ ..] if two_or_none(lengths) => {
            write_cuts(job, output, remains::lengths(lengths)?, false)
        }
        ["split", job] => commands::split(job, None),
        ["split", job, folder] => commands::split(job, Some(folder)),
        ["labels", job, output] => commands::labels(job, output),
        ["jobs", data, folder, rest @ ..] if rest.len() <= 2 => commands::jobs(data, folder, rest),
        ["panel", folder] => commands::panel(folder),
        ["explain", text, output] => explain_output(text, output),
        ["explain", text, number, place] => explain_numbers(text, number, place),
        [] => Err(format!("a command is needed\n\n{}", help::HELP)),
        [command, ..] => Err(used_otherwise(command)),
    }
}

/// What to say of a command with other words than it takes.
fn used_otherwise(command: &str) -> String {
    match help::of_command(command) {
        Some(use_of) => format!("{command} is used otherwise\n\n{use_of}"),
        None => unknown(command),
    }
}

/// What to say of a command that there is not.
fn unknown(command: &str) -> String {
    format!(
        "there is no command {command}; they are {} (office --help)",
        help::COMMANDS.join(", ")
    )
}

/// The bytes of a file, or of standard input.
fn bytes(path: &str) -> Result<Vec<u8>, String> {
    let read = match path {
        "-" => {
            let mut all = Vec::new();
            io::stdin().lock().read_to_end(&mut all).map(|_| all)
        }
        _ => fs::read(path),
    };
    read.map_err(|fault| format!("cannot read {}: {fault}", shown(path)))
}

/// A file as errors name it.
fn shown(path: &str) -> &str {
    match path {
        "-" => "standard input",
        _ => path,
    }
}

/// An error in a file.
fn in_file(path: &str) -> impl Fn(String) -> String + '_ {
    move |fault| format!("{}: {fault}", shown(path))
}

/// The text of a file, or of standard input.
fn text(path: &str) -> Result<String, String> {
    String::from_utf8(bytes(path)?).map_err(|_| format!("{} is not a text in UTF-8", shown(path)))
}

/// The job at the beginning of a text, and its listing; errors name the file.
fn listed(path: &str, text: &str) -> Result<(Job, Listing), String> {
    let job = Job::read(text).map_err(in_file(path))?;
    let listing = Listing::of(&job).map_err(in_file(path))?;
    Ok((job, listing))
}

/// A solver's solution for a job. Where the solver has not shown that it is the best one, that is said,
/// with what follows from it.
fn solved(path: &str, job: &Job, listing: &Listing, follows: &str) -> Result<Solution, String> {
    let solution = Solution::read(&text(path)?, &Names::of(job, listing)).map_err(in_file(path))?;
    if let Some(unproved) = &solution.unproved {
        warn(path, &format!("{}: {follows}", unproved.words()));
    }
    Ok(solution)
}

/// Says something of a file that is no fault, on standard error.
fn warn(path: &str, told: &str) {
    eprintln!("office: warning: {}: {told}", shown(path));
}

fn write_list(path: &str, written: fn(&Job, &Listing) -> String) -> Result<String, String> {
    let (job, listing) = listed(path, &text(path)?)?;
    Ok(written(&job, &listing))
}

fn write_model(path: &str) -> Result<String, String> {
    let (job, listing) = listed(path, &text(path)?)?;
    Ok(model::lp(&job, &listing))
}

fn write_plan(path: &str, solution: &str) -> Result<String, String> {
    let (job, listing) = listed(path, &text(path)?)?;
    let follows = "there may be a cheaper plan";
    let solution_of = solved(solution, &job, &listing, follows)?;
    let counts = plan::counts(&listing, &solution_of).map_err(in_file(solution))?;
    plan::accepted(&job, &listing, &counts).map_err(in_file(solution))?;
    eprintln!(
        "office: {} board(s) at a cost of {}",
        plan::boards(&listing, &counts),
        plan::cost(&job, &listing, &counts)
    );
    Ok(job.text() + &plan::lines(&listing, &counts))
}

fn write_prices(path: &str, solution: Option<&str>) -> Result<String, String> {
    let sent = text(path)?;
    let (job, listing) = listed(path, &sent)?;
    if !plan::has_lines(&sent, &job) {
        let told = "a text with a plan, lines 3, is needed, as \"office plan\" or \"office first\" writes it";
        return Err(in_file(path)(told.into()));
    }
    let counts = plan::of_text(&sent, &job, &listing).map_err(in_file(path))?;
    plan::accepted(&job, &listing, &counts).map_err(in_file(path))?;
    let prices = match solution {
        Some(file) => {
            let follows = "its dual prices may show less than they could";
            let solution = solved(file, &job, &listing, follows)?;
            let duals = prices::duals(&job, &solution).map_err(in_file(file))?;
            prices::of_duals(&job, &listing, &duals).unwrap_or_else(|| {
                let most = duals.iter().copied().fold(0.0, f64::max);
                let told = format!("its dual prices, up to {most:e}, show nothing of the cost");
                warn(file, &(told + "; prices by area are written"));
                prices::by_area(&job, &listing)
            })
        }
        None => prices::by_area(&job, &listing),
    };
    let [sum, denominator] = [prices.sum(&job), prices.denominator];
    eprintln!(
        "office: a cost of at least {}, by {sum}/{denominator}",
        sum.div_ceil(denominator)
    );
    if sum == 0 {
        warn(path, prices::NOTHING_SHOWN);
    }
    Ok(job.text() + &plan::lines(&listing, &counts) + &prices.lines(listing.sizes))
}

/// The job, the saw's answer to it, and what remains of the boards.
fn answered(
    path: &str,
    output: &str,
    lengths: [usize; 2],
) -> Result<(Job, Answer, Remains), String> {
    let job = Job::read(&text(path)?).map_err(in_file(path))?;
    let answer = Answer::read(&text(output)?, &job).map_err(in_file(output))?;
    let remains = Remains::of(&job, &answer, lengths).map_err(in_file(output))?;
    Ok((job, answer, remains))
}

fn write_cuts(path: &str, output: &str, lengths: [usize; 2], csv: bool) -> Result<String, String> {
    let (job, answer, remains) = answered(path, output, lengths)?;
    let patterns = patterns(&answer, &remains);
    Ok(match csv {
        true => cut_list::csv(&job, &patterns),
        false => {
            let totals = totals::text(&job, &answer, &remains, patterns.len());
            format!("{totals}\n{}", cut_list::text(&job, &patterns))
        }
    })
}

fn draw(path: &str, output: &str, folder: &str, lengths: [usize; 2]) -> Result<String, String> {
    let (job, answer, remains) = answered(path, output, lengths)?;
    let files = page(&job, &answer, &remains);
    for (name, content) in &files {
        commands::write(folder, name, content)?;
    }
    // The last file is the page.
    let patterns = files.len() - 1;
    commands::remove_later(folder, ["pattern", "svg"], patterns, BEGIN)?;
    // So an earlier kit named a picture of each board.
    commands::remove_later(folder, ["board", "svg"], 0, BEGIN)?;
    let totals = totals::text(&job, &answer, &remains, patterns);
    Ok(format!("{totals}\nopen {folder}/boards.html\n"))
}

/// Checks an output. The status is the verdict, and 2 also where there is nothing to check.
fn checked(files: &[&str]) -> ExitCode {
    let verdict = match files {
        [output] => bytes(output).map(|output| check(None, &output)),
        [text, output] => bytes(text)
            .and_then(|text| Ok((text, bytes(output)?)))
            .map(|(text, output)| check(Some(&text), &output)),
        _ => Err(used_otherwise("check")),
    };
    let verdict = verdict.unwrap_or_else(Verdict::NoAnswer);
    match &verdict {
        Verdict::Accepted(told) => drop(writeln!(io::stdout(), "{told}")),
        _ => eprintln!("office: {}", verdict.words()),
    }
    ExitCode::from(verdict.status())
}

fn explain_output(path: &str, output: &str) -> Result<String, String> {
    let [number, place] = refusal(&text(output)?).map_err(in_file(output))?;
    explained(path, number, place)
}

fn explain_numbers(path: &str, number: &str, place: &str) -> Result<String, String> {
    let read = |word: &str| word.parse().map_err(|_| format!("{word} is not a number"));
    explained(path, read(number)?, read(place)?)
}

fn explained(path: &str, number: usize, place: usize) -> Result<String, String> {
    explain(&bytes(path)?, number, place).map(|told| told + "\n")
}
