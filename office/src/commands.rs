//! Commands beside the road from a job to a drawing.

use crate::{answered, in_file, listed, text};
use office::columns::whole;
use office::job::{csv, Job, MOST_BLADE};
use office::{card, first, instances, labels, mps, plan, remains, split};
use std::fs::{self, File};
use std::io::Read;
use std::path::Path;

/// The path of a file in a folder. A folder without a name, as of a variable that is not set, is an error, and
/// not the uppermost one.
fn path_in(folder: &str, name: &str) -> Result<String, String> {
    match folder {
        "" => Err("the folder has no name; a dot stands for the one that you are in".into()),
        _ => Ok(format!("{folder}/{name}")),
    }
}

/// Writes a file into a folder, which is made if it is not there.
pub fn write(folder: &str, name: &str, content: impl AsRef<[u8]>) -> Result<(), String> {
    let path = path_in(folder, name)?;
    fs::create_dir_all(folder)
        .map_err(|fault| format!("cannot make the folder {folder}: {fault}"))?;
    fs::write(&path, content).map_err(|fault| format!("cannot write {path}: {fault}"))
}

/// Removes files with numbers after the last, NAME-4.END and so on, which the kit wrote into the folder
/// earlier. One that begins otherwise than the kit's own is someone else's, and stays.
pub fn remove_later(
    folder: &str,
    [name, end]: [&str; 2],
    last: usize,
    begin: &str,
) -> Result<(), String> {
    for number in last + 1.. {
        let path = path_in(folder, &format!("{name}-{number}.{end}"))?;
        if !Path::new(&path).is_file() {
            break;
        }
        if begins(&path, begin) {
            fs::remove_file(&path).map_err(|fault| format!("cannot remove {path}: {fault}"))?;
        }
    }
    Ok(())
}

/// Whether a file begins so.
fn begins(path: &str, begin: &str) -> bool {
    let mut first = vec![0; begin.len()];
    let read = File::open(path).and_then(|mut file| file.read_exact(&mut first));
    read.is_ok() && first == begin.as_bytes()
}

/// The model as an MPS file.
pub fn mps(path: &str) -> Result<String, String> {
    let (job, listing) = listed(path, &text(path)?)?;
    Ok(mps::mps(&job, &listing))
}

/// The text of a plan that needs no solver.
pub fn first(path: &str) -> Result<String, String> {
    let (job, listing) = listed(path, &text(path)?)?;
    let counts = first::counts(&job).map_err(in_file(path))?;
    eprintln!(
        "office: {} board(s) at a cost of {}, by filling strips; a solver may find a cheaper plan",
        plan::boards(&listing, &counts),
        plan::cost(&job, &listing, &counts)
    );
    Ok(job.text() + &plan::lines(&listing, &counts))
}

/// A row for each piece of the saw's output.
pub fn labels(path: &str, output: &str) -> Result<String, String> {
    let (job, answer, _) = answered(path, output, remains::LEAST)?;
    Ok(labels::csv(&job, &answer))
}

/// The jobs of a file of instances, as files of a folder.
pub fn jobs(path: &str, folder: &str, words: &[&str]) -> Result<String, String> {
    let number = |place: usize, name: &str, most| match words.get(place) {
        None => Ok(0),
        Some(word) => match whole(word) {
            Ok(number) if number <= most => Ok(number),
            _ => Err(format!("{name} is {word}; it must be from 0 to {most}")),
        },
    };
    let [blade, leave] = [number(0, "BLADE", MOST_BLADE)?, number(1, "LEAVE", 1)?];
    let found = instances::jobs(&text(path)?, blade, leave == 1).map_err(in_file(path))?;
    for named in &found.jobs {
        write(folder, &format!("{}.job", named.name), named.job.text())?;
    }
    Ok(format!(
        "{} job(s) written to {folder}, {} left out, since an item does not fit or there are more than 40 types\n",
        found.jobs.len(),
        found.left_out
    ))
}

/// How the tables begin into which a job is parted.
const PART: &str = "# By office split: part ";

/// What makes a job large, and the jobs into which it can be parted, as tables of a folder.
pub fn split(path: &str, folder: Option<&&str>) -> Result<String, String> {
    let job = Job::read_large(&text(path)?).map_err(in_file(path))?;
    let (mut told, parts) = split::report(&job);
    let Some(folder) = folder else {
        return Ok(told);
    };
    let parts = parts.unwrap_or_default();
    not_over(folder, parts.len())?;
    for (number, types) in (1..).zip(&parts) {
        let name = format!("job-{number}.csv");
        let first = format!("{PART}{number} of {}\n", parts.len());
        write(folder, &name, first + &csv(&split::part(&job, types)))?;
        told.push_str(&format!("{folder}/{name} written\n"));
    }
    remove_later(folder, ["job", "csv"], parts.len(), PART)?;
    Ok(told)
}

/// An error if a part would be written over a file that is not a part: the user's own table, which may be the
/// very job.
fn not_over(folder: &str, parts: usize) -> Result<(), String> {
    for number in 1..=parts {
        let path = path_in(folder, &format!("job-{number}.csv"))?;
        if Path::new(&path).exists() && !begins(&path, PART) {
            return Err(format!(
                "{path} is there already, and is no part by office split: take another folder"
            ));
        }
    }
    Ok(())
}

/// The operator's card, as files of a folder.
pub fn panel(folder: &str) -> Result<String, String> {
    for (name, content) in card::files()? {
        write(folder, name, content)?;
    }
    Ok(format!(
        "{folder}/panel.html and {folder}/panel.pdf written\n"
    ))
}
