//! The program's commands beside the road from a job to a drawing: tables with names, files of instances, a
//! first plan, jobs that are too large, MPS files and the operator's card.

mod program;

use program::{good, wrong, Folder, JOB, SOLUTION, TABLE};
use std::fs;

/// A table with names goes the whole road; what the saw reads has no names, and they come back on the
/// drawing and the labels.
#[test]
fn names_come_back() {
    let folder = Folder::new("names");
    let table = folder.file("job.csv", TABLE);
    assert_eq!(good(&["model", &table], ""), good(&["model", "-"], JOB));
    let text = good(&["plan", &table, "-"], SOLUTION);
    let solution = folder.file("solution.txt", SOLUTION);
    assert_eq!(text, good(&["plan", "-", &solution], JOB));
    let output = folder.file("output.txt", reference::saw_text(text.as_bytes()));
    let boards = folder.0.join("boards");
    good(&["draw", &table, &output, boards.to_str().unwrap()], "");
    let page = fs::read_to_string(boards.join("boards.html")).unwrap();
    assert!(page.contains("<title>type 2, door; left, 3 × 3"), "{page}");
    let cuts = good(&["cuts", &table, &output], "");
    assert!(cuts.contains("type 2, door; left, 3 × 3"), "{cuts}");
    let labels = good(&["labels", &table, &output], "");
    assert!(
        labels.contains("\n2,\"door; left\",2,3,3,no,1,0,1,2,1,5,0\n"),
        "{labels}"
    );
    assert_eq!(labels.lines().count(), 6);
}

#[test]
fn the_jobs_of_an_instance_file_are_written() {
    let folder = Folder::new("jobs");
    let jobs = folder.0.join("jobs");
    let data = concat!(env!("CARGO_MANIFEST_DIR"), "/../data/002-table-1.txt");
    let told = good(&["jobs", data, jobs.to_str().unwrap(), "4", "1"], "");
    assert!(told.starts_with("128 job(s) written to "), "{told}");
    let job = fs::read_to_string(jobs.join("1.2sizes.3N.job")).unwrap();
    assert!(good(&["model", "-"], &job).contains("boards 22 by 17, 14 by 30, blade 4"));
    let said = wrong(&["model", data], "");
    assert!(
        said.contains("line 4: this is a file of instances"),
        "{said}"
    );
    // A name that would lead out of the folder writes nothing at all.
    let inside = folder.0.join("inside");
    let outside = "instance 1\nboard 9 7 1\nitem 5 4 2\ninstance ../x\nboard 9 7 1\nitem 5 4 2\n";
    let said = wrong(&["jobs", "-", inside.to_str().unwrap()], outside);
    assert!(
        said.contains("line 4: \"../x\" cannot be the name of a file"),
        "{said}"
    );
    assert!(!inside.exists() && fs::read_dir(&folder.0).unwrap().count() == 1);
}

/// Without a solver: a plan by filling strips, of a table with two sizes, a blade and items that may be
/// turned.
#[test]
fn a_first_plan_needs_no_solver() {
    let folder = Folder::new("first");
    let job = concat!(env!("CARGO_MANIFEST_DIR"), "/../examples/kitchen.csv");
    let text = good(&["first", job], "");
    let output = folder.file("output.txt", reference::saw_text(text.as_bytes()));
    let boards = folder.0.join("boards");
    let told = good(&["draw", job, &output, boards.to_str().unwrap()], "");
    assert!(told.starts_with("5 board"), "{told}");
}

/// The user's own table is not written over by a part, nor is the job itself.
#[test]
fn parts_are_not_written_over_other_files() {
    let folder = Folder::new("split-over");
    let job = include_str!("../../examples/cabinets.csv");
    let path = folder.file("job-2.csv", job);
    let said = wrong(&["split", &path, folder.0.to_str().unwrap()], "");
    assert!(said.contains("job-2.csv is there already"), "{said}");
    assert_eq!(fs::read_to_string(&path).unwrap(), job);
    assert_eq!(fs::read_dir(&folder.0).unwrap().count(), 1);
}

/// A job that is too large is parted into jobs that keep their names, and that have a model each.
#[test]
fn a_job_that_is_too_large_is_parted() {
    let folder = Folder::new("split");
    let job = concat!(env!("CARGO_MANIFEST_DIR"), "/../examples/cabinets.csv");
    let said = wrong(&["model", job], "");
    assert!(said.contains("\"office split JOB\" says which"), "{said}");
    let parts = folder.0.join("parts");
    fs::create_dir_all(&parts).unwrap();
    for (name, first) in [
        ("job-4.csv", "# By office split: part 4 of 5\nmode,2N\n"),
        ("job-5.csv", "mode,2N\nblade,4\n"),
        ("job-6.csv", "# By office split: part 6 of 6\nmode,2N\n"),
    ] {
        fs::write(parts.join(name), first).unwrap();
    }
    let told = good(&["split", job, parts.to_str().unwrap()], "");
    let mut there: Vec<_> = fs::read_dir(&parts).unwrap().collect();
    there.sort_by_key(|file| file.as_ref().unwrap().file_name());
    let there = there.into_iter().map(|file| file.unwrap().file_name());
    // Of the earlier parts the user's own table stays.
    let files = ["job-1.csv", "job-2.csv", "job-3.csv", "job-5.csv"];
    assert_eq!(there.collect::<Vec<_>>(), files);
    assert!(told.ends_with("job-3.csv written\n"), "{told}");
    for (number, name) in [(1, "side,720"), (2, "rail,564"), (3, "cleat,180")] {
        let path = parts.join(format!("job-{number}.csv"));
        assert!(fs::read_to_string(&path).unwrap().contains(name));
        good(&["model", path.to_str().unwrap()], "");
    }
    assert!(good(&["split", "-"], JOB).ends_with("No split is needed.\n"));
    // A job that needs none leaves no parts of another behind.
    good(&["split", "-", parts.to_str().unwrap()], JOB);
    assert_eq!(fs::read_dir(&parts).unwrap().count(), 1);
}

#[test]
fn a_model_is_also_written_as_mps() {
    let mps = good(&["model", "--mps", "-"], JOB);
    assert!(mps.ends_with(" PL BND x_5_2_0\nENDATA\n"), "{mps}");
    let said = wrong(&["model", "--mpx", "-"], JOB);
    assert!(said.contains("model is used otherwise"), "{said}");
}

#[test]
fn the_operators_card_is_written() {
    let folder = Folder::new("panel");
    let card = folder.0.join("card");
    let told = good(&["panel", card.to_str().unwrap()], "");
    assert!(told.ends_with("panel.pdf written\n"), "{told}");
    let pdf = fs::read(card.join("panel.pdf")).unwrap();
    assert!(pdf.starts_with(b"%PDF-1.4\n"));
    let page = fs::read_to_string(card.join("panel.html")).unwrap();
    assert!(page.contains("<h1>At the panel: the two numbers</h1>"));
}
