//! include/saw_engine.h: its refusals are those of the second implementation, its version is the kit's, and a compiler
//! takes it as C and as C++ in a host that uses them.

use std::collections::BTreeMap;
use std::path::PathBuf;
use std::process::Command;
use std::{env, fs, process};

fn file(name: &str) -> String {
    let path = format!("{}/../{name}", env!("CARGO_MANIFEST_DIR"));
    fs::read_to_string(path).unwrap()
}

/// The names and values that lines define which begin so.
fn defined(text: &str, begins: &str) -> Vec<(String, String)> {
    let lines = text.lines().filter_map(|line| line.strip_prefix(begins));
    let parts = |line: &str| {
        let mut words = line.split_ascii_whitespace();
        let name = words.next().unwrap().trim_end_matches(':').to_string();
        let value = words
            .find(|word| *word != "u32" && *word != "=")
            .unwrap_or("");
        (name, value.trim_end_matches(';').to_string())
    };
    lines.map(parts).collect()
}

/// Names of refusals by their numbers.
fn refusals(defined: Vec<(String, String)>) -> BTreeMap<usize, String> {
    let number = |(name, value): (String, String)| Some((value.parse().ok()?, name));
    defined.into_iter().filter_map(number).collect()
}

#[test]
fn refusals_have_names() {
    let reference = refusals(defined(&file("reference/src/refusal.rs"), "pub const "));
    let header = defined(&file("include/saw_engine.h"), "#define SAW_");
    let of_refusal = |(name, _): &(String, String)| reference.values().any(|known| known == name);
    let header = refusals(header.into_iter().filter(of_refusal).collect());
    assert_eq!(header, reference);
    assert_eq!(
        header.keys().copied().collect::<Vec<_>>(),
        (1..=20).collect::<Vec<_>>()
    );
}

#[test]
fn the_version_is_the_kits() {
    let header = file("include/saw_engine.h");
    let version = env!("CARGO_PKG_VERSION");
    assert!(header.contains(&format!("#define SAW_ENGINE_VERSION \"{version}\"\n")));
    let parts: Vec<usize> = version
        .split('.')
        .map(|part| part.parse().unwrap())
        .collect();
    let number = 10_000 * parts[0] + 100 * parts[1] + parts[2];
    assert!(header.contains(&format!("#define SAW_ENGINE_VERSION_NUMBER {number}\n")));
    // The second number is the last request that has a note.
    let folder = concat!(env!("CARGO_MANIFEST_DIR"), "/../docs/requests");
    let notes = fs::read_dir(folder).unwrap();
    let notes = notes.map(|note| note.unwrap().file_name().into_string().unwrap());
    let last = notes.filter_map(|note| note.split('-').next()?.parse::<usize>().ok());
    assert_eq!(Some(parts[1]), last.max());
}

/// The most instructions, in thousands, that a call takes for the greatest inputs in bench/RESULTS.md.
fn most_instructions() -> usize {
    let results = file("bench/RESULTS.md");
    let section = results.split("\n## The greatest inputs\n").nth(1).unwrap();
    let mut rows = section.split("\n## ").next().unwrap().lines();
    let cells = |row: &str| -> Vec<String> {
        let cells = row.split('|').map(|cell| cell.trim().to_string());
        cells.collect()
    };
    let head = cells(rows.find(|row| row.starts_with("| call |")).unwrap());
    let name = "engine, 1,000 instr.";
    let place = head.iter().position(|cell| cell == name).unwrap();
    let counts = rows.filter_map(|row| cells(row).get(place)?.parse().ok());
    counts.max().unwrap()
}

/// What the header says of work is what was counted, in millions rounded up; bench/run writes it.
#[test]
fn the_instructions_are_those_that_were_counted() {
    let most = most_instructions().div_ceil(1_000);
    let told = format!("none takes more than {most} million instructions");
    let header = file("include/saw_engine.h");
    assert_eq!(
        header.matches(&told).count(),
        1,
        "the header must say: {told}"
    );
    let filled_in = "s/none takes more than [0-9]* million instructions/";
    assert!(file("bench/run").contains(filled_in));
}

const HOST: &str = "#include <saw_engine.h>
#if SAW_ENGINE_VERSION_NUMBER < 700
#error
#endif
const char *version = SAW_ENGINE_VERSION;
int refused(const uint32_t *answer) {
    switch (answer[0]) {
    case SAW_ACCEPTED: return 0;
    case SAW_BUFFER_TOO_SHORT: return 2;
    default: return 1;
    }
}
";

/// What the header says of compiling: C99, and C++ where the machine has a compiler for it.
#[test]
fn a_compiler_takes_the_header() {
    let include = concat!("-I", env!("CARGO_MANIFEST_DIR"), "/../include");
    let host: PathBuf = env::temp_dir().join(format!("host-{}", process::id()));
    fs::write(&host, HOST).unwrap();
    for (compiler, standard, language) in [("cc", "-std=c99", "c"), ("c++", "-std=c++11", "c++")] {
        let output = Command::new(compiler)
            .args([standard, "-pedantic", "-Wall", "-Wextra", "-Werror"])
            .args(["-fsyntax-only", include, "-x", language])
            .arg(&host)
            .output();
        if language == "c++" && output.is_err() {
            continue;
        }
        let output = output.unwrap();
        let said = String::from_utf8_lossy(&output.stderr);
        assert!(output.status.success(), "{compiler}: {said}");
    }
    fs::remove_file(&host).unwrap();
}
