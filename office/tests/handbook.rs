//! Every example of docs/FORMAT.md, run by the second implementation, or by the programs `saw` and `fold` of the
//! folder that PROGRAMS names: the answers, the listings, and an explanation of each refusal.

use office::answer::refusal;
use office::explain::explain;
use std::collections::HashMap;
use std::io::Write;
use std::path::Path;
use std::process::{Command, Stdio};
use std::{env, fs};

/// A marked block: the words of its mark and its lines.
struct Block {
    mark: Vec<String>,
    lines: Vec<String>,
}

/// A text of the handbook, and whether it is for the fold program.
#[derive(Clone)]
struct Example {
    lines: Vec<String>,
    fold: bool,
}

impl Example {
    fn text(&self) -> String {
        self.lines.iter().map(|line| format!("{line}\n")).collect()
    }

    fn answer(&self) -> String {
        let text = self.text();
        let answer = match (env::var_os("PROGRAMS"), self.fold) {
            (Some(folder), fold) => {
                let name = if fold { "fold" } else { "saw" };
                answer_of(&Path::new(&folder).join(name), &[], text.as_bytes())
            }
            (None, true) => reference::fold_text(text.as_bytes()),
            (None, false) => reference::saw_text(text.as_bytes()),
        };
        String::from_utf8(answer).unwrap()
    }
}

/// What a program writes with these arguments when it reads a text.
fn answer_of(program: &Path, arguments: &[&str], text: &[u8]) -> Vec<u8> {
    let mut child = Command::new(program)
        .args(arguments)
        .stdin(Stdio::piped())
        .stdout(Stdio::piped())
        .spawn()
        .unwrap();
    child.stdin.take().unwrap().write_all(text).unwrap();
    child.wait_with_output().unwrap().stdout
}

/// The marked blocks of the handbook, in order.
fn blocks() -> Vec<Block> {
    let path = concat!(env!("CARGO_MANIFEST_DIR"), "/../docs/FORMAT.md");
    let handbook = fs::read_to_string(path).unwrap();
    let mut blocks: Vec<Block> = Vec::new();
    let mut inside = false;
    for line in handbook.lines() {
        match (line.strip_prefix("```"), inside) {
            (Some(mark), false) => {
                let mark = mark.split_ascii_whitespace().map(str::to_string).collect();
                blocks.push(Block {
                    mark,
                    lines: Vec::new(),
                });
                inside = true;
            }
            (Some(_), true) => inside = false,
            (None, true) => blocks.last_mut().unwrap().lines.push(line.to_string()),
            (None, false) => {}
        }
    }
    assert!(!inside, "a block is not closed");
    blocks
}

/// A text with some of its lines changed: "line 6:" and the line, or "line 6 left out".
fn changed(base: &Example, changes: &[String]) -> Example {
    let mut lines: Vec<Option<String>> = base.lines.iter().cloned().map(Some).collect();
    for change in changes {
        let (head, line) = match (change.split_once(':'), change.strip_suffix(" left out")) {
            (Some((head, line)), None) => (head, Some(line.to_string())),
            (None, Some(head)) => (head, None),
            _ => panic!("not a change: {change}"),
        };
        let number: usize = head.strip_prefix("line ").unwrap().parse().unwrap();
        lines[number - 1] = line;
    }
    Example {
        lines: lines.into_iter().flatten().collect(),
        fold: base.fold,
    }
}

/// The texts of the handbook by name.
fn examples(blocks: &[Block]) -> HashMap<String, Example> {
    let mut examples: HashMap<String, Example> = HashMap::new();
    for Block { mark, lines } in blocks {
        let words: Vec<&str> = mark.iter().map(String::as_str).collect();
        let (name, example) = match words[..] {
            [kind @ ("saw" | "fold"), name] => (
                name,
                Example {
                    lines: lines.clone(),
                    fold: kind == "fold",
                },
            ),
            ["change", name, "of", base] => (name, changed(&examples[base], lines)),
            _ => continue,
        };
        assert!(
            examples.insert(name.to_string(), example).is_none(),
            "{name} stands twice"
        );
    }
    examples
}

#[test]
fn every_example_is_answered_as_printed() {
    let blocks = blocks();
    let examples = examples(&blocks);
    let mut answered = Vec::new();
    for Block { mark, lines } in blocks.iter().filter(|block| block.mark[0] == "answer") {
        let expected: String = lines.iter().map(|line| format!("{line}\n")).collect();
        assert_eq!(examples[&mark[1]].answer(), expected, "{}", mark[1]);
        answered.push(mark[1].clone());
    }
    answered.sort();
    let mut names: Vec<String> = examples.into_keys().collect();
    names.sort();
    assert_eq!(answered, names, "each example has one answer");
    assert!(names.len() >= 20);
}

#[test]
fn every_block_is_marked() {
    for block in blocks() {
        let known = ["saw", "fold", "change", "answer", "listing"];
        assert!(known.contains(&block.mark[0].as_str()), "{:?}", block.mark);
    }
}

#[test]
fn every_refusal_but_5_has_an_example_and_an_explanation() {
    let mut given = [false; 21];
    for example in examples(&blocks()).values() {
        if let Ok([number, place]) = refusal(&example.answer()) {
            given[number] = true;
            let told = explain(example.text().as_bytes(), number, place).unwrap();
            assert!(told.starts_with(&format!("Refusal {number}, ")), "{told}");
        }
    }
    let without: Vec<usize> = (1..=20).filter(|&number| !given[number]).collect();
    assert_eq!(without, [5]);
}

/// The job of a text as words.
fn job_words(example: &Example) -> Vec<u16> {
    let mut words = Vec::new();
    for line in &example.lines {
        let numbers = line
            .split_ascii_whitespace()
            .map(|word| word.parse().unwrap());
        let numbers: Vec<u16> = numbers.collect();
        match numbers[0] {
            1 => words.extend(&numbers[1..]),
            10 | 2 => words.extend(&numbers[2..]),
            _ => {}
        }
    }
    words
}

/// The listing of a job by the second implementation, as the handbook prints it.
fn listing(example: &Example) -> Vec<String> {
    let [mut plates, mut cuts] = [vec![0; 8_192], vec![0; 32_768]];
    let job = job_words(example);
    let listed = reference::list(&job, &mut plates, &mut cuts).unwrap();
    let plate = |(number, words): (usize, &[u16])| {
        let cost = match words[3] {
            0 => String::new(),
            cost => format!(", cost {cost}"),
        };
        format!(
            "plate {number}: {} by {}, stage {}{cost}",
            words[0], words[1], words[2]
        )
    };
    let cut = |(number, words): (usize, &[u16])| {
        let [plate, item, top, right] = words else {
            panic!()
        };
        format!(
            "cut {}: plate {plate}, item {}, turn {}, top {top}, right {right}",
            number + 1,
            item / 2,
            item % 2
        )
    };
    let plates = plates
        .chunks(4)
        .enumerate()
        .map(plate)
        .take(usize::from(job[2]) + listed.residuals as usize);
    let cuts = cuts
        .chunks(4)
        .enumerate()
        .map(cut)
        .take(listed.cuts as usize);
    plates.chain(cuts).collect()
}

/// The command that goes from layouts to boards: the saw is given a text that it accepts, and lays the boards out.
#[test]
fn layouts_go_to_the_saw_in_one_command() {
    let path = concat!(env!("CARGO_MANIFEST_DIR"), "/../docs/FORMAT.md");
    let handbook = fs::read_to_string(path).unwrap();
    let is_command = |line: &&str| line.trim().starts_with("{ grep ");
    let command = handbook.lines().find(is_command).unwrap().trim();
    let examples = examples(&blocks());
    let [layouts, plan] = [examples["fold-a"].text(), examples["fold-a"].answer()];
    let folder = env::temp_dir().join(format!("office-fold-{}", std::process::id()));
    fs::create_dir_all(&folder).unwrap();
    fs::write(folder.join("layouts.txt"), &layouts).unwrap();
    fs::write(folder.join("plan.txt"), &plan).unwrap();
    // The fold program stands for its answer, the saw for the text that it is given.
    let script =
        format!("fold() {{ cmp -s - layouts.txt && cat plan.txt; }}\nsaw() {{ cat; }}\n{command}");
    let output = Command::new("sh")
        .args(["-c", &script])
        .current_dir(&folder)
        .output()
        .unwrap();
    fs::remove_dir_all(&folder).unwrap();
    let job: String = layouts
        .lines()
        .take(4)
        .map(|line| format!("{line}\n"))
        .collect();
    assert_eq!(
        String::from_utf8(output.stdout).unwrap(),
        job.clone() + &plan
    );
    let answer = reference::saw_text((job + &plan).as_bytes());
    assert!(answer.ends_with(b"        8        2        0        1        0\n"));
}

/// The handbook says that arguments are not looked at, and so it is.
#[test]
fn the_programs_take_no_arguments() {
    let path = concat!(env!("CARGO_MANIFEST_DIR"), "/../docs/FORMAT.md");
    let handbook = fs::read_to_string(path).unwrap();
    assert!(handbook.contains("Neither takes arguments"));
    let Some(folder) = env::var_os("PROGRAMS") else {
        return;
    };
    let examples = examples(&blocks());
    for (program, name) in [("saw", "job-a"), ("fold", "fold-a")] {
        let program = Path::new(&folder).join(program);
        let text = examples[name].text();
        let answer = answer_of(&program, &["--help", "job.txt"], text.as_bytes());
        assert_eq!(String::from_utf8(answer).unwrap(), examples[name].answer());
    }
}

/// The README's first command: its answer stands there, and the text is the handbook's.
#[test]
fn the_readme_shows_what_the_first_command_prints() {
    let file = |name: &str| {
        let path = format!("{}/../{name}", env!("CARGO_MANIFEST_DIR"));
        fs::read_to_string(path).unwrap()
    };
    let [readme, text] = [file("README.md"), file("examples/a.txt")];
    assert!(readme.contains("target/bin/saw <examples/a.txt"));
    let example = &examples(&blocks())["job-a"];
    assert_eq!(text, example.text());
    let printed: String = example
        .answer()
        .lines()
        .map(|line| format!("{line}\n"))
        .collect();
    assert!(readme.contains(&printed), "{printed}");
}

#[test]
fn every_refusal_stands_in_the_handbook_and_on_the_card() {
    let read = |name: &str| {
        let path = format!("{}/../docs/{name}", env!("CARGO_MANIFEST_DIR"));
        fs::read_to_string(path).unwrap()
    };
    let [handbook, card] = ["FORMAT.md", "PANEL.md"].map(read);
    for number in 1..=20 {
        assert_eq!(
            card.matches(&format!("\n| **{number}** |")).count(),
            1,
            "{number}"
        );
        assert!(handbook.contains(&format!("\n| {number} | ")), "{number}");
    }
}

#[test]
fn the_worked_listings_are_right() {
    let blocks = blocks();
    let examples = examples(&blocks);
    let listings: Vec<&Block> = blocks
        .iter()
        .filter(|block| block.mark[0] == "listing")
        .collect();
    assert_eq!(listings.len(), 5);
    for block in listings {
        assert_eq!(block.lines, listing(&examples[&block.mark[1]]));
    }
}
