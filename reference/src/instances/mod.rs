//! Published instances: the tables transcribed in `data/`, each object size as a board, and all
//! object sizes of an instance as the sizes of one job, as jobs with names; and what the five calls
//! need to be run on each of them.

pub mod areas;
pub mod blade;
pub mod inputs;
pub mod leave;
pub mod limit_jobs;
pub mod outcome;
pub mod periods;
pub mod read;
pub mod stock;
pub mod tables;
pub mod texts;

use crate::mode::Mode;
use read::Instance;

/// A table of a source document, transcribed.
pub struct Source {
    /// Names the table within names of jobs.
    pub name: &'static str,
    /// Document and table.
    pub title: &'static str,
    pub instances: Vec<Instance>,
}

/// The words of a job, and a name that says where it is from.
#[derive(Debug, Clone, PartialEq, Eq)]
pub struct NamedJob {
    pub name: String,
    pub words: Vec<u16>,
}

/// Name, document and table, and text of each transcribed table, as they lie in `data/`.
const TEXTS: [[&str; 3]; 6] = [
    [
        "000-18",
        "document 000, Table 18",
        include_str!("../../../data/000-table-18.txt"),
    ],
    [
        "001-1",
        "document 001, Table 1",
        include_str!("../../../data/001-table-1.txt"),
    ],
    [
        "002-1",
        "document 002, Table 1",
        include_str!("../../../data/002-table-1.txt"),
    ],
    [
        "003-1",
        "document 003, Table 1",
        include_str!("../../../data/003-table-1.txt"),
    ],
    [
        "004-A.11",
        "document 004, Table A.11, period by period",
        include_str!("../../../data/004-table-a11.txt"),
    ],
    [
        "004-A.13",
        "document 004, Table A.13, period by period",
        include_str!("../../../data/004-table-a13.txt"),
    ],
];

/// All transcribed tables, in the order of the documents; then those whose instances have
/// periods once more, with all periods of an instance together.
pub fn sources() -> Vec<Source> {
    let source = |[name, title, text]: [&'static str; 3]| Source {
        name,
        title,
        instances: read::instances(text),
    };
    let mut all: Vec<Source> = TEXTS.map(source).into();
    for (index, name, title) in [
        (4, "004-A.11-all", "document 004, Table A.11, all periods"),
        (5, "004-A.13-all", "document 004, Table A.13, all periods"),
    ] {
        let instances = periods::together(&all[index].instances);
        all.push(Source {
            name,
            title,
            instances,
        });
    }
    all
}

/// The job of an instance on one of its boards, at a cost of 1, in a mode. The tables have no leave to turn and no
/// blade, so that no type has leave and the blade has no width.
pub fn job_words(instance: &Instance, board: [u16; 2], mode: Mode) -> Vec<u16> {
    job_words_with(instance, board, mode, 0, 0)
}

/// The same, with leave 1 or 0 for every type, and with a blade.
pub fn job_words_with(
    instance: &Instance,
    [width, height]: [u16; 2],
    mode: Mode,
    leave: u16,
    blade: u16,
) -> Vec<u16> {
    job_words_on(instance, &[[width, height, 1]], mode, leave, blade)
}

/// The same on boards of several sizes, each with width, height and cost.
pub fn job_words_on(
    instance: &Instance,
    sizes: &[[u16; 3]],
    mode: Mode,
    leave: u16,
    blade: u16,
) -> Vec<u16> {
    let [stages, exact] = mode.numbers();
    let [many, types] = [sizes.len(), instance.items.len()].map(|many| many as u16);
    let mut words = vec![stages, exact, many, types, blade];
    words.extend(sizes.iter().flatten());
    for &[width, height, demand] in &instance.items {
        words.extend([width, height, demand, leave]);
    }
    words
}

/// Every published instance on each of its boards in each mode, named by table, instance, board
/// and mode.
pub fn jobs() -> Vec<NamedJob> {
    let mut all = Vec::new();
    for source in sources() {
        for instance in &source.instances {
            for board in instance.boards() {
                let [width, height] = board;
                all.extend(Mode::ALL.map(|mode| NamedJob {
                    name: format!(
                        "{} {} {width}x{height} {}",
                        source.name,
                        instance.name,
                        mode.name()
                    ),
                    words: job_words(instance, board, mode),
                }));
            }
        }
    }
    all
}

/// Every published instance that has several object sizes as one job in each mode, named by table,
/// instance, number of sizes and mode.
pub fn stock_jobs() -> Vec<NamedJob> {
    let mut all = Vec::new();
    for source in stock::sources() {
        for instance in &source.instances {
            let sizes = stock::sizes(instance);
            all.extend(Mode::ALL.map(|mode| NamedJob {
                name: format!(
                    "{} {} on {} sizes {}",
                    source.name,
                    instance.name,
                    sizes.len(),
                    mode.name()
                ),
                words: job_words_on(instance, &sizes, mode, 0, 0),
            }));
        }
    }
    all
}

/// Every job of `data/`: the published instances on each of their boards and on all of them, and the
/// jobs at the limits and past them.
pub fn all_jobs() -> Vec<NamedJob> {
    let limits = limit_jobs::limit_jobs().into_iter();
    let mut all = jobs();
    all.extend(stock_jobs());
    all.extend(limits.map(|limit| limit.job));
    all
}
