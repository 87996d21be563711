//! The report: a table of all calls on the greatest inputs, and one of how they grow.

use crate::count::{instructions, Counted};
use crate::subjects::{
    by_cuts, input, BLADE, CUTS, GREATEST, LINES, OFFCUTS, PIECES, PRICES, SIZES,
};
use crate::task::{Call, Side};
use crate::time::{seconds, ROUNDS};

/// Numbers of cuts at which growth is looked at.
const GROWTH: [usize; 8] = [100, 200, 400, 800, 1_600, 3_200, 5_000, 8_192];

/// What a call costs, by the engine and by the reference.
struct Cost {
    seconds: [f64; 2],
    counted: [Option<Counted>; 2],
}

impl Cost {
    fn of(call: Call, name: &str) -> Cost {
        eprintln!("{}, {name}", call.name());
        Cost {
            seconds: seconds(call, &input(call, name)),
            counted: [Side::Engine, Side::Reference].map(|side| instructions(side, call, name)),
        }
    }

    /// Engine to reference, in time.
    fn of_times(&self) -> f64 {
        self.seconds[0] / self.seconds[1]
    }

    /// Engine to reference, in instructions.
    fn of_instructions(&self) -> Option<f64> {
        let [Some(engine), Some(reference)] = &self.counted else {
            return None;
        };
        Some(engine.all as f64 / reference.all as f64)
    }

    /// Whether the goal is met, at most 1.0 in both; if not, where most of the engine's instructions are.
    fn remark(&self) -> String {
        let instructions = self.of_instructions().unwrap_or(0.0);
        if self.of_times() <= 1.0 && instructions <= 1.0 {
            return "met".to_string();
        }
        match &self.counted[0] {
            None => "**above**".to_string(),
            Some(counted) => format!(
                "**above**: {} % in `{}`",
                100 * counted.in_function / counted.all.max(1),
                counted.function
            ),
        }
    }
}

/// The calls and the names of their inputs.
fn rows() -> Vec<(Call, &'static str)> {
    let mut rows = Vec::new();
    for call in Call::ALL {
        let more = match call {
            Call::TestPlan | Call::TestPrices => vec![SIZES],
            Call::List => vec![BLADE, SIZES],
            Call::Unfold => [&PIECES[..], &[OFFCUTS, BLADE, SIZES]].concat(),
            Call::Fold => [&PIECES[..], &[BLADE, SIZES]].concat(),
            Call::SawText => vec![LINES, PRICES, CUTS],
            Call::FoldText => vec![LINES, CUTS],
        };
        rows.extend(GREATEST.into_iter().chain(more).map(|name| (call, name)));
    }
    rows
}

/// Writes the report to standard output.
pub fn write(date: &str) {
    println!("# The engine beside the reference\n");
    println!(
        "{date}, x86-64. Both are built for release and run in one process, in turn; a time is that of the \
         processor, the best of {ROUNDS} rounds. Instructions are those of one call, counted by callgrind. A ratio \
         is the engine's by the reference's; the goal is at most 1.0 in both.\n"
    );
    write_largest();
    write_reading();
    write_growth();
}

fn write_largest() {
    println!("## The greatest inputs\n");
    println!(
        "`limits ..` are jobs of [data/limits](../data/limits/README.md): `both` the greatest listings, of 2,047 \
         residual types and 8,192 cuts, with plans of 4,000 pieces; with a blade of 4 it has 1,813 and 7,501 in 3N. \
         The others have a blade of no width. `limits sizes 3N ..` has six sizes, of which one is cut, and 2,042 residual types; the others have one size. `8,000 offcuts` is a plan of 4,000 boards, each with two pieces left over. \
         `99,999 lines` are the longest texts: 7,299,864 bytes of a saw text, in lines 3 that show their plates, and 9,099,792 of a fold text.\n"
    );
    println!(
        "| call | input | engine, µs | reference, µs | ratio | engine, 1,000 instr. | reference, 1,000 instr. | ratio | goal: at most 1.0 |"
    );
    println!("|---|---|--:|--:|--:|--:|--:|--:|---|");
    for (call, name) in rows() {
        let cost = Cost::of(call, name);
        let [engine, reference] = cost.seconds.map(|seconds| seconds * 1e6);
        let thousands = (cost.counted.each_ref())
            .map(|counted| shown(counted.as_ref().map(|counted| counted.all as f64 / 1e3), 0));
        println!(
            "| {} | {name} | {engine:.0} | {reference:.0} | {:.2} | {} | {} | {} | {} |",
            call.name(),
            cost.of_times(),
            thousands[0],
            thousands[1],
            shown(cost.of_instructions(), 2),
            cost.remark(),
        );
    }
}

/// Texts of which nearly all the work is to read their columns.
fn write_reading() {
    println!("\n## Reading\n");
    println!("Instructions for each byte of the longest texts, mostly blanks, and of the longest price list.\n");
    println!("| call | input | bytes | engine | reference |");
    println!("|---|---|--:|--:|--:|");
    let texts = [
        (Call::SawText, LINES),
        (Call::SawText, PRICES),
        (Call::FoldText, LINES),
    ];
    for (call, name) in texts {
        let bytes = input(call, name).text.len();
        let each = [Side::Engine, Side::Reference].map(|side| {
            let counted = instructions(side, call, name);
            shown(counted.map(|counted| counted.all as f64 / bytes as f64), 1)
        });
        println!(
            "| {} | {name} | {bytes} | {} | {} |",
            call.name(),
            each[0],
            each[1]
        );
    }
}

fn write_growth() {
    println!("\n## Growth\n");
    println!("Jobs of `data/` with about {GROWTH:?} cuts: the engine's time in ns for each cut, and in brackets the ratio.\n");
    let calls = &Call::ALL[..5];
    let names: Vec<&str> = calls.iter().map(|call| call.name()).collect();
    println!("| job | plate types | cuts | {} |", names.join(" | "));
    println!("|---|--:|--:|{}", "--:|".repeat(calls.len()));
    for job in by_cuts(&GROWTH) {
        let cells = calls.iter().map(|&call| {
            eprintln!("{}, {}", call.name(), job.name);
            let [engine, reference] = seconds(call, &input(call, &job.name));
            let each = engine * 1e9 / job.cuts as f64;
            format!("{each:.0} ({:.2})", engine / reference)
        });
        let cells: Vec<String> = cells.collect();
        println!(
            "| {} | {} | {} | {} |",
            job.name,
            job.plate_types,
            job.cuts,
            cells.join(" | ")
        );
    }
}

/// A number with so many digits after the point, or a dash.
fn shown(number: Option<f64>, digits: usize) -> String {
    number.map_or("-".to_string(), |number| format!("{number:.digits$}"))
}
