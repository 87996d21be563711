//! The listing, written a second time and plainly from document 01, "Plates and cuts", and from
//! document 02, One, Four and Six: over job words, with every lookup a search of the whole list.

pub type Plate = [u16; 3];
type Cut = [u16; 4];

/// The sizes' words of a job's words: W, H, cost of each.
pub fn sizes(job: &[u16]) -> Vec<[u16; 3]> {
    let words = &job[5..5 + 3 * usize::from(job[2])];
    words
        .chunks(3)
        .map(|size| size.try_into().unwrap())
        .collect()
}

/// The item types' words of a job's words.
pub fn items(job: &[u16]) -> &[u16] {
    &job[5 + 3 * usize::from(job[2])..]
}

/// Plates as records of four words: the cost is the size's, and 0 for residual types.
pub fn plate_words(job: &[u16], plates: &[Plate]) -> Vec<u16> {
    let sizes = sizes(job);
    let mut words = Vec::new();
    for (number, plate) in plates.iter().enumerate() {
        words.extend(plate);
        words.push(sizes.get(number).map_or(0, |size| size[2]));
    }
    words
}

/// Whether an item of these sides may be cut from the plate.
fn may_cut(job: &[u16], [w, h, stage]: Plate, [wi, hi]: [u16; 2]) -> bool {
    let (stages, exact) = (job[0], job[1] == 1);
    if wi > w || hi > h {
        return false;
    }
    if exact && stages == 2 && stage == 2 {
        return hi == h;
    }
    if exact && stages == 3 && stage == 3 {
        return wi == w;
    }
    true
}

/// The item words of the permitted positions in the order of the walk, each with its sides.
fn positions(job: &[u16]) -> Vec<(u16, [u16; 2])> {
    let mut positions = Vec::new();
    for (item, number) in items(job).chunks(4).zip(1..) {
        let [width, height, leave] = [item[0], item[1], item[3]];
        positions.push((2 * number, [width, height]));
        if leave == 1 && width != height {
            positions.push((2 * number + 1, [height, width]));
        }
    }
    positions
}

/// Top and right of a cut; a plate with a side of 0 where there is none, or where the blade or less
/// remains.
pub fn leaves(job: &[u16], [w, h, stage]: Plate, [wi, hi]: [u16; 2]) -> [Plate; 2] {
    const NONE: Plate = [0, 0, 0];
    let blade = job[4];
    let beyond = |remains: u16| remains.max(blade) - blade;
    let [across, upwards] = [beyond(w - wi), beyond(h - hi)];
    match (job[0], stage) {
        (_, 1) => [[w, upwards, 1], [across, hi, 2]],
        (2, 2) => [NONE, [across, hi, 2]],
        (3, 2) => [[wi, upwards, 3], [across, h, 2]],
        (3, 3) => [[wi, upwards, 3], NONE],
        _ => panic!("no plate has another stage"),
    }
}

/// Plate types from 0 and cuts from 1, without limits.
pub fn listing(job: &[u16]) -> (Vec<Plate>, Vec<Cut>) {
    let items = positions(job);
    let sizes = sizes(job);
    let mut plates: Vec<Plate> = sizes.iter().map(|&[w, h, _]| [w, h, 1]).collect();
    let mut cuts = Vec::new();
    let mut number = 0;
    while number < plates.len() {
        let plate = plates[number];
        for &(word, item) in &items {
            if !may_cut(job, plate, item) {
                continue;
            }
            let mut kept = [0, 0];
            for (side, residual) in leaves(job, plate, item).into_iter().enumerate() {
                if !items
                    .iter()
                    .any(|&(_, other)| may_cut(job, residual, other))
                {
                    continue;
                }
                if !plates[sizes.len()..].contains(&residual) {
                    plates.push(residual);
                }
                let mut met = sizes.len();
                while plates[met] != residual {
                    met += 1;
                }
                kept[side] = met as u16;
            }
            cuts.push([number as u16, word, kept[0], kept[1]]);
        }
        number += 1;
    }
    (plates, cuts)
}

/// Whether a plan is accepted, and the boards it opens and their cost: constraints 2 and 3 of the source and
/// the total, each asked on its own.
pub fn accepts(job: &[u16], counts: &[u16]) -> Option<[u32; 2]> {
    let (plates, cuts) = listing(job);
    let sum = |chosen: &dyn Fn(&Cut) -> bool| -> u32 {
        let of_cut = |(cut, &count): (&Cut, &u16)| if chosen(cut) { u32::from(count) } else { 0 };
        cuts.iter().zip(counts).map(of_cut).sum()
    };
    let demands_met = items(job)
        .chunks(4)
        .zip(1..)
        .all(|(item, number)| sum(&|cut| cut[1] / 2 == number) >= u32::from(item[2]));
    let residuals_arise = (job[2]..plates.len() as u16).all(|plate| {
        let leaving = sum(&|cut| cut[2] == plate) + sum(&|cut| cut[3] == plate);
        sum(&|cut| cut[0] == plate) <= leaving
    });
    let accepted = demands_met && residuals_arise && sum(&|_| true) <= 4_000;
    let mut opened = [0, 0];
    for (number, size) in (0..).zip(sizes(job)) {
        let boards = sum(&|cut| cut[0] == number);
        opened = [opened[0] + boards, opened[1] + boards * u32::from(size[2])];
    }
    accepted.then_some(opened)
}
