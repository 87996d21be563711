//! The parts of the boards of an unfolding, written plainly from document 02, Two, Four and Six: items,
//! offcuts, waste and the blade's swath as rectangles.

use super::check::Line;
use super::plain;

/// Board, x, y, width, height.
pub type Part = [u16; 5];

/// The items of lines.
pub fn items(job: &[u16], lines: &[Line]) -> Vec<Part> {
    let part = |&[board, _, _, _, _, item, x, y, turn]: &Line| {
        let first = 4 * (usize::from(item) - 1);
        let items = plain::items(job);
        let [width, height] = [items[first], items[first + 1]];
        match turn {
            0 => [board, x, y, width, height],
            _ => [board, x, y, height, width],
        }
    };
    lines.iter().map(part).collect()
}

/// The offcuts of records.
pub fn offcuts(records: &[[u16; 6]]) -> Vec<Part> {
    let part = |&[board, x, y, width, height, _]: &[u16; 6]| [board, x, y, width, height];
    records.iter().map(part).collect()
}

/// A cut of an unfolding: the item, the sides and the stage of the plate that it is cut from, and
/// the numbers of the kept residuals.
struct Done {
    item: Part,
    plate: [u16; 3],
    kept: [u16; 2],
}

/// The cuts, by their indices (from 0), that give these items.
fn done(job: &[u16], items: &[Part], cuts: &[usize]) -> Vec<Done> {
    let (plates, records) = plain::listing(job);
    let done = |(&item, &cut): (&Part, &usize)| {
        let [plate, _, top, right] = records[cut];
        Done {
            item,
            plate: plates[usize::from(plate)],
            kept: [top, right],
        }
    };
    items.iter().zip(cuts).map(done).collect()
}

impl Done {
    /// What is trimmed off: in two stages at stage 2 all that is above the item, at stage 3 all that
    /// is beside it.
    fn trim(&self, job: &[u16]) -> Option<Part> {
        let [board, x, y, wi, hi] = self.item;
        let [w, h, stage] = self.plate;
        match (job[0], stage) {
            (2, 2) => Some([board, x, y + hi, w, h - hi]),
            (3, 3) => Some([board, x + wi, y, w - wi, h]),
            _ => None,
        }
    }

    /// The way of the blade along each line that divides the plate, clipped to the plate: at stage
    /// 1 across the plate and then up the strip, at stage 2 up the strip and in three stages then
    /// across the stack, at stage 3 across the stack.
    fn ways(&self, job: &[u16]) -> Vec<Part> {
        let [board, x, y, wi, hi] = self.item;
        let [w, h, stage] = self.plate;
        let [right, top] = [job[4].min(w - wi), job[4].min(h - hi)];
        match (job[0], stage) {
            (_, 1) => vec![[board, x, y + hi, w, top], [board, x + wi, y, right, hi]],
            (2, 2) => vec![[board, x + wi, y, right, h]],
            (3, 2) => vec![[board, x + wi, y, right, h], [board, x, y + hi, wi, top]],
            _ => vec![[board, x, y + hi, w, top]],
        }
    }
}

/// The waste of the cuts: the residuals that are not kept, beyond the blade, and the trims.
pub fn waste(job: &[u16], items: &[Part], cuts: &[usize]) -> Vec<Part> {
    let mut waste = Vec::new();
    for cut in done(job, items, cuts) {
        let [board, x, y, wi, hi] = cut.item;
        let [top, right] = plain::leaves(job, cut.plate, [wi, hi]);
        if cut.kept[0] == 0 {
            waste.push([board, x, y + hi + job[4], top[0], top[1]]);
        }
        if cut.kept[1] == 0 {
            waste.push([board, x + wi + job[4], y, right[0], right[1]]);
        }
        waste.extend(cut.trim(job));
    }
    waste.retain(|part| part[3] > 0 && part[4] > 0);
    waste
}

/// What of a part lies outside another one of its board: to the left, to the right, below and above.
fn outside(part: Part, other: Part) -> [Part; 4] {
    let [board, x, y, width, height] = part;
    let [x_end, y_end] = [x + width, y + height];
    let left = other[1].clamp(x, x_end);
    let right = (other[1] + other[3]).clamp(x, x_end);
    let foot = other[2].clamp(y, y_end);
    let head = (other[2] + other[4]).clamp(y, y_end);
    [
        [board, x, y, left - x, height],
        [board, right, y, x_end - right, height],
        [board, left, y, right - left, foot - y],
        [board, left, head, right - left, y_end - head],
    ]
}

/// The swath of the cuts: the ways of the blade, but for what lies inside the trim of the cut, which
/// is waste.
pub fn swath(job: &[u16], items: &[Part], cuts: &[usize]) -> Vec<Part> {
    let mut swath = Vec::new();
    for cut in done(job, items, cuts) {
        for way in cut.ways(job) {
            match cut.trim(job) {
                Some(trim) => swath.extend(outside(way, trim)),
                None => swath.push(way),
            }
        }
    }
    swath
}

/// The area of the parts of one board.
pub fn area_on(board: u16, parts: &[Part]) -> u64 {
    let on_board = parts.iter().filter(|part| part[0] == board);
    on_board
        .map(|part| u64::from(part[3]) * u64::from(part[4]))
        .sum()
}

/// The size of each board of lines, in the order of the boards.
pub fn sizes_of_boards(lines: &[Line]) -> Vec<u16> {
    let first = lines.iter().filter(|line| line[2..5] == [1, 1, 1]);
    first.map(|line| line[1]).collect()
}

/// The W and H of each board, by its size.
fn own_sides(job: &[u16], sizes: &[u16]) -> Vec<[u16; 2]> {
    let all = plain::sizes(job);
    let sides = |&size: &u16| [all[usize::from(size)][0], all[usize::from(size)][1]];
    sizes.iter().map(sides).collect()
}

/// Every part lies inside its board, which has one of the sizes, and any two parts of one board are at least the blade apart,
/// across or upwards.
pub fn assert_apart(job: &[u16], sizes: &[u16], parts: &[Part]) {
    let blade = job[4];
    let own = own_sides(job, sizes);
    for (index, &[board, x, y, width, height]) in parts.iter().enumerate() {
        let [w, h] = own[usize::from(board) - 1];
        assert!(x + width <= w && y + height <= h);
        for &[other_board, ox, oy, other_width, other_height] in &parts[..index] {
            let across = x + width + blade <= ox || ox + other_width + blade <= x;
            let upwards = y + height + blade <= oy || oy + other_height + blade <= y;
            assert!(board != other_board || across || upwards);
        }
    }
}

/// Every square millimetre of every board, by its own size, is covered by just one part.
pub fn assert_partition(job: &[u16], sizes: &[u16], parts: &[Part]) {
    let own = own_sides(job, sizes);
    let area = |&[w, h]: &[u16; 2]| usize::from(w) * usize::from(h);
    let mut painted: Vec<Vec<u8>> = own.iter().map(|sides| vec![0; area(sides)]).collect();
    for part in parts {
        let [board, x, y, width, height] = part.map(usize::from);
        let [w, h] = own[board - 1].map(usize::from);
        assert!(x + width <= w && y + height <= h, "{job:?}");
        for row in y..y + height {
            let first = row * w + x;
            for cell in &mut painted[board - 1][first..first + width] {
                *cell += 1;
            }
        }
    }
    assert!(painted.iter().flatten().all(|&times| times == 1), "{job:?}");
}
