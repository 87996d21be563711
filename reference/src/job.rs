//! The job: board sizes, item types and stage mode, with the width of the blade (document 01, "The
//! job"; document 02, One, Four and Six).

use crate::limits::{BLADE, DEMAND, ITEM_TYPES, MOST_PIECES, SIDE, SIZES, TURN};
use crate::mode::Mode;
use crate::plate::Plate;
use crate::position::{Position, Sides};
use crate::refusal::{
    ensure, Refusal, DEMANDS_TOO_HIGH, ITEM_TOO_LARGE, NOT_OF_THE_FORM, OUTSIDE_LIMITS,
    TURNED_WITHOUT_LEAVE,
};
use crate::size::{Size, SIZE_NUMBERS};

/// Numbers of line 1 after its kind, which are the words before the sizes.
pub const HEAD_NUMBERS: usize = 5;

/// Numbers of an item type: those of line 2 after the type, and its words.
pub const ITEM_NUMBERS: usize = 4;

/// Where the words of item types begin in a job of so many sizes.
pub const fn items_at(sizes: usize) -> usize {
    HEAD_NUMBERS + SIZE_NUMBERS * sizes
}

/// An item type: its sides, its demand, and whether it may be turned.
#[derive(Debug, Clone, Copy, PartialEq, Eq)]
pub struct Item {
    pub width: u16,
    pub height: u16,
    pub demand: u16,
    pub leave: bool,
}

impl Item {
    /// The item of these four numbers, if each is within its limits.
    pub fn from_numbers([width, height, demand, leave]: [u32; ITEM_NUMBERS]) -> Option<Item> {
        let within = SIDE.contains(&width)
            && SIDE.contains(&height)
            && DEMAND.contains(&demand)
            && TURN.contains(&leave);
        within.then_some(Item {
            width: width as u16,
            height: height as u16,
            demand: demand as u16,
            leave: leave == 1,
        })
    }

    /// The four words of an item type.
    pub fn words(&self) -> [u16; ITEM_NUMBERS] {
        [self.width, self.height, self.demand, u16::from(self.leave)]
    }

    /// Whether the item has a turned position: it has leave and is not square.
    pub fn turns(&self) -> bool {
        self.leave && self.width != self.height
    }
}

/// What precedes sizes and item types: the numbers of line 1 after its kind, the first five job
/// words.
#[derive(Debug, Clone, Copy, PartialEq, Eq)]
pub struct Head {
    pub mode: Mode,
    /// How many sizes follow, t.
    pub sizes: u16,
    /// How many item types follow them, n.
    pub types: u16,
    pub blade: u16,
}

impl Head {
    /// The head of stages, exact, t, n and b, if each is within its limits.
    pub fn from_numbers(numbers: [u32; HEAD_NUMBERS]) -> Option<Head> {
        let [stages, exact, sizes, types, blade] = numbers;
        let mode = Mode::from_numbers(stages, exact)?;
        let within =
            SIZES.contains(&sizes) && ITEM_TYPES.contains(&types) && BLADE.contains(&blade);
        within.then_some(Head {
            mode,
            sizes: sizes as u16,
            types: types as u16,
            blade: blade as u16,
        })
    }
}

/// A job whose values are within their limits. Sizes are numbered from 0, item types from 1.
#[derive(Debug, Clone, PartialEq, Eq)]
pub struct Job {
    pub mode: Mode,
    pub sizes: Vec<Size>,
    /// The width of the blade, b.
    pub blade: u16,
    pub items: Vec<Item>,
}

impl Job {
    /// The job of a head and as many sizes and items as the head announces.
    pub fn new(head: Head, sizes: Vec<Size>, items: Vec<Item>) -> Job {
        debug_assert_eq!(sizes.len(), usize::from(head.sizes));
        debug_assert_eq!(items.len(), usize::from(head.types));
        Job {
            mode: head.mode,
            sizes,
            blade: head.blade,
            items,
        }
    }

    /// Reads job words: stages, exact, t, n, b, then W, H, cost of each size, then width, height,
    /// demand, leave of each type. Another length than t and n ask for is 1, place 0, whatever t
    /// and n are; then a value outside its limits is 2, naming 0 for the head and the sizes and else
    /// the type.
    pub fn from_words(words: &[u16]) -> Result<Job, Refusal> {
        let [sizes, types] = [2, 3].map(|at| words.get(at).map_or(0, |&word| usize::from(word)));
        let length = items_at(sizes) + ITEM_NUMBERS * types;
        ensure(words.len() == length, NOT_OF_THE_FORM, 0)?;
        let (board, items) = words.split_at(items_at(sizes));
        let (head, sizes) = board.split_at(HEAD_NUMBERS);
        let of_the_board = Refusal::new(OUTSIDE_LIMITS, 0);
        let head = Head::from_numbers(numbers(head)).ok_or(of_the_board)?;
        let sizes = sizes.chunks_exact(SIZE_NUMBERS);
        let sizes: Option<Vec<Size>> = sizes
            .map(|size| Size::from_numbers(numbers(size)))
            .collect();
        let sizes = sizes.ok_or(of_the_board)?;
        let mut read = Vec::with_capacity(types);
        for (index, item) in items.chunks_exact(ITEM_NUMBERS).enumerate() {
            let item = Item::from_numbers(numbers(item));
            read.push(item.ok_or(Refusal::new(OUTSIDE_LIMITS, index + 1))?);
        }
        Ok(Job::new(head, sizes, read))
    }

    /// The job's words.
    pub fn words(&self) -> Vec<u16> {
        let [stages, exact] = self.mode.numbers();
        let [sizes, types] = [self.sizes.len(), self.items.len()].map(|many| many as u16);
        let mut words = vec![stages, exact, sizes, types, self.blade];
        words.extend(self.sizes.iter().flat_map(Size::words));
        words.extend(self.items.iter().flat_map(Item::words));
        words
    }

    /// The job row of the table: an item of which no permitted position fits any size is 3,
    /// demands above 4,000 are 4. The blade plays no part.
    pub fn admit(&self) -> Result<(), Refusal> {
        for item in 1..=self.items.len() as u16 {
            let fits = self.positions_of(item).any(|position| self.fits(position));
            ensure(fits, ITEM_TOO_LARGE, usize::from(item))?;
        }
        let demands: u32 = self.items.iter().map(|item| u32::from(item.demand)).sum();
        ensure(demands <= MOST_PIECES, DEMANDS_TOO_HIGH, 0)
    }

    /// The item of this type, from 1.
    pub fn item(&self, number: u16) -> &Item {
        &self.items[usize::from(number) - 1]
    }

    /// The sides of a type of the job as it lies: turned, width and height change places.
    pub fn sides(&self, position: Position) -> Sides {
        let item = self.item(position.item);
        let (width, height) = match position.turned {
            false => (item.width, item.height),
            true => (item.height, item.width),
        };
        Sides { width, height }
    }

    /// Whether a type of the job may lie so: unturned always, turned with leave and if not square.
    pub fn permits(&self, position: Position) -> bool {
        !position.turned || self.item(position.item).turns()
    }

    /// Refuses with 19, naming the line, a position in which a type of the job may not lie.
    pub fn ensure_permitted(&self, position: Position, line: usize) -> Result<(), Refusal> {
        ensure(self.permits(position), TURNED_WITHOUT_LEAVE, line)
    }

    /// The permitted positions of a type, the unturned first.
    pub fn positions_of(&self, item: u16) -> impl Iterator<Item = Position> + '_ {
        let both = [Position::unturned(item), Position::turned(item)];
        both.into_iter().filter(|&position| self.permits(position))
    }

    /// The permitted positions of all types, in the order of the walk.
    pub fn positions(&self) -> impl Iterator<Item = Position> + '_ {
        (1..=self.items.len() as u16).flat_map(|item| self.positions_of(item))
    }

    /// The size of this number, from 0.
    pub fn size(&self, number: u16) -> &Size {
        &self.sizes[usize::from(number)]
    }

    /// Whether an item in a position is no larger than some size.
    pub fn fits(&self, position: Position) -> bool {
        self.first_size(position).is_some()
    }

    /// The lowest number of a size than which an item in a position is no larger.
    pub fn first_size(&self, position: Position) -> Option<u16> {
        let item = self.sides(position);
        let first = self.sizes.iter().position(|size| size.fits(item));
        first.map(|number| number as u16)
    }

    /// Whether a residual is kept: at least one item type may be cut from it in a permitted
    /// position (document 01, "Plates and cuts"). Demand plays no part.
    pub fn keeps(&self, residual: &Plate) -> bool {
        self.positions()
            .any(|position| residual.admits(self.mode, self.sides(position)))
    }
}

/// Words as numbers.
fn numbers<const N: usize>(words: &[u16]) -> [u32; N] {
    std::array::from_fn(|k| u32::from(words[k]))
}
