//! The cuts of the saw on a board, in their order: the strips from the lowest; then, strip by
//! strip, its stacks from the left; then, stack by stack, its items from the lowest, each cut above
//! and trimmed beside. A cut is made where a strip stops short of the board's top, a stack of its
//! right edge, an item of its strip's top, or an item is narrower than its stack. What needs no cut
//! since it is all that is left has a step of its own, and so has an offcut: each item and each
//! offcut of the board is given by just one step.

use crate::answer::{Board, Placement};
use crate::job::Job;
use crate::remains::{Offcut, Rest};

/// What is done at a step.
#[derive(Debug, Clone, Copy, PartialEq, Eq)]
pub enum Kind {
    /// A cut above a strip.
    Strip,
    /// A cut beside a stack.
    Stack,
    /// A cut above an item, in three stages.
    Item,
    /// A cut above a lower item in two stages, beside a narrower one in three.
    Trim,
    /// No cut: it is what is left.
    Left,
}

/// What a step gives.
#[derive(Debug, Clone, Copy, PartialEq, Eq)]
pub enum Gives {
    Strip,
    Stack,
    /// An item that is still to be trimmed.
    Untrimmed {
        item: usize,
        turned: bool,
    },
    Item {
        item: usize,
        turned: bool,
    },
    Offcut {
        usable: bool,
    },
}

/// A step: what is done, in which strip, stack and place (0 where it is none), where the blade goes
/// and how far, what it gives and its sides, and the sides of the piece that is then in hand.
#[derive(Debug, Clone, Copy, PartialEq, Eq)]
pub struct Step {
    pub kind: Kind,
    pub place: [usize; 3],
    /// Along x or y, the edge of what is cut off, from the board's lower left corner; the blade
    /// runs beyond it.
    pub at: Option<(char, usize)>,
    pub length: usize,
    pub gives: Gives,
    pub sides: [usize; 2],
    /// More than the sides of an offcut where the plan has no use for the rest of the piece, which is
    /// waste; else these.
    pub piece: [usize; 2],
}

/// A strip, a stack or an item of a board: position and sides.
#[derive(Debug, Clone, Copy)]
struct Part {
    x: usize,
    y: usize,
    width: usize,
    height: usize,
}

impl Part {
    fn right(&self) -> usize {
        self.x + self.width
    }

    fn top(&self) -> usize {
        self.y + self.height
    }
}

/// A board that is being sawn.
struct Sawing<'a> {
    job: &'a Job,
    board: &'a Board,
    rest: &'a Rest,
    steps: Vec<Step>,
}

/// The steps of a board of which this remains.
pub fn steps(job: &Job, board: &Board, rest: &Rest) -> Vec<Step> {
    let mut sawing = Sawing {
        job,
        board,
        rest,
        steps: Vec::new(),
    };
    sawing.strips();
    sawing.steps
}

impl<'a> Sawing<'a> {
    /// The part that an item takes.
    fn item(&self, placement: &Placement) -> Part {
        let [width, height] = self.job.sides(placement.item, placement.turned);
        Part {
            x: placement.x,
            y: placement.y,
            width,
            height,
        }
    }

    /// The least part around items.
    fn around(&self, placements: &[Placement]) -> Part {
        let parts = || placements.iter().map(|placement| self.item(placement));
        let [x, y] = [placements[0].x, placements[0].y];
        Part {
            x,
            y,
            width: parts().map(|part| part.right()).max().unwrap_or(x) - x,
            height: parts().map(|part| part.top()).max().unwrap_or(y) - y,
        }
    }

    /// Adds a step; a cut without a position is none.
    fn step(
        &mut self,
        kind: Kind,
        place: [usize; 3],
        cut: Option<(char, usize, usize)>,
        given: (Gives, [usize; 2]),
    ) {
        self.steps.push(Step {
            kind: if cut.is_some() { kind } else { Kind::Left },
            place,
            at: cut.map(|(along, at, _)| (along, at)),
            length: cut.map_or(0, |(.., length)| length),
            gives: given.0,
            sides: given.1,
            piece: given.1,
        });
    }

    /// Adds the offcut that begins at a position, if there is one, of the piece that ends at another.
    fn offcut(&mut self, [x, y]: [usize; 2], [right, top]: [usize; 2], place: [usize; 3]) {
        let there = |offcut: &&Offcut| offcut.x == x && offcut.y == y;
        if let Some(offcut) = self.rest.offcuts.iter().find(there) {
            self.steps.push(Step {
                kind: Kind::Left,
                place,
                at: None,
                length: 0,
                gives: Gives::Offcut {
                    usable: offcut.usable,
                },
                sides: [offcut.width, offcut.height],
                piece: [right - x, top - y],
            });
        }
    }

    /// The strips of the board, then what is cut from each.
    fn strips(&mut self) {
        let size = self.job.sizes[self.board.size];
        let board: &'a Board = self.board;
        let strips = || {
            board
                .placements
                .chunk_by(|one, next| one.strip == next.strip)
        };
        let mut top = 0;
        for placements in strips() {
            let strip = self.around(placements);
            top = strip.top();
            let cut = (top < size.height).then_some(('y', top, size.width));
            let place = [placements[0].strip, 0, 0];
            let sides = [size.width, strip.height];
            self.step(Kind::Strip, place, cut, (Gives::Strip, sides));
        }
        let corner = [size.width, size.height];
        self.offcut([0, top + self.job.blade], corner, [0; 3]);
        for placements in strips() {
            self.stacks(placements, size.width);
        }
    }

    /// The stacks of a strip on a board of this width, then what is cut from each.
    fn stacks(&mut self, placements: &'a [Placement], width: usize) {
        let strip = self.around(placements);
        let stacks = || placements.chunk_by(|one, next| one.stack == next.stack);
        let mut right = 0;
        for items in stacks() {
            let stack = self.around(items);
            right = stack.right();
            let cut = (right < width).then_some(('x', right, strip.height));
            let place = [items[0].strip, items[0].stack, 0];
            let gives = match items {
                [only] if self.item(only).height == strip.height => item(only),
                _ => Gives::Stack,
            };
            self.step(
                Kind::Stack,
                place,
                cut,
                (gives, [stack.width, strip.height]),
            );
        }
        self.offcut(
            [right + self.job.blade, strip.y],
            [width, strip.top()],
            [placements[0].strip, 0, 0],
        );
        for items in stacks() {
            self.items(items, strip.top());
        }
    }

    /// The items of a stack in a strip with this top; a single one as high as the strip is cut off
    /// already.
    fn items(&mut self, placements: &[Placement], strip_top: usize) {
        let stack = self.around(placements);
        if placements.len() == 1 && stack.top() == strip_top {
            return;
        }
        for placement in placements {
            let part = self.item(placement);
            let place = [placement.strip, placement.stack, placement.place];
            let narrower = part.width < stack.width;
            let cut = (part.top() < strip_top).then_some(('y', part.top(), stack.width));
            let kind = if self.job.two_stage() {
                Kind::Trim
            } else {
                Kind::Item
            };
            let given = match narrower {
                true => (untrimmed(placement), [stack.width, part.height]),
                false => (item(placement), [part.width, part.height]),
            };
            self.step(kind, place, cut, given);
            if narrower {
                let cut = Some(('x', part.right(), part.height));
                self.step(
                    Kind::Trim,
                    place,
                    cut,
                    (item(placement), [part.width, part.height]),
                );
            }
        }
        if stack.top() < strip_top {
            let of_stack = [placements[0].strip, placements[0].stack, 0];
            self.offcut(
                [stack.x, stack.top() + self.job.blade],
                [stack.right(), strip_top],
                of_stack,
            );
        }
    }
}

/// The item of a placement, finished.
fn item(placement: &Placement) -> Gives {
    Gives::Item {
        item: placement.item,
        turned: placement.turned,
    }
}

/// The item of a placement, before its trim.
fn untrimmed(placement: &Placement) -> Gives {
    Gives::Untrimmed {
        item: placement.item,
        turned: placement.turned,
    }
}

#[cfg(test)]
mod tests;
