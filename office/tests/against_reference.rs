//! Random jobs: listing, plan, prices, drawings and offcuts against the second implementation's calls and
//! texts.

mod random;

use office::answer::Answer;
use office::draw::page;
use office::job::{Item, Job, Size};
use office::listing::Listing;
use office::patterns::patterns;
use office::plan;
use office::prices::{self, Prices};
use office::remains::Remains;
use random::{one_each, saw, Random};

/// The job as words.
fn words(job: &Job) -> Vec<u16> {
    let exact = usize::from(job.exact);
    let [sizes, types] = [job.sizes.len(), job.items.len()];
    let head = [job.stages, exact, sizes, types, job.blade];
    let sizes = job
        .sizes
        .iter()
        .flat_map(|size| [size.width, size.height, size.cost]);
    let items = job
        .items
        .iter()
        .flat_map(|item| [item.width, item.height, item.demand, item.leave.into()]);
    head.into_iter()
        .chain(sizes)
        .chain(items)
        .map(|word| word as u16)
        .collect()
}

/// The listing as the records of the listing call.
fn records(job: &Job, listing: &Listing) -> [Vec<u16>; 2] {
    let number = |residual: Option<usize>| residual.unwrap_or(0);
    let plates = listing
        .plates
        .iter()
        .enumerate()
        .flat_map(|(number, plate)| {
            let cost = job.sizes.get(number).map_or(0, |size| size.cost);
            [plate.width, plate.height, plate.stage, cost]
        });
    let cuts = listing.cuts.iter();
    let cuts = cuts.flat_map(|cut| {
        let item = 2 * cut.item + cut.turn();
        [cut.plate, item, number(cut.top), number(cut.right)]
    });
    [
        plates.map(|word| word as u16).collect(),
        cuts.map(|word| word as u16).collect(),
    ]
}

/// The offcuts as the records of the unfolding call.
fn offcut_words(remains: &Remains) -> Vec<u16> {
    let boards = (1..).zip(&remains.boards);
    let offcuts = boards.flat_map(|(board, rest)| {
        rest.offcuts.iter().flat_map(move |offcut| {
            let sides = [offcut.width, offcut.height, offcut.usable.into()];
            [&[board, offcut.x, offcut.y], &sides[..]].concat()
        })
    });
    offcuts.map(|word| word as u16).collect()
}

/// The offcuts that the unfolding call writes.
fn unfolded(job: &Job, counts: &[usize], lengths: [usize; 2]) -> Vec<u16> {
    let [mut plates, mut cuts] = [vec![0; 8_192], vec![0; 32_768]];
    let [mut placements, mut offcuts] = [vec![0; 36_000], vec![0; 48_000]];
    let mut counts: Vec<u16> = counts.iter().map(|&count| count as u16).collect();
    counts.resize(8_192, 0);
    let unfolded = reference::unfold(
        &words(job),
        &counts,
        lengths.map(|length| length as u16),
        &mut plates,
        &mut cuts,
        &mut placements,
        &mut offcuts,
    );
    offcuts.truncate(6 * unfolded.unwrap().offcuts as usize);
    offcuts
}

#[test]
fn listings_are_those_of_the_listing_call() {
    let mut random = Random(1);
    for _ in 0..300 {
        let job = random.job();
        let listing = Listing::of(&job).unwrap();
        let [mut plates, mut cuts] = [vec![0; 8_192], vec![0; 32_768]];
        let listed = reference::list(&words(&job), &mut plates, &mut cuts).unwrap();
        let sizes = [listed.residuals as usize, listed.cuts as usize];
        assert_eq!(sizes, [listing.residual_types(), listing.cuts.len()]);
        let [own_plates, own_cuts] = records(&job, &listing);
        assert_eq!(own_plates, plates[..own_plates.len()]);
        assert_eq!(own_cuts, cuts[..own_cuts.len()]);
    }
}

/// What the plans of random jobs have, so that a test can say that it met it: items turned, offcuts, boards
/// with a swath, plans on several sizes.
#[derive(Default)]
struct Met {
    turned: usize,
    offcuts: usize,
    swaths: usize,
    mixed: usize,
}

/// Draws the answer to a plan, with these lengths; its offcuts are the unfolding call's, and the areas of each
/// board make the board's.
fn drawn(job: &Job, counts: &[usize], answer: &Answer, lengths: [usize; 2], met: &mut Met) {
    let remains = Remains::of(job, answer, lengths).unwrap();
    let patterns = patterns(answer, &remains).len();
    assert_eq!(page(job, answer, &remains).len(), patterns + 1);
    assert_eq!(offcut_words(&remains), unfolded(job, counts, lengths));
    met.offcuts += remains.offcuts().count();
    for (rest, board) in remains.boards.iter().zip(&answer.boards) {
        let size = job.sizes[board.size];
        let bands: usize = rest.swath.iter().map(|band| band.width * band.height).sum();
        assert_eq!(bands as u64, rest.areas.swath);
        assert_eq!(rest.areas.whole(), (size.width * size.height) as u64);
        met.swaths += usize::from(bands > 0);
    }
    let turned = (1..=job.items.len()).map(|item| answer.turned_of(item));
    met.turned += turned.sum::<usize>();
    let boards = answer.boards.len();
    let several = (0..job.sizes.len()).all(|size| answer.boards_of(size) < boards);
    met.mixed += usize::from(several);
}

/// Prices by area, or from random dual prices.
fn priced(random: &mut Random, job: &Job, listing: &Listing, by_area: bool) -> Prices {
    if by_area {
        return prices::by_area(job, listing);
    }
    let dual = |_: &Item| random.below(1000) as f64 / 1000.0;
    let duals: Vec<f64> = job.items.iter().map(dual).collect();
    prices::scaled(job, listing, &duals)
}

#[test]
fn plans_and_prices_are_accepted_and_drawn() {
    let mut random = Random(2);
    let mut met = Met::default();
    for round in 0..48 {
        let job = random.job();
        let listing = Listing::of(&job).unwrap();
        let counts = one_each(&job, &listing);
        assert_eq!(plan::accepted(&job, &listing, &counts), Ok(()));
        let prices = priced(&mut random, &job, &listing, round % 2 == 0);
        let text = job.text() + &plan::lines(&listing, &counts) + &prices.lines(listing.sizes);
        let answer = Answer::read(&saw(&text), &job).unwrap();
        assert_eq!(answer.boards.len(), plan::boards(&listing, &counts));
        assert_eq!(answer.cost, plan::cost(&job, &listing, &counts));
        let bound = (answer.sum, answer.denominator);
        assert_eq!(bound, (prices.sum(&job), prices.denominator));
        let Size { width, height, .. } = job.sizes[0];
        let lengths = [random.between(1, width), random.between(1, height)];
        drawn(&job, &counts, &answer, lengths, &mut met);
    }
    let Met {
        turned,
        offcuts,
        swaths,
        mixed,
    } = met;
    assert!(turned > 20, "{turned} items are turned");
    assert!(offcuts > 100, "{offcuts} offcuts");
    assert!(swaths > 100, "{swaths} boards have a swath");
    assert!(mixed > 3, "{mixed} plans have boards of several sizes");
}

#[test]
fn prices_by_area_reach_the_area_bound_where_boards_can_be_filled() {
    let job = Job::read("1 2 0 1 1 0\n10 0 6 6 1\n2 1 2 3 13 0\n").unwrap();
    let prices = prices::by_area(&job, &Listing::of(&job).unwrap());
    assert_eq!((prices.sum(&job), prices.denominator), (13, 6));
}
