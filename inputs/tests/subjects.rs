//! Texts of the jobs of `data/`: one that is called valid is accepted where the job's listing is, and
//! else refused as the listing is.

use inputs::subjects::{Known, Subject};
use inputs::text::refusal_in;
use inputs::{Random, Text};
use reference::buffers::{CUTS, PLATES};

/// The refusal of a job's listing, if it is refused.
fn refusal_of(job: &[u16]) -> Option<u32> {
    let [mut plates, mut cuts] = [PLATES, CUTS].map(|kind| vec![0; kind.full_size]);
    let refused = reference::list(job, &mut plates, &mut cuts).err();
    refused.map(|refusal| refusal.number)
}

/// Whether a text has a line of kind 4.
fn has_prices(text: &[u8]) -> bool {
    let mut lines = text.split(|&byte| byte == b'\n');
    lines.any(|line| line.starts_with(b"        4"))
}

#[test]
fn valid_texts_of_the_jobs_of_data_are_accepted_where_their_listing_is() {
    let mut random = Random::new(14);
    let known = Known::of_data();
    let [mut accepted, mut refused, mut with_prices] = [0; 3];
    for subject in (0..known.count()).filter_map(|number| known.get(number)) {
        let expected = refusal_of(subject.job());
        assert_eq!(
            matches!(subject, Subject::Known(_, None)),
            expected.is_some()
        );
        for kind in Text::BOTH {
            let text = kind.valid(&mut random, subject);
            let found = refusal_in(&kind.answer(&text));
            let job = subject.job();
            assert_eq!(found, expected, "{}: {job:?}", kind.name());
            match expected {
                Some(_) => refused += 1,
                None => accepted += 1,
            }
            with_prices += usize::from(has_prices(&text));
        }
    }
    // Half of the texts accepted are fold texts, and of three saw texts two have prices.
    assert!(refused > 100 && accepted > 5_000, "{refused}, {accepted}");
    let without = accepted / 2 - with_prices;
    assert!(
        with_prices > without && without > accepted / 10,
        "{with_prices}, {without}"
    );
}
