//! Colours of item types: forty, as many as a job may have types, so that none stands twice on a
//! page. Each two differ clearly, and from the colours of offcuts, waste and swath; all are light
//! enough for dark letters.

/// The colours in the order of types; the lightest first.
const COLOURS: [&str; 40] = [
    "#ffe5be", "#e5a4ff", "#bef297", "#b1e5ff", "#ffe57d", "#ff7d97", "#f2d8f2", "#a4f2e5",
    "#a4f2be", "#3cf2cb", "#63a4f2", "#ffb18a", "#ffbef2", "#63e5ff", "#ffcbcb", "#becbff",
    "#d8d88a", "#ffbe70", "#70cbff", "#ff8acb", "#7dd88a", "#ffa4a4", "#97be8a", "#8abebe",
    "#d8b197", "#3ccbcb", "#b1be56", "#ff8a70", "#a4a4ff", "#be97a4", "#b197cb", "#bea449",
    "#3cbe8a", "#b1a470", "#63b197", "#3cb1cb", "#8aa4be", "#7db156", "#d88ab1", "#3cffff",
];

/// The colour of an item type, from 1.
pub fn colour(item_type: usize) -> &'static str {
    COLOURS[(item_type - 1) % COLOURS.len()]
}

#[cfg(test)]
mod tests {
    use super::*;
    use crate::job::MOST_TYPES;

    /// A colour in CIE L*a*b*, where equal distances look about equally far apart.
    fn lab(colour: &str) -> [f64; 3] {
        let [red, green, blue] = [1, 3, 5].map(|place| {
            let part =
                f64::from(u8::from_str_radix(&colour[place..place + 2], 16).unwrap()) / 255.0;
            match part <= 0.04045 {
                true => part / 12.92,
                false => ((part + 0.055) / 1.055).powf(2.4),
            }
        });
        let x = (0.4124 * red + 0.3576 * green + 0.1805 * blue) / 0.95047;
        let y = 0.2126 * red + 0.7152 * green + 0.0722 * blue;
        let z = (0.0193 * red + 0.1192 * green + 0.9505 * blue) / 1.08883;
        let [x, y, z] = [x, y, z].map(|part| match part > 0.008856 {
            true => part.cbrt(),
            false => 7.787 * part + 16.0 / 116.0,
        });
        [116.0 * y - 16.0, 500.0 * (x - y), 200.0 * (y - z)]
    }

    /// How far two colours are apart; 2 is just seen side by side.
    fn distance(one: &str, other: &str) -> f64 {
        let [one, other] = [lab(one), lab(other)];
        let squares = one
            .iter()
            .zip(other)
            .map(|(one, other)| (one - other).powi(2));
        squares.sum::<f64>().sqrt()
    }

    #[test]
    fn no_two_types_of_a_job_look_alike() {
        for one in 1..=MOST_TYPES {
            for other in 1..one {
                let apart = distance(colour(one), colour(other));
                assert!(apart > 17.0, "types {other} and {one}: {apart}");
            }
            for taken in [
                "#f4f4f4", "#bbbbbb", "#f2f7ee", "#cfe6bf", "#a8784a", "#ffffff",
            ] {
                let apart = distance(colour(one), taken);
                assert!(apart > 17.0, "type {one} and {taken}: {apart}");
            }
            assert!(lab(colour(one))[0] > 65.0, "type {one} is dark");
        }
    }
}
