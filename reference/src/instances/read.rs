//! The format of the transcribed tables (`data/README.md`): lines of a word and its numbers.

/// An instance as its table prints it.
#[derive(Debug, Clone, PartialEq, Eq, Default)]
pub struct Instance {
    pub name: String,
    /// The printed numbers of objects and of items, where the table has them.
    pub totals: Option<[u32; 2]>,
    /// Width, height and stock of each object size.
    pub objects: Vec<[u16; 3]>,
    /// Width, height and cost per unit of area of those object sizes of which the table gives a
    /// cost.
    pub costs: Vec<[u16; 3]>,
    /// Width, height and demand of each item type.
    pub items: Vec<[u16; 3]>,
}

impl Instance {
    /// The width and height of each object size: the boards. Stock plays no part.
    pub fn boards(&self) -> impl Iterator<Item = [u16; 2]> + '_ {
        self.objects
            .iter()
            .map(|&[width, height, _]| [width, height])
    }
}

/// Reads a table. It is part of the program, so that a line not of the format ends it.
pub fn instances(text: &str) -> Vec<Instance> {
    let mut read: Vec<Instance> = Vec::new();
    for (keyword, rest) in lines(text) {
        if keyword == "instance" {
            read.push(Instance {
                name: rest.to_string(),
                ..Instance::default()
            });
            continue;
        }
        let instance = read.last_mut().expect("the first line begins an instance");
        match keyword {
            "totals" => instance.totals = Some(numbers(rest)),
            "board" => instance.objects.push(numbers(rest)),
            "cost" => instance.costs.push(numbers(rest)),
            "item" => instance.items.push(numbers(rest)),
            _ => panic!("a line begins with {keyword}"),
        }
    }
    read
}

/// The lines of a text, each as its first word and the rest, without comments and blank lines.
pub fn lines(text: &str) -> impl Iterator<Item = (&str, &str)> {
    let kept = |line: &&str| !line.is_empty() && !line.starts_with('#');
    let parts = |line| str::split_once(line, ' ').unwrap_or((line, ""));
    text.lines().filter(kept).map(parts)
}

/// Just so many numbers, with blanks between them.
pub fn numbers<T: std::str::FromStr, const N: usize>(rest: &str) -> [T; N] {
    let read: Option<Vec<T>> = rest.split(' ').map(|word| word.parse().ok()).collect();
    let read = read.and_then(|read| read.try_into().ok());
    read.unwrap_or_else(|| panic!("{N} numbers expected: {rest}"))
}
