//! Instances with periods, all periods together: larger jobs than those of one period.

use super::read::Instance;

/// For each instance, named by what stands before the point in the names of its periods: the
/// items of all its periods, equal sizes as one type in the order of their first appearance, on
/// its object of the largest area, the first of them.
pub fn together(periods: &[Instance]) -> Vec<Instance> {
    let mut all = united(periods);
    for instance in &mut all {
        let objects = std::mem::take(&mut instance.objects);
        instance.objects.extend(largest(&objects));
    }
    all
}

/// The same on the objects of all its periods, each size once, at the cost that it has first.
pub fn united(periods: &[Instance]) -> Vec<Instance> {
    let mut all: Vec<Instance> = Vec::new();
    for period in periods {
        let name = period.name.split('.').next().unwrap_or_default();
        if all.last().is_none_or(|last| last.name != name) {
            all.push(Instance {
                name: name.to_string(),
                ..Instance::default()
            });
        }
        let instance = all.last_mut().expect("an instance was begun");
        for object in &period.objects {
            if instance.boards().all(|board| board != object[..2]) {
                instance.objects.push(*object);
                let costs = period.costs.iter();
                instance
                    .costs
                    .extend(costs.filter(|cost| cost[..2] == object[..2]));
            }
        }
        for &item in &period.items {
            add(&mut instance.items, item);
        }
    }
    all
}

/// Adds the demand to the type of the same sides, or a type of its own.
fn add(items: &mut Vec<[u16; 3]>, [width, height, demand]: [u16; 3]) {
    let same = |item: &&mut [u16; 3]| item[..2] == [width, height];
    match items.iter_mut().find(same) {
        Some(item) => item[2] += demand,
        None => items.push([width, height, demand]),
    }
}

/// The first object of the largest area.
fn largest(objects: &[[u16; 3]]) -> Option<[u16; 3]> {
    let area = |object: &&[u16; 3]| u32::from(object[0]) * u32::from(object[1]);
    objects.iter().rev().max_by_key(area).copied()
}
