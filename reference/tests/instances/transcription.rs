//! The transcribed tables: what they print beside the sizes agrees with the sizes.

use reference::instances::read::Instance;
use reference::instances::{all_jobs, jobs, sources, stock};

/// The instances, or periods, of a table.
fn instances(name: &str) -> Vec<Instance> {
    let mut sources = sources().into_iter();
    let source = sources.find(|source| source.name == name);
    source.expect("the table is transcribed").instances
}

/// Added up over the third numbers: stock or demand.
fn total(sizes: &[[u16; 3]]) -> u32 {
    sizes.iter().map(|size| u32::from(size[2])).sum()
}

#[test]
fn printed_totals_are_those_of_the_sizes() {
    for source in sources() {
        for instance in &source.instances {
            let found = [total(&instance.objects), total(&instance.items)];
            let printed = instance.totals.unwrap_or(found);
            assert_eq!(found, printed, "{} {}", source.name, instance.name);
        }
    }
}

#[test]
fn every_table_has_all_its_instances() {
    for (name, many) in [("000-18", 20), ("001-1", 1), ("002-1", 10), ("003-1", 1)] {
        let names: Vec<String> = instances(name).into_iter().map(|one| one.name).collect();
        let expected: Vec<String> = (1..=many).map(|number| number.to_string()).collect();
        assert_eq!(names, expected);
    }
}

#[test]
fn every_instance_of_document_004_has_all_its_periods() {
    let four = |instance| if instance == 1 { 3 } else { 4 };
    let many = |instance| match instance {
        1..=10 => 4,
        11..=20 => 8,
        _ => 12,
    };
    let expected = |last, periods: &dyn Fn(u32) -> u32| -> Vec<String> {
        let of = |instance| (0..periods(instance)).map(move |s| format!("{instance}.{s}"));
        (1..=last).flat_map(of).collect()
    };
    let names =
        |table: &str| -> Vec<String> { instances(table).into_iter().map(|one| one.name).collect() };
    assert_eq!(names("004-A.11"), expected(25, &four));
    assert_eq!(names("004-A.13"), expected(30, &many));
}

/// Table 18 of document 000 prints items by falling height, and Table 5 the number of types and
/// of object sizes.
#[test]
fn table_18_of_document_000_agrees_with_its_table_5() {
    let types = [
        32, 23, 17, 27, 37, 34, 9, 19, 17, 10, 5, 1, 2, 3, 3, 3, 2, 2, 3, 3,
    ];
    let sizes = [1, 1, 4, 4, 4, 3, 3, 3, 2, 3, 3, 1, 2, 3, 3, 3, 1, 2, 3, 2];
    for (index, instance) in instances("000-18").iter().enumerate() {
        assert_eq!(instance.items.len(), types[index], "{}", instance.name);
        assert_eq!(instance.objects.len(), sizes[index], "{}", instance.name);
        let falling = |pair: &[[u16; 3]]| pair[0][1] >= pair[1][1];
        assert!(instance.items.windows(2).all(falling), "{}", instance.name);
    }
}

/// The sizes of an instance that no other size of it fits into.
fn smallest(periods: &[Instance], instance: u32) -> usize {
    let prefix = format!("{instance}.");
    let of_instance = periods.iter().filter(|one| one.name.starts_with(&prefix));
    let mut sizes: Vec<[u16; 2]> = of_instance
        .flat_map(|one| one.items.iter().map(|item| [item[0], item[1]]))
        .collect();
    sizes.sort();
    sizes.dedup();
    let fits = |a: &[u16; 2], b: &[u16; 2]| a != b && a[0] <= b[0] && a[1] <= b[1];
    let is_smallest = |size: &&[u16; 2]| !sizes.iter().any(|other| fits(other, size));
    sizes.iter().filter(is_smallest).count()
}

/// Column d of tables A.11 and A.13 is the number of the smallest sizes of an instance. For
/// instance 3 of A.11 it prints 2, and the sizes give 3 (`data/README.md`).
#[test]
fn the_smallest_sizes_of_document_004_are_as_many_as_it_prints() {
    let a11 = [
        1, 2, 3, 2, 1, 4, 1, 1, 2, 1, 2, 1, 2, 1, 2, 3, 2, 1, 2, 4, 1, 1, 2, 3, 2,
    ];
    for (instance, printed) in (1..).zip(a11) {
        let found = smallest(&instances("004-A.11"), instance);
        assert_eq!(found, printed, "A.11, {instance}");
    }
    // As far as the text shows the column: not for instances 14 to 21.
    let first = [2, 2, 1, 3, 1, 2, 2, 1, 2, 3, 2, 3, 4];
    let last = [2, 2, 2, 1, 5, 1, 3, 1, 2];
    for (instance, printed) in (1..).zip(first).chain((22..).zip(last)) {
        let found = smallest(&instances("004-A.13"), instance);
        assert_eq!(found, printed, "A.13, {instance}");
    }
}

#[test]
fn every_job_has_a_name_of_its_own() {
    let mut names: Vec<String> = all_jobs().into_iter().map(|job| job.name).collect();
    let many = names.len();
    names.sort();
    names.dedup();
    assert_eq!(names.len(), many);
    assert_eq!(jobs().len(), 3_408);
}

#[test]
fn sizes_of_any_area_cost_their_share_of_the_dearest() {
    let large = Instance {
        name: "large".to_string(),
        totals: None,
        objects: vec![[10_000, 10_000, 1], [5_000, 5_000, 1], [2_800, 2_070, 1]],
        costs: vec![[5_000, 5_000, 3]],
        items: vec![[100, 100, 1]],
    };
    let costs = stock::sizes(&large).into_iter().map(|size| size[2]);
    // Of 100,000,000 three quarters and 5,796,000, rounded up.
    assert_eq!(costs.collect::<Vec<u16>>(), [999, 750, 58]);
}
