//! A lookup compares type and length before it folds a name: by a length and type that no entry has it takes at most a quarter of the time that it takes where
//! all entries have both and differ in a middle letter. It takes some fiftieth (docs/BENCHMARKS.md): the room is for other work on the machine.

use bench::lookups::Lookups;

fn within_a_quarter(entries: usize, repeat: usize) {
    let among = Lookups::among(entries);
    let [none, all] = among.medians(repeat, &among.other_length_and_type, &among.other_letter);
    println!(
        "{entries} entries: {none:.0} ns, {all:.0} ns, ratio {:.3}",
        none / all
    );
    assert!(
        4.0 * none <= all,
        "{entries} entries: {none:.0} ns against {all:.0} ns"
    );
}

#[test]
fn among_64_entries() {
    within_a_quarter(64, 200);
}

#[test]
fn among_512_entries() {
    within_a_quarter(512, 50);
}

#[test]
fn what_is_timed_is_what_is_found() {
    for entries in [1, 64, 512] {
        let among = Lookups::among(entries);
        for lookup in [
            &among.other_length_and_type,
            &among.other_type,
            &among.other_letter,
            &among.first,
            &among.last,
        ] {
            assert_eq!(among.slot(lookup), lookup.found, "{entries} entries");
        }
    }
}
