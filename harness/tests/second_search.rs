//! The reference against brute force, on small random rooms.

use harness::chance::Chance;
use harness::desk::play;
use harness::drawing::{Drawing, Size};
use harness::graphs;
use harness::job_maker::JobMaker;
use harness::reference::agreement::Scene;
use harness::reference::brute::all_placements;
use harness::reference::filter::Filter;
use harness::reference::graph::Source;
use harness::reference::job::{job_text, Job};
use harness::reference::rows::{all_below, holds, only, pairs};
use harness::reference::walk::search;
use harness::script_maker::script;

fn random_scene(chance: &mut Chance, most_units: usize, most_bays: usize) -> (Scene, Vec<u64>) {
    let (units, bays) = (chance.between(1, most_units), chance.between(1, most_bays));
    let room = graphs::room(chance, bays);
    let arrangement = graphs::arrangement(chance, units, &room);
    let take = |rows: Vec<u64>| Source::Table { columns: rows.len(), rows }.take();
    let rows = (0..units).map(|_| (chance.bits() | chance.bits()) & all_below(bays)).collect();
    (Scene::new(take(arrangement), take(room), chance.percent(40)), rows)
}

fn some_filters() -> Vec<Filter> {
    let chained = Filter::of_a_job();
    let repeated = Filter::Repeated(Box::new(chained.clone()));
    vec![Filter::Open, Filter::JointCount, Filter::Support, chained, repeated]
}

/// All finds of the walk, one after the other.
fn walked(scene: &Scene, filter: &Filter, rows: &[u64]) -> Vec<Vec<usize>> {
    let mut finds: Vec<Vec<usize>> = Vec::new();
    while let Ok(found) = search(scene, filter, rows, finds.last().map(Vec::as_slice), 1_000_000) {
        finds.push(found.bays);
    }
    finds
}

#[test]
fn the_walk_finds_all_placements_in_order() {
    let mut chance = Chance::new(5);
    for _ in 0..300 {
        let (scene, rows) = random_scene(&mut chance, 4, 6);
        let wanted = all_placements(&scene, &rows);
        for filter in some_filters() {
            assert_eq!(walked(&scene, &filter, &rows), wanted, "{scene:?} {filter:?} {rows:?}");
        }
    }
}

#[test]
fn filters_keep_what_placements_use() {
    let mut chance = Chance::new(6);
    for _ in 0..500 {
        let (scene, rows) = random_scene(&mut chance, 4, 6);
        let placements = all_placements(&scene, &rows);
        for filter in some_filters() {
            let mut left = rows.clone();
            let counts = filter.apply(&scene, &mut left);
            assert!(left.iter().zip(&rows).all(|(left, shown)| left & !shown == 0));
            assert_eq!(counts.taken, pairs(&rows) - pairs(&left));
            for bays in &placements {
                assert!(bays.iter().zip(&left).all(|(bay, row)| holds(*row, *bay)));
            }
        }
    }
}

/// The greatest supported rows are the union of all supported rows.
#[test]
fn support_leaves_the_greatest_supported_rows() {
    let mut chance = Chance::new(7);
    for _ in 0..150 {
        let (scene, rows) = random_scene(&mut chance, 3, 4);
        let mut left = rows.clone();
        Filter::Support.apply(&scene, &mut left);
        assert_eq!(left, union_of_supported(&scene, &rows), "{scene:?} {rows:?}");
    }
}

fn union_of_supported(scene: &Scene, rows: &[u64]) -> Vec<u64> {
    let shown: Vec<(usize, usize)> = (0..rows.len())
        .flat_map(|unit| (0..64).map(move |bay| (unit, bay)))
        .filter(|(unit, bay)| holds(rows[*unit], *bay))
        .collect();
    let mut union = vec![0; rows.len()];
    for choice in 0..1u64 << shown.len() {
        let chosen: Vec<(usize, usize)> =
            (0..shown.len()).filter(|at| holds(choice, *at)).map(|at| shown[at]).collect();
        if all_supported(scene, rows.len(), &chosen) {
            chosen.iter().for_each(|(unit, bay)| union[*unit] |= only(*bay));
        }
    }
    union
}

fn all_supported(scene: &Scene, units: usize, chosen: &[(usize, usize)]) -> bool {
    let supported_by = |pair: (usize, usize), other: usize| {
        chosen.iter().any(|support| support.0 == other && scene.agree(pair, *support))
    };
    chosen.iter().all(|pair| (0..units).all(|other| other == pair.0 || supported_by(*pair, other)))
}

#[test]
fn listings_hold_the_first_twenty() {
    let mut chance = Chance::new(8);
    for _ in 0..400 {
        let drawing = Drawing::random(&mut chance, Size::Small);
        let job = Job::read(&drawing.parts().bytes()).expect("a drawing is sound");
        let scene = Scene::new(job.arrangement.clone(), job.room.clone(), job.strict);
        let suits = |unit: usize, bay: usize| job.book.suits(job.kinds[unit], job.heights[bay]);
        let open = |unit: usize, bay: usize| suits(unit, bay) && !holds(drawing.struck[unit], bay);
        let row = |unit| (0..scene.bays()).filter(|bay| open(unit, *bay)).fold(0, |row, bay| row | only(bay));
        let rows: Vec<u64> = (0..scene.units()).map(row).collect();
        assert_eq!(job_text(&drawing.parts().bytes(), 100_000), Ok(brute_text(&scene, &rows)));
    }
}

fn brute_text(scene: &Scene, rows: &[u64]) -> String {
    let all = all_placements(scene, rows);
    let mut text = String::new();
    for bays in all.iter().take(20) {
        let words: Vec<String> = bays.iter().map(usize::to_string).collect();
        text += &(words.join(" ") + "\n");
    }
    text + if all.len() > 20 { "more\n" } else { "end\n" }
}

#[test]
fn made_jobs_have_many_sorts_of_answers() {
    let mut maker = JobMaker::new(1);
    let texts: Vec<String> = (0..4000).filter_map(|_| job_text(&maker.next_job(), 500).ok()).collect();
    let count = |test: &dyn Fn(&str) -> bool| texts.iter().filter(|text| test(text)).count();
    for number in [1, 6, 10, 11, 12, 13, 14, 15, 16, 17] {
        let start = format!("refused {number} ");
        assert!(count(&|text| text.starts_with(&start)) >= 5, "{start}");
    }
    assert!(count(&|text| text == "end\n") >= 20);
    assert!(count(&|text| text.ends_with("more\n")) >= 20);
    assert!(count(&|text| text.lines().count() == 21 && text.ends_with("end\n")) >= 10);
    assert!(count(&|text| (2..21).contains(&text.lines().count())) >= 50);
}

#[test]
fn made_scripts_play_to_their_end() {
    let mut chance = Chance::new(9);
    for _ in 0..100 {
        let script = script(&mut chance, 500);
        assert!(play(&script, 500).is_some());
    }
}
