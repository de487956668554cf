//! Small rooms worked through by hand, as desk scripts with their answers.

use harness::desk::play;

/// Each line of `script` is followed by its answer, parted by ` => `.
fn holds(script: &str) {
    let lines: Vec<(&str, &str)> = script
        .lines()
        .map(str::trim)
        .filter(|line| !line.is_empty())
        .map(|line| line.split_once(" => ").expect("a line and its answer"))
        .collect();
    let asked: Vec<&str> = lines.iter().map(|(line, _)| *line).collect();
    let run = play(asked.join("\n").as_bytes(), 100_000).expect("short searches");
    assert_eq!(run.unreadable_line, None);
    let answers: Vec<&str> = run.answers.lines().collect();
    assert_eq!(answers.len(), lines.len());
    for ((line, wanted), got) in lines.iter().zip(answers) {
        assert_eq!(*wanted, got, "{line}");
    }
}

#[test]
fn one_unit_one_bay() {
    holds(
        "fit clearance1 0 0 => ok
         seek open 0 G1x1 G1x1 1 => found 0 tries 1 buffer 00
         further open 0 G1x1 G1x1 1 => declined 9 tries 0 buffer ee
         tally => tally 1",
    );
}

#[test]
fn joined_units_on_unjoined_bays() {
    holds(
        "begin 2 2 => ok
         fit clearance1 0,0 0,0 => ok
         seek open 0 T2x2:2,1 T2x2:0,0 2 => declined 9 tries 2 buffer eeee
         seek joint 0 T2x2:2,1 T2x2:0,0 2 => declined 9 tries 0 buffer eeee",
    );
}

#[test]
fn unjoined_units_on_joined_bays() {
    holds(
        "begin 2 2 => ok
         fit clearance1 0,0 0,0 => ok
         seek open 0 T2x2:0,0 T2x2:2,1 2 => found 0 1 tries 2 buffer 0001
         seek open 1 T2x2:0,0 T2x2:2,1 2 => declined 9 tries 2 buffer eeee",
    );
}

#[test]
fn three_joined_units_on_a_ring_of_four() {
    holds(
        "begin 3 4 => ok
         fit clearance1 0,0,0 0,0,0,0 => ok
         seek open 0 T3x3:6,5,3 T4x4:a,5,a,5 3 => declined 9 tries 12 buffer eeeeee
         seek support 0 T3x3:6,5,3 T4x4:a,5,a,5 3 => declined 9 tries 4 buffer eeeeee",
    );
}

#[test]
fn a_row_of_units_on_joined_bays() {
    holds(
        "begin 3 3 => ok
         fit clearance1 0,0,0 0,0,0 => ok
         seek open 0 T3x3:2,5,2 T3x3:6,5,3 5 => found 0 1 2 tries 3 buffer 000102eeee
         seek open 1 T3x3:2,5,2 T3x3:6,5,3 3 => declined 9 tries 3 buffer eeeeee",
    );
}

#[test]
fn two_joined_units_on_a_ring_of_four() {
    holds(
        "begin 2 4 => ok
         fit clearance1 0,0 0,0,0,0 => ok
         further open 0 G2x1 T4x4:a,5,a,5 2 => declined 7 buffer eeee
         seek open 0 G2x1 T4x4:a,5,a,5 2 => found 0 1 tries 2 buffer 0001
         further open 0 G2x1 T4x4:a,5,a,5 2 => found 0 3 tries 2 buffer 0003
         further open 0 G2x1 T4x4:a,5,a,5 2 => found 1 0 tries 3 buffer 0100
         further open 0 G2x1 T4x4:a,5,a,5 2 => found 1 2 tries 2 buffer 0102
         further open 0 G2x1 T4x4:a,5,a,5 2 => found 2 1 tries 3 buffer 0201
         further open 0 G2x1 T4x4:a,5,a,5 2 => found 2 3 tries 2 buffer 0203
         further open 0 G2x1 T4x4:a,5,a,5 2 => found 3 0 tries 3 buffer 0300
         further open 0 G2x1 T4x4:a,5,a,5 2 => found 3 2 tries 2 buffer 0302
         further open 0 G2x1 T4x4:a,5,a,5 2 => declined 9 tries 1 buffer eeee
         further open 0 G2x1 T4x4:a,5,a,5 2 => declined 9 tries 1 buffer eeee",
    );
}

#[test]
fn the_same_with_a_pair_struck() {
    holds(
        "begin 2 4 => ok
         fit clearance1 0,0 0,0,0,0 => ok
         strike 0 0 => ok
         seek open 0 G2x1 T4x4:a,5,a,5 2 => found 1 0 tries 2 buffer 0100
         tally => tally 7
         whatif 0 0 open 0 G2x1 T4x4:a,5,a,5 => declined 9 tries 0
         whatif 1 3 open 0 G2x1 T4x4:a,5,a,5 => yes tries 3
         strike 1 2 => ok
         further open 0 G2x1 T4x4:a,5,a,5 2 => found 2 1 tries 3 buffer 0201
         free 0 0 => ok
         further open 0 G2x1 T4x4:a,5,a,5 2 => found 2 3 tries 2 buffer 0203
         save 19 => saved 19 buffer 02020402000000000000000400000000000000",
    );
}

#[test]
fn sizes_of_a_plan() {
    holds(
        "begin 24 64 => ok
         tally => tally 1536
         begin 25 64 => declined 1
         begin 24 65 => declined 1
         begin 0 1 => declined 1
         begin 1 0 => declined 1
         tally => tally 1536",
    );
}

#[test]
fn refusals_come_in_their_order() {
    holds(
        "begin 2 3 => ok
         strike 2 0 => declined 2
         free 0 0 => declined 3
         strike 0 0 => ok
         strike 0 0 => declined 3
         fitfurther clearance1 0 0 => declined 4
         fitfurther clearance1 0,0 0,0,0 => declined 5
         seek open 0 G1x1 G1x1 0 => declined 5 buffer -
         whatif 2 0 open 0 G1x1 G1x1 => declined 2
         whatif 1 0 open 0 G1x1 G1x1 => declined 5
         fit clearance1 0,0 0,0 => declined 4
         fit clearance1 0,0 0,0,0 => ok
         further open 0 G1x1 G1x1 0 => declined 6 buffer -
         further open 0 G2x1 G3x1 0 => declined 7 buffer -
         seek open 0 G2x1 G3x1 1 => declined 8 buffer ee
         seek open 0 G2x1 T3x3:1,0,0 1 => declined 6 buffer ee
         save 10 => declined 18 buffer eeeeeeeeeeeeeeeeeeee
         open 0201 => declined 11 layer 1 place 2
         open - => declined 11 layer 2 place 0
         open 03 => declined 12 layer 2 place 0
         open 0201010000000000000000ff => declined 17 layer 2 place 11
         open 0200010000000000000000 => declined 1 layer 2 place 1
         tally => tally 5
         open 0201010000000000000000 => ok
         tally => tally 1",
    );
}

#[test]
fn sources_filters_and_tables() {
    holds(
        "look G8x8 => ok
         look G13x5 => declined 10 layer 2 place 0
         look T2x2:2,0 => declined 10 layer 2 place 0
         count T2x2:2,0 => count 1
         joined G3x2 0 3 => yes
         joined G3x2 2 3 => no
         joined G3x2 64 0 => no
         suits clearance1 3 700 => yes
         suits clearance2 3 700 => no
         sieve support 0 G1x1 G2x1 3 => taken 0 empty 0 rows 3
         sieve support 0 G1x1 G2x1 0 => taken 0 empty 1 rows 0
         sieve support 0 G2x1 G3x1 7,0 => taken 3 empty 2 rows 0,0
         sieve support 0 G2x1 G3x1 7,1 => taken 2 empty 0 rows 2,1
         sieve support 0 G2x1 G3x1 7,8 => taken 0 empty 0 rows 7,8
         sieve joint+support 0 G3x1 G3x1 7,7,7 => taken 4 empty 0 rows 5,2,5
         sieve joint 1 T2x2:0,0 T3x3:6,5,3 7,7 => taken 6 empty 2 rows 0,0
         sieve open 0 G5x5 G3x1 - => taken 0 empty 0 rows -
         readtable 010101000000000000000000000000000000 => declined 15 layer 1 place 10
         readtable 020301000000000000000500000000000000ff => table 2 3 rows 5,0 used 18",
    );
}

#[test]
fn an_unreadable_line_ends_the_run() {
    let run = play(b"# first\n\ntally\nplan 10\ntally\n", 10).expect("no search");
    assert_eq!(run.answers, "tally 1\n");
    assert_eq!(run.unreadable_line, Some(4));
}

#[test]
fn ten_plans_stand_beside_one_another() {
    holds(
        "begin 2 2 => ok
         plan 9 => ok
         tally => tally 1
         begin 3 3 => ok
         plan 0 => ok
         tally => tally 4
         new => ok
         tally => tally 1
         plan 9 => ok
         tally => tally 9",
    );
}
