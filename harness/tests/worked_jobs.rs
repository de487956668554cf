//! The worked job, its variants, and every refusal that a job can meet.

use harness::job_maker::worked_job;
use harness::reference::job::{job_call, job_text};

// Where the parts of the worked job begin.
const ARRANGEMENT: usize = 3;
const ROOM: usize = 29;
const KINDS: usize = 63;
const PLAN: usize = 71;
const PLAN_TABLE: usize = 72;

fn text(bytes: &[u8]) -> String {
    job_text(bytes, 1000).expect("short searches")
}

/// The text of the worked job with one byte changed.
fn with(at: usize, byte: u8) -> String {
    let mut bytes = worked_job();
    bytes[at] = byte;
    text(&bytes)
}

#[test]
fn the_bytes_are_as_written_down() {
    let zeros = |count: usize| "00".repeat(count);
    let (z7, z8) = (zeros(7), zeros(8));
    let arrangement = format!("020203{z7}02{z7}01{z7}");
    let room = format!("030307{z7}02{z7}05{z7}02{z7}");
    let hex = format!("000200{arrangement}{room}0103bc022003bc02020203{z8}");
    assert_eq!(harness::desk::hex_text(&worked_job()), hex);
    assert_eq!(worked_job().len(), 82);
}

#[test]
fn editions() {
    assert_eq!(text(&worked_job()), "0 1\n2 1\nend\n");
    assert_eq!(with(1, 1), "0 1\n1 0\n1 2\n2 1\nend\n");
    assert_eq!(with(1, 3), "refused 12 3 1\n");
    assert_eq!(with(2, 1), "refused 12 3 1\n");
}

#[test]
fn every_refusal_has_its_layer_and_place() {
    assert_eq!(with(0, 2), "refused 12 3 0\n");
    assert_eq!(with(ARRANGEMENT, 65), "refused 13 1 3\n");
    assert_eq!(with(ARRANGEMENT + 1, 65), "refused 13 1 4\n");
    assert_eq!(with(ARRANGEMENT + 1, 3), "refused 10 2 3\n");
    assert_eq!(with(ARRANGEMENT + 2, 7), "refused 14 1 5\n");
    assert_eq!(with(ARRANGEMENT + 9, 1), "refused 14 1 12\n");
    assert_eq!(with(ARRANGEMENT + 10, 0), "refused 15 1 13\n");
    assert_eq!(with(ARRANGEMENT + 17, 128), "refused 16 1 20\n");
    assert_eq!(with(ARRANGEMENT + 10, 3), "refused 10 2 3\n");
    assert_eq!(with(ROOM + 10, 6), "refused 10 2 29\n");
    assert_eq!(with(PLAN, 1), "refused 12 2 71\n");
    assert_eq!(with(PLAN_TABLE, 0), "refused 1 2 72\n");
    assert_eq!(with(PLAN_TABLE, 25), "refused 1 2 72\n");
    assert_eq!(with(PLAN_TABLE, 3), "refused 6 3 72\n");
    assert_eq!(with(PLAN_TABLE + 1, 64), "refused 6 3 72\n");
    assert_eq!(with(PLAN_TABLE + 2, 1), "refused 11 1 82\n");
}

#[test]
fn bytes_left_come_before_other_sizes() {
    let mut bytes = worked_job();
    bytes.push(0);
    assert_eq!(text(&bytes), "refused 17 2 82\n");
    bytes[PLAN_TABLE] = 3;
    assert_eq!(text(&bytes), "refused 17 2 82\n");
}

#[test]
fn a_cut_job_tells_whose_part_is_missing() {
    let job = worked_job();
    for length in 0..job.len() {
        let layer = match length {
            0..ARRANGEMENT => 3,
            ARRANGEMENT..KINDS => 1,
            KINDS..PLAN => 3,
            PLAN => 2,
            _ => 1,
        };
        assert_eq!(text(&job[..length]), format!("refused 11 {layer} {length}\n"));
    }
}

#[test]
fn kinds_without_a_figure_suit_no_bay() {
    assert_eq!(with(KINDS, 8), "end\n");
    assert_eq!(with(KINDS + 1, 255), "end\n");
}

#[test]
fn short_buffers_are_declined_before_the_bytes() {
    let mut short = vec![7; 1535];
    assert_eq!(job_call(&[9], &mut short, 1), Ok(Err(18)));
    assert_eq!(short, vec![7; 1535]);
    let mut long = vec![7; 1540];
    assert_eq!(job_call(&[9], &mut long, 1), Ok(Ok(15)));
    assert_eq!(&long[..16], b"refused 12 3 0\n\x07");
}
