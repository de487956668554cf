//! Random desk scripts: all calls, those that decline too, on several plans.

use crate::chance::Chance;
use crate::desk::{hex_text, rows_text, Desk, Trouble};
use crate::drawing::{Drawing, Parts, RawTable, Size};
use crate::graphs;
use crate::job_maker::{damaged, make_ill};
use crate::reference::rows::{all_below, only};

/// A script, and nothing else: the answers come from playing it.
pub fn script(chance: &mut Chance, patience: u32) -> Vec<u8> {
    let mut maker = ScriptMaker::new(chance.clone(), patience);
    maker.opening();
    for _ in 0..maker.chance.between(5, 50) {
        maker.step();
    }
    if maker.chance.percent(8) {
        maker.add_unreadable();
    }
    if maker.chance.percent(10) && maker.script.last() == Some(&b'\n') {
        // The last line counts without its end, too.
        maker.script.pop();
    }
    *chance = maker.chance;
    maker.script
}

/// The sources that suit a plan, as words.
#[derive(Clone)]
struct Sources {
    arrangement: String,
    room: String,
}

struct ScriptMaker {
    chance: Chance,
    /// Plays along, so that lines can suit the plan that they meet.
    desk: Desk,
    /// One a plan.
    sources: Vec<Sources>,
    /// The plan was just begun or opened: most calls would meet no fit.
    just_started: bool,
    script: Vec<u8>,
}

impl ScriptMaker {
    fn new(chance: Chance, patience: u32) -> ScriptMaker {
        let single = Sources { arrangement: "G1x1".to_string(), room: "T1x1:0".to_string() };
        let (desk, sources) = (Desk::new(patience), vec![single; 10]);
        ScriptMaker { chance, desk, sources, just_started: false, script: Vec::new() }
    }

    /// A line whose search takes too long for the reference is left out.
    fn add(&mut self, line: String) {
        let mut desk = self.desk.clone();
        match desk.line(line.as_bytes()) {
            Ok(answer) => self.keep(line, desk, answer),
            Err(Trouble::TooLong) => {}
            Err(Trouble::Unreadable) => panic!("an unreadable line was made: {line}"),
        }
    }

    fn keep(&mut self, line: String, desk: Desk, answer: Option<String>) {
        self.desk = desk;
        let written = if self.chance.percent(5) { spaced_out(&line) } else { line.clone() };
        self.script.extend(written.as_bytes());
        self.script.push(b'\n');
        let started = line.starts_with("begin") || line.starts_with("open");
        if started && answer.as_deref() == Some("ok") {
            self.new_sources();
            self.just_started = true;
        }
    }

    /// Sources of the plan's sizes.
    fn new_sources(&mut self) {
        let (units, bays) = (self.desk.plan().units(), self.desk.plan().bays());
        let room = graphs::room(&mut self.chance, bays);
        let arrangement = graphs::arrangement(&mut self.chance, units, &room);
        let mut sources = Sources { arrangement: table_word(&arrangement), room: table_word(&room) };
        if self.chance.percent(25) {
            sources.room = self.grid_word(bays);
        }
        if self.chance.percent(15) {
            sources.arrangement = self.grid_word(units);
        }
        self.sources[self.desk.current()] = sources;
    }

    /// Most scripts open with a plan that can be searched.
    fn opening(&mut self) {
        if self.chance.percent(90) {
            let line = self.begin_inside();
            self.add(line);
        }
    }

    fn step(&mut self) {
        if self.just_started && self.chance.percent(85) {
            self.just_started = false;
            let line = self.fit_line("fit");
            return self.add(line);
        }
        if self.chance.percent(15) {
            return self.leaf();
        }
        if self.chance.percent(1) {
            return self.add_strange_remark();
        }
        let line = self.any_line();
        self.add(line);
    }

    /// Seeks and goes further with the same sources, sometimes striking between.
    fn leaf(&mut self) {
        let (shown, length) = (self.shown(), self.desk.plan().units());
        self.add(format!("seek {shown} {length}"));
        for _ in 0..self.chance.between(1, 8) {
            if self.chance.percent(15) {
                let call = self.chance.pick(&["strike", "free"]);
                let line = self.pair_line(call);
                self.add(line);
            }
            self.add(format!("further {shown} {length}"));
        }
    }

    fn any_line(&mut self) -> String {
        match self.chance.weighted(&[3, 3, 9, 6, 6, 5, 12, 12, 9, 3, 4, 3, 1, 2, 1, 2, 2, 7, 3, 2, 2]) {
            0 => self.begin_line(),
            1 => self.open_line(),
            2 => self.pair_line("strike"),
            3 => self.pair_line("free"),
            4 => self.fit_line("fit"),
            5 => self.fit_line("fitfurther"),
            6 => self.seek_line("seek"),
            7 => self.seek_line("further"),
            8 => self.what_if_line(),
            9 => "tally".to_string(),
            10 => self.save_line(),
            11 => format!("plan {}", self.chance.pick(&[0, 0, 0, 1, 1, 2, 9])),
            12 => "new".to_string(),
            13 => format!("look {}", self.any_source()),
            14 => format!("count {}", self.any_source()),
            15 => self.joined_line(),
            16 => self.suits_line(),
            17 => self.sieve_line(),
            18 => self.read_table_line(),
            19 => self.job_line(),
            _ => self.passed_over_line(),
        }
    }

    fn begin_line(&mut self) -> String {
        if self.chance.percent(75) {
            return self.begin_inside();
        }
        format!("begin {} {}", self.chance.stray_number(), self.chance.stray_number())
    }

    fn begin_inside(&mut self) -> String {
        let (units, bays) = match self.chance.weighted(&[60, 30, 10]) {
            0 => (self.chance.between(1, 4), self.chance.between(1, 8)),
            1 => (self.chance.between(2, 8), self.chance.between(4, 20)),
            _ => (self.chance.between(1, 24), self.chance.between(1, 64)),
        };
        format!("begin {units} {bays}")
    }

    fn open_line(&mut self) -> String {
        let size = self.chance.pick(&[Size::Tiny, Size::Small, Size::Middle]);
        let mut parts = Drawing::random(&mut self.chance, size).parts();
        let mut bytes = parts.saved_plan();
        match self.chance.below(4) {
            0 => {
                make_ill(&mut self.chance, &mut parts);
                bytes = parts.saved_plan();
            }
            1 => bytes = damaged(&mut self.chance, &bytes),
            _ => {}
        }
        format!("open {}", hex_text(&bytes))
    }

    fn pair_line(&mut self, call: &str) -> String {
        let (unit, bay) = self.pair();
        format!("{call} {unit} {bay}")
    }

    /// A unit and a bay, mostly of the plan and low, so that pairs meet again.
    fn pair(&mut self) -> (usize, usize) {
        let (units, bays) = (self.desk.plan().units(), self.desk.plan().bays());
        if self.chance.percent(8) {
            return (self.near_the_end(units), self.near_the_end(bays));
        }
        let low = self.chance.pick(&[4, 64]);
        (self.chance.below(units.min(4)), self.chance.below(bays.min(low)))
    }

    fn near_the_end(&mut self, count: usize) -> usize {
        let stray = self.chance.stray_number();
        self.chance.pick(&[0, count - 1, count, count + 1, stray])
    }

    fn fit_line(&mut self, call: &str) -> String {
        let units = self.nearly(self.desk.plan().units());
        let bays = self.nearly(self.desk.plan().bays());
        let (unit_cards, bay_cards, book) = match self.chance.percent(65) {
            true => (self.kinds(units), self.heights(bays), self.chance.pick(&["clearance1", "clearance2"])),
            false => (self.needs(units), self.services(bays), "services1"),
        };
        format!("{call} {book} {} {}", cards_word(&unit_cards), cards_word(&bay_cards))
    }

    /// The number itself, seldom another.
    fn nearly(&mut self, number: usize) -> usize {
        match self.chance.percent(5) {
            true => self.chance.pick(&[0, number - 1, number + 1, 24, 64, 65, 100]),
            false => number,
        }
    }

    fn kinds(&mut self, count: usize) -> Vec<usize> {
        let kinds = [0, 0, 0, 6, 6, 1, 2, 3, 4, 5, 7, 7, 3];
        let mut cards: Vec<usize> = (0..count).map(|_| self.chance.pick(&kinds)).collect();
        if count > 0 && self.chance.percent(4) {
            cards[0] = self.chance.pick(&[8, 9, 128, 255]);
        }
        cards
    }

    fn heights(&mut self, count: usize) -> Vec<usize> {
        let heights =
            [299, 300, 450, 600, 649, 650, 749, 750, 900, 1299, 1300, 1300, 2400, 2400, 2400, 65535];
        (0..count).map(|_| self.chance.pick(&heights)).collect()
    }

    fn needs(&mut self, count: usize) -> Vec<usize> {
        let needs = [0, 0, 0, 1, 3, 4, 8, 24, 31, 128];
        (0..count).map(|_| self.chance.pick(&needs)).collect()
    }

    fn services(&mut self, count: usize) -> Vec<usize> {
        let services = [0, 1, 3, 11, 15, 31, 31, 31, 127, 255, 255];
        (0..count).map(|_| self.chance.pick(&services)).collect()
    }

    fn seek_line(&mut self, call: &str) -> String {
        let units = self.desk.plan().units();
        let length = match self.chance.weighted(&[70, 20, 5, 5]) {
            0 => units,
            1 => units + self.chance.between(1, 5),
            2 => units - 1,
            _ => 0,
        };
        format!("{call} {} {length}", self.shown())
    }

    fn what_if_line(&mut self) -> String {
        let (unit, bay) = self.pair();
        format!("whatif {unit} {bay} {}", self.shown())
    }

    /// Filter, strictness, arrangement, room: mostly those of the plan.
    fn shown(&mut self) -> String {
        let mut sources = self.sources[self.desk.current()].clone();
        if self.chance.percent(4) {
            sources.arrangement = self.any_source();
        }
        if self.chance.percent(4) {
            sources.room = self.any_source();
        }
        let strict = usize::from(self.chance.percent(30));
        format!("{} {strict} {} {}", self.filter_word(), sources.arrangement, sources.room)
    }

    fn filter_word(&mut self) -> String {
        let single = ["open", "joint", "support"];
        let count = self.chance.pick(&[1, 1, 1, 2, 2, 3]);
        let chain: Vec<&str> = (0..count).map(|_| self.chance.pick(&single)).collect();
        let end = if self.chance.percent(25) { "*" } else { "" };
        chain.join("+") + end
    }

    fn save_line(&mut self) -> String {
        let length = match self.chance.below(3) {
            0 => self.chance.between(0, 30),
            1 => 11 + 8 * self.chance.below(6),
            _ => 203 + self.chance.below(3),
        };
        format!("save {length}")
    }

    /// Sound or not, of any size.
    fn any_source(&mut self) -> String {
        match self.chance.below(5) {
            0 => self.sources[self.desk.current()].room.clone(),
            1 => format!("G{}x{}", self.chance.between(0, 9), self.chance.between(0, 9)),
            2 => format!("G{}x{}", self.chance.stray_number(), self.chance.stray_number()),
            3 => self.sound_table_word(),
            _ => self.ill_table_word(),
        }
    }

    fn sound_table_word(&mut self) -> String {
        let count = self.chance.pick(&[1, 2, 3, 5, 8, 24, 25, 63, 64]);
        table_word(&graphs::room(&mut self.chance, count))
    }

    fn ill_table_word(&mut self) -> String {
        let count = self.chance.pick(&[0, 1, 2, 3, 5, 63, 64, 65, 70]);
        let mut rows = vec![0; count];
        let mut columns = count;
        match self.chance.below(4) {
            0 => columns = self.chance.stray_number(),
            1 if count > 0 => rows[self.chance.below(count)] |= only(self.chance.below(64)),
            2 if count > 0 => rows.iter_mut().for_each(|row| *row = self.chance.bits()),
            _ => {}
        }
        format!("T{count}x{columns}:{}", rows_text(&rows))
    }

    fn grid_word(&mut self, count: usize) -> String {
        let widths: Vec<usize> = (1..=count).filter(|width| count % width == 0).collect();
        let width = self.chance.pick(&widths);
        format!("G{width}x{}", count / width)
    }

    fn joined_line(&mut self) -> String {
        let nodes = [0, 1, 2, 3, 4, 5, 62, 63, 64, 65, 128, 1000];
        format!("joined {} {} {}", self.any_source(), self.chance.pick(&nodes), self.chance.pick(&nodes))
    }

    fn suits_line(&mut self) -> String {
        match self.chance.below(3) {
            0 => format!("suits services1 {} {}", self.chance.byte(), self.chance.byte()),
            1 => format!("suits clearance1 {} {}", self.kinds(1)[0], self.heights(1)[0]),
            _ => format!("suits clearance2 {} {}", self.kinds(1)[0], self.heights(1)[0]),
        }
    }

    fn sieve_line(&mut self) -> String {
        let (units, bays) = (self.desk.plan().units(), self.desk.plan().bays());
        let count = self.nearly(units);
        let past = self.chance.percent(5);
        let share = self.chance.pick(&[30, 60, 90, 100]);
        let rows: Vec<u64> = (0..count).map(|_| self.row(bays, share, past)).collect();
        format!("sieve {} {}", self.shown(), rows_text(&rows))
    }

    /// A random row, within the bays unless `past`.
    fn row(&mut self, bays: usize, share: usize, past: bool) -> u64 {
        let kept = (0..64).filter(|_| self.chance.percent(share)).fold(0, |row, bay| row | only(bay));
        if past {
            kept
        } else {
            kept & all_below(bays)
        }
    }

    fn read_table_line(&mut self) -> String {
        let mut parts: Parts = Drawing::random(&mut self.chance, Size::Small).parts();
        if self.chance.percent(40) {
            make_ill(&mut self.chance, &mut parts);
        }
        let table: RawTable = if self.chance.percent(50) { parts.room } else { parts.plan };
        let mut bytes = table.bytes();
        if self.chance.percent(40) {
            bytes = damaged(&mut self.chance, &bytes);
        }
        format!("readtable {}", hex_text(&bytes))
    }

    fn job_line(&mut self) -> String {
        let size = self.chance.pick(&[Size::Tiny, Size::Small, Size::Middle]);
        let mut bytes = Drawing::random(&mut self.chance, size).parts().bytes();
        if self.chance.percent(30) {
            bytes = damaged(&mut self.chance, &bytes);
        }
        let length = self.chance.pick(&[0, 1, 20, 1535, 1536, 1536, 1537, 1600]);
        format!("job {length} {}", hex_text(&bytes))
    }

    fn passed_over_line(&mut self) -> String {
        let lines = ["", "", "# a remark", "#tally", "   ", "#"];
        self.chance.pick(&lines).to_string()
    }

    /// A remark of any bytes, seldom a very long one, is passed over too.
    fn add_strange_remark(&mut self) {
        let length = self.chance.pick(&[1, 10, 10, 10, 10, 300, 70_000]);
        let bytes: Vec<u8> = (0..length).map(|_| self.chance.byte()).collect();
        self.script.push(b'#');
        self.script.extend(bytes.into_iter().filter(|byte| *byte != b'\n'));
        self.script.push(b'\n');
    }

    /// A line that nobody can read, and one after it that is not done.
    fn add_unreadable(&mut self) {
        let line = match self.chance.percent(10) {
            true => [b"tally \xff\xfe\x00".as_slice(), &[self.chance.byte() | 0x80]].concat(),
            false => self.chance.pick(UNREADABLE).as_bytes().to_vec(),
        };
        self.script.extend(line);
        self.script.extend(b"\ntally\n");
    }
}

/// The same words with more blanks around them; remarks stay as they are.
fn spaced_out(line: &str) -> String {
    if line.starts_with('#') {
        return line.to_string();
    }
    format!(" {}  ", line.replace(' ', "   "))
}

fn table_word(rows: &[u64]) -> String {
    format!("T{0}x{0}:{1}", rows.len(), rows_text(rows))
}

fn cards_word(cards: &[usize]) -> String {
    if cards.is_empty() {
        return "-".to_string();
    }
    let words: Vec<String> = cards.iter().map(usize::to_string).collect();
    words.join(",")
}

const UNREADABLE: &[&str] = &[
    "nonsense",
    "begin 1",
    "begin 1 2 3",
    "begin a 2",
    "begin -1 2",
    "begin 99999999999999999999999999 1",
    "strike 0",
    "strike 0 -",
    "strike 0x1 0",
    "open",
    "open 0",
    "open 0g",
    "open 02 0101",
    "fit clearance3 0 0",
    "fit services2 0 0",
    "fit clearance1 256 0",
    "fit clearance1 0 65536",
    "fit services1 0 256",
    "fit clearance1 0,,0 0",
    "fit clearance1 0, 0",
    "fitfurther clearance2 0",
    "seek open 2 G1x1 G1x1 1",
    "seek open 0 G1x1 G1x1",
    "seek joints 0 G1x1 G1x1 1",
    "seek open++joint 0 G1x1 G1x1 1",
    "seek joint*+open 0 G1x1 G1x1 1",
    "seek * 0 G1x1 G1x1 1",
    "further open 0 G1 G1x1 1",
    "further open 0 Q1x1 G1x1 1",
    "whatif 0 0 open 0 T1x1 G1x1",
    "whatif 0 open 0 G1x1 G1x1",
    "tally 1",
    "save",
    "save -",
    "plan 10",
    "plan -1",
    "new 1",
    "look T2x2:1",
    "look T1x1:",
    "look T1x1:g",
    "look T1x1:10000000000000000",
    "look G1x1x1",
    "count",
    "joined G1x1 0",
    "suits clearance1 256 0",
    "suits services1 0 256",
    "sieve open 0 G1x1 G1x1",
    "sieve open 0 G1x1 G1x1 1,,1",
    "readtable 0",
    "job 1536",
    "job -1 00",
    "Tally",
];
