//! Blocks of a log: however a log is cut, and however much room there is for the text, the product works through the same
//! records as the second program, and the lines of all blocks are those of the log. The seeds are fixed.

use differential::{castanetash_read_block, wanted, Lent, Random, TOTALS_CELLS};
use yardstick::examples::{LOGS, SOUND};
use yardstick::make_log::{bench_log, every_log};
use yardstick::{read_block, Table, LINE_ROOM, LOG_RECORD, TABLE_CELLS};

/// Both programs in the midst of a log, with counts of what they did.
struct Blocks {
    /// The product's table.
    cells: Vec<u32>,
    /// The second program's.
    table: Table,
    totals: [u64; 2],
    tally: Tally,
}

/// Counts of blocks, by why they end, and of lines.
#[derive(Debug, Default)]
struct Tally {
    blocks: u64,
    /// All whole records were worked through.
    whole: u64,
    /// There was no room for another line.
    full: u64,
    /// A total could count no more.
    counted_out: u64,
    lines: u64,
    refused: u64,
}

impl Tally {
    fn add(&mut self, other: &Tally) {
        self.blocks += other.blocks;
        self.whole += other.whole;
        self.full += other.full;
        self.counted_out += other.counted_out;
        self.lines += other.lines;
        self.refused += other.refused;
    }
}

impl Blocks {
    /// Before the first record, with a table that both have.
    fn new(cells: &[u32], totals: [u64; 2]) -> Blocks {
        Blocks {
            cells: cells.to_vec(),
            table: Table::from_cells(cells).expect("a sound table"),
            totals,
            tally: Tally::default(),
        }
    }

    /// Works through a block by both programs. Panics unless table, totals and text are the same and nothing else
    /// changes. Gives how many bytes of the log were worked through, and the text.
    fn work(&mut self, log: &[u8], room: usize, more_totals: usize) -> (usize, Vec<u8>) {
        let before = self.totals;
        let expected = read_block(&mut self.table, &mut self.totals, log, room);
        let name = format!("{} bytes of log, room {room}, totals {before:?}", log.len());

        let mut cells = Lent::holding(&self.cells);
        let mut lent_totals = before.to_vec();
        lent_totals.extend((0..more_totals as u64).map(|cell| u64::MAX - cell));
        let mut totals = Lent::holding(&lent_totals);
        let mut lent_log = Lent::holding(log);
        let mut text = Lent::filled(room);
        let answer = castanetash_read_block(cells.lend(), totals.lend(), lent_log.lend(), text.lend());

        assert_eq!(answer, expected.len() as u64, "{name}");
        text.expect(&expected, &name);
        totals.expect(&self.totals, &name);
        assert_eq!(totals.contents().len(), TOTALS_CELLS + more_totals, "{name}");
        cells.expect(&self.table.to_cells(), &name);
        lent_log.expect_unchanged(&name);
        self.cells = cells.contents().to_vec();

        let lines = self.totals[0] - before[0];
        self.tally.blocks += 1;
        self.tally.lines += lines;
        self.tally.refused += self.totals[1] - before[1];
        let taken = lines as usize * LOG_RECORD;
        if log.len() - taken < LOG_RECORD {
            self.tally.whole += 1;
        } else if room - expected.len() < LINE_ROOM {
            self.tally.full += 1;
        } else {
            assert!(self.totals.contains(&u64::MAX), "{name}: it ends for no reason");
            self.tally.counted_out += 1;
        }
        (taken, expected)
    }
}

/// A log of so many records, of one sort or the other, with bytes before the message now and then that aren't right.
fn made_log(seed: u64, records: u64) -> Vec<u8> {
    let mut log = Vec::new();
    let made = match seed % 2 {
        0 => bench_log(seed, records, &mut log),
        _ => every_log(seed, records, &mut log),
    };
    made.expect("writing to memory");
    let mut random = Random::new(!seed);
    for record in log.chunks_exact_mut(LOG_RECORD) {
        if random.once_in(24) {
            record[4 + random.below(2)] = random.byte();
        }
    }
    log
}

/// Room for none, one or more lines, at the edges and beside them.
fn any_room(random: &mut Random) -> usize {
    const ROOMS: [usize; 10] = [
        0,
        1,
        LINE_ROOM - 1,
        LINE_ROOM,
        LINE_ROOM + 1,
        LINE_ROOM + 4,
        LINE_ROOM + 5,
        LINE_ROOM + 6,
        2 * LINE_ROOM,
        65_536,
    ];
    match random.below(3) {
        0 => random.below(8 * LINE_ROOM),
        _ => random.one_of(&ROOMS),
    }
}

/// Works through a log in blocks of random sizes with random room, and gives the text of all of them.
fn work_through(blocks: &mut Blocks, random: &mut Random, log: &[u8]) -> Vec<u8> {
    let mut text = Vec::new();
    let mut rest = log;
    while rest.len() >= LOG_RECORD {
        let size = match random.below(4) {
            0 => random.below(2 * LOG_RECORD + 2),
            1 => random.below(8) * LOG_RECORD,
            2 => random.below(40 * LOG_RECORD),
            _ => rest.len(),
        };
        let room = any_room(random);
        let (taken, lines) = blocks.work(&rest[..size.min(rest.len())], room, random.below(3));
        rest = &rest[taken..];
        text.extend(lines);
    }
    text
}

/// What the second program prints of a log's whole records, without the totals.
fn lines_of(log: &[u8]) -> Vec<u8> {
    let mut text = wanted(&log[..log.len() - log.len() % LOG_RECORD]);
    let totals = text[..text.len() - 1].iter().rposition(|&byte| byte == b'\n');
    text.truncate(totals.map_or(0, |end| end + 1));
    text
}

#[test]
fn random_blocks() {
    let mut random = Random::new(31);
    let mut tally = Tally::default();
    for seed in 0..160 {
        let records = [1, 30, 300, 1200][seed as usize % 4];
        let mut log = made_log(seed, records);
        // A last piece that is no whole record is left.
        log.extend(vec![0; random.below(LOG_RECORD)]);
        let mut blocks = Blocks::new(&[0; TABLE_CELLS], [0, 0]);
        let text = work_through(&mut blocks, &mut random, &log);
        assert!(text == lines_of(&log), "seed {seed}: other lines than the log's");
        let whole = log.len() / LOG_RECORD;
        assert_eq!(blocks.totals[0], whole as u64);
        let ending = format!("total {} refused {}\n", blocks.totals[0], blocks.totals[1]);
        assert!(
            wanted(&log[..whole * LOG_RECORD]).ends_with(ending.as_bytes()),
            "seed {seed}"
        );
        tally.add(&blocks.tally);
    }
    println!("random blocks: {tally:?}");
    assert!(tally.whole > 1000 && tally.full > 1000 && tally.counted_out == 0);
    assert!(tally.lines > 10_000 && tally.refused > 2000);
}

#[test]
fn examples() {
    let mut random = Random::new(32);
    for example in LOGS {
        let log = example.log();
        let whole = &log[..log.len() - log.len() % LOG_RECORD];
        let mut blocks = Blocks::new(&[0; TABLE_CELLS], [0, 0]);
        let (taken, text) = blocks.work(&log, 1 << 20, 0);
        assert_eq!(taken, whole.len(), "{}", example.name);
        assert!(example.lines.as_bytes().starts_with(&text), "{}", example.name);
        for _ in 0..20 {
            let mut blocks = Blocks::new(&[0; TABLE_CELLS], [0, 0]);
            assert_eq!(work_through(&mut blocks, &mut random, &log), text, "{}", example.name);
        }
    }
}

/// Every room from none to that of a few lines: how many of four records are worked through.
#[test]
fn every_room() {
    let log = made_log(34, 300);
    let mut blocks = Blocks::new(&[0; TABLE_CELLS], [0, 0]);
    // In the midst of the log, where values are.
    let (taken, _) = blocks.work(&log[..200 * LOG_RECORD], 1 << 20, 0);
    let rest = &log[taken..];
    let mut tally = Tally::default();
    let (mut lines, mut values) = (0, false);
    for room in 0..3 * LINE_ROOM {
        let mut blocks = Blocks::new(&blocks.cells, blocks.totals);
        let (_, text) = blocks.work(&rest[..4 * LOG_RECORD], room, 1);
        assert!(text.len() <= room);
        values |= text.iter().filter(|&&byte| byte == b' ').count() > 4;
        let now = blocks.tally.lines;
        assert!(now >= lines, "more room, and fewer lines");
        lines = now;
        tally.add(&blocks.tally);
    }
    println!("every room: {tally:?}");
    assert_eq!(lines, 4);
    assert!(values, "some of the lines have a value");
    assert!(tally.full >= LINE_ROOM as u64 && tally.whole > 0);
}

/// Totals of any size: lines are numbered on from them, up to the greatest number.
#[test]
fn totals() {
    let mut random = Random::new(34);
    let mut tally = Tally::default();
    let most = u64::MAX;
    for seed in 0..40 {
        let log = made_log(seed, 60);
        for totals in [
            [9, 9],
            [99_999, 0],
            [most / 2, most / 3],
            [9_999_999_999_999_999_999, 9],
            [most - 70, most - 70],
            [most - 70, 0],
            [most - 8, 3],
            [most - 1, 0],
            [most, 0],
            [100, most],
            [100, most - 1],
            [100, most - 5],
            [most - 30, most - 5],
            [most, most],
            [random.number(), random.number()],
        ] {
            let mut blocks = Blocks::new(&[0; TABLE_CELLS], totals);
            let mut rest = &log[..];
            // A few blocks, some of which come after the greatest number.
            for _ in 0..6 {
                let (taken, text) = blocks.work(rest, any_room(&mut random), random.below(3));
                rest = &rest[taken..];
                let text = String::from_utf8(text).expect("lines are text");
                if let Some(last) = text.lines().last() {
                    assert!(last.starts_with(&format!("{} ", blocks.totals[0])), "{last}");
                }
            }
            tally.add(&blocks.tally);
        }
    }
    println!("totals: {tally:?}");
    assert!(tally.counted_out > 300 && tally.full > 300 && tally.whole > 300);
    assert!(tally.lines > 5000 && tally.refused > 1000);
}

/// The longest line there is: the greatest number of a record, and a value of sixteen datasets.
#[test]
fn longest_line() {
    use differential::signed::{messages, value, EXPERIMENT};
    use yardstick::{log_record, Way};
    let mut table = Table::default();
    for (way, message) in messages(16, 2) {
        assert_eq!(table.offer(way, &message, EXPERIMENT), Ok(()));
    }
    let least = vec![i32::MIN.to_le_bytes().to_vec(); 16];
    let log = log_record(0, Way::Up, &value(&least), 0);
    for room in [LINE_ROOM - 1, LINE_ROOM, LINE_ROOM + 1] {
        let mut blocks = Blocks::new(&table.to_cells(), [u64::MAX - 1, 0]);
        let (_, text) = blocks.work(&log, room, 0);
        let line = format!("{} 0 255 15 2 65535{}\n", u64::MAX, " -2147483648".repeat(16));
        let line = if room < LINE_ROOM { "" } else { &line };
        assert_eq!(String::from_utf8_lossy(&text), line, "room {room}");
    }
}

/// Logs that begin with a table which no messages have made in this order.
#[test]
fn other_tables() {
    let mut random = Random::new(35);
    let mut tally = Tally::default();
    for (seed, example) in (100..).zip(SOUND.iter().filter(|example| example.is_sound)) {
        let log = made_log(seed, 200);
        let mut blocks = Blocks::new(&example.cells(), [seed, 1]);
        work_through(&mut blocks, &mut random, &log);
        tally.add(&blocks.tally);
    }
    println!("other tables: {tally:?}");
    assert!(tally.lines > 3000 && tally.full > 100);
}

/// Bytes of no log at all.
#[test]
fn random_bytes() {
    let mut random = Random::new(36);
    let mut tally = Tally::default();
    for _ in 0..60 {
        let size = random.below(60 * LOG_RECORD);
        let mut log: Vec<u8> = (0..size).map(|_| random.byte()).collect();
        // Half of them have a right direction and a zero after it.
        if random.once_in(2) {
            for record in log.chunks_exact_mut(LOG_RECORD) {
                record[4..6].copy_from_slice(&[random.below(2) as u8, 0]);
            }
        }
        let mut blocks = Blocks::new(&[0; TABLE_CELLS], [0, 0]);
        let text = work_through(&mut blocks, &mut random, &log);
        assert!(text == lines_of(&log), "other lines than the log's");
        tally.add(&blocks.tally);
    }
    println!("random bytes: {tally:?}");
    assert!(tally.lines > 1000 && tally.refused > 1000);
}
