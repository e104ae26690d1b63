use super::opening::opening;
use crate::log::{log_message, log_record, LOG_RECORD, MESSAGE_PART};
use crate::random::Random;
use crate::table::Table;
use crate::traffic::{Scene, Traffic};

/// After how many records the messages are about something else.
const SCENE: u64 = 500;

/// The log of everything: its opening, then random messages, some of them in damaged records.
pub(super) struct Every {
    random: Random,
    traffic: Traffic,
    /// What a reader of the log holds, which guides the messages.
    table: Table,
    time: u32,
    records: u64,
    opening: std::vec::IntoIter<[u8; LOG_RECORD]>,
}

impl Every {
    pub(super) fn new(seed: u64) -> Every {
        Every {
            random: Random::new(seed),
            traffic: Traffic::new(seed, Scene::Mixed),
            table: Table::default(),
            time: 0,
            records: 0,
            opening: opening().into_iter(),
        }
    }

    /// The next record of the log.
    pub(super) fn next_record(&mut self) -> [u8; LOG_RECORD] {
        let record = match self.opening.next() {
            Some(record) => record,
            None => self.random_record(),
        };
        if let Ok((way, message, experiment)) = log_message(&record) {
            // A refused message changes nothing.
            let _ = self.table.offer(way, message, experiment);
        }
        record
    }

    fn random_record(&mut self) -> [u8; LOG_RECORD] {
        self.records += 1;
        if self.records.is_multiple_of(SCENE) {
            let scene = self.random.one_of(&Scene::ALL);
            self.traffic = Traffic::new(self.random.number(), scene);
        }
        self.time = self.time.wrapping_add(self.random.below(1 << 20) as u32);
        let (way, mut message, experiment) = self.traffic.next(&self.table);
        message.truncate(MESSAGE_PART);
        let mut record = log_record(self.time, way, &message, experiment);
        match self.random.below(64) {
            0 | 1 => {
                let place = self.random.between(4, LOG_RECORD - 1);
                record[place] = self.random.byte();
            }
            // The zero and the number's bytes.
            2 => record[5..8].fill_with(|| self.random.byte()),
            _ => {}
        }
        record
    }
}
