use std::collections::BTreeSet;

use yardstick::{MessageList, Offered, Refusal, Table, Way, Wiring};

use super::answer::{dataset_cells, format_cells, offer_answer, port_cells, values_cells};
use super::lent_table::LentTable;
use super::tally::TableTally;
use crate::answer::{refused, BAD_ROW};
use crate::castanetash::{DATASET_CELLS, MOST_DATASETS, PORT_CELLS};
use crate::wrong_size::expect_size_by_hand;

/// A list of messages that three follow: the product's table, the second program's table and the reader without a
/// table. Every comparison panics if two of them differ, or tell another size than the one that is wanted by hand.
#[derive(Clone)]
pub struct Trio {
    product: LentTable,
    table: Table,
    list: MessageList,
    /// The ports that went with an experiment number.
    gone: BTreeSet<u8>,
    /// Those that went while they were combined.
    combined_gone: BTreeSet<u8>,
}

impl Default for Trio {
    /// The empty list.
    fn default() -> Trio {
        Trio {
            product: LentTable::empty(),
            table: Table::default(),
            list: MessageList::default(),
            gone: BTreeSet::new(),
            combined_gone: BTreeSet::new(),
        }
    }
}

impl Trio {
    /// The second program's table.
    pub fn table(&self) -> &Table {
        &self.table
    }

    /// Offers a message with its experiment number, and compares the answers and all cells of the two tables. Gives the
    /// ports that the message may have touched: those it names, their partners and those that went.
    pub fn offer(&mut self, tally: &mut TableTally, way: Way, message: &[u8], experiment: u16) -> Vec<u8> {
        let before = self.table.clone();
        let mut touched = self.named(message);
        let answer = self.table.offer(way, message, experiment);
        let by_list = self.list.push(way, message, experiment);
        let by_product = self.product.offer(way, message, experiment);
        let name = || format!("{message:02X?} {way:?} with {experiment}");
        assert_eq!(by_list, answer, "the second program differs on {}", name());
        assert_eq!(by_product, offer_answer(answer), "the product differs on {}", name());
        expect_size_by_hand(way, message, answer.err());
        assert_eq!(
            self.product.cells(),
            self.table.to_cells(),
            "the tables differ after {}",
            name()
        );
        let offered = Offered {
            before: &before,
            after: &self.table,
            message,
            experiment,
            answer,
        };
        tally.count_offered(answer);
        tally.count_offered_experiment(&mut self.gone, &offered);
        tally.count_offered_combined(&mut self.combined_gone, &offered);
        touched.extend(self.named(message));
        touched.extend(before.ports().filter(|&port| self.table.port(port).is_none()));
        touched.sort_unstable();
        touched.dedup();
        touched
    }

    /// Hands out a dataset of a message as the next of the list. Gives the product's cells, unless it is refused.
    pub fn hand_out(
        &mut self,
        tally: &mut TableTally,
        way: Way,
        message: &[u8],
        number: usize,
    ) -> Option<[u64; DATASET_CELLS]> {
        let answer = self.table.hand_out(way, message, number);
        let by_list = self.list.hand_out(way, message, number);
        let by_product = self.product.dataset(way, message, number);
        assert_eq!(
            by_list, answer,
            "the second program differs on dataset {number} of {message:02X?} {way:?}"
        );
        assert_eq!(
            by_product,
            dataset_cells(answer),
            "the product differs on dataset {number} of {message:02X?} {way:?}"
        );
        expect_size_by_hand(way, message, answer.err());
        tally.count_handed_out(answer);
        if let Ok(dataset) = answer {
            tally.count_dataset(&self.table, &dataset);
        }
        by_product.ok()
    }

    /// Hands out all datasets of a message in one call, and compares them with those that the product hands out one by
    /// one. There have to be as many cells as they have.
    pub fn hand_out_all(&mut self, tally: &mut TableTally, way: Way, message: &[u8]) {
        let answer = self.table.values(way, message);
        let name = || format!("the values of {message:02X?} {way:?}");
        let by_list = self.list.values(way, message);
        assert_eq!(by_list, answer, "the second program differs on {}", name());
        expect_size_by_hand(way, message, answer.as_ref().err().copied());
        tally.count_whole(answer.as_ref().map(Vec::len).map_err(|&refusal| refusal));
        let by_product = self.product.values(way, message);
        assert_eq!(by_product, values_cells(answer), "the product differs on {}", name());
        match by_product {
            Ok(cells) => {
                let rows = cells.chunks_exact(DATASET_CELLS);
                let datasets = rows.len();
                for (number, row) in rows.enumerate() {
                    let one = self.product.dataset(way, message, number);
                    assert_eq!(
                        one.as_ref().map(|one| &one[..]),
                        Ok(row),
                        "dataset {number} of {}",
                        name()
                    );
                }
                let next = self.product.dataset(way, message, datasets);
                assert_eq!(next, Err(refused(Refusal::NO_DATASET)), "past {}", name());
                let room = cells.len();
                assert_eq!(self.product.values_in(way, message, room), Ok(cells), "{}", name());
                let too_short = self.product.values_in(way, message, room - 1);
                assert_eq!(too_short, Err(BAD_ROW), "{}", name());
            }
            // At least one of them is refused so, and the others not.
            Err(answer) if answer == refused(Refusal::NOT_FINITE) => {
                let answers = (0..MOST_DATASETS).map(|number| self.product.dataset(way, message, number));
                let refusals: Vec<u64> = answers.filter_map(Result::err).collect();
                assert!(refusals.contains(&answer), "{}", name());
                let others = [answer, refused(Refusal::NO_DATASET)];
                assert!(refusals.iter().all(|it| others.contains(it)), "{}", name());
            }
            Err(answer) => {
                let one = self.product.dataset(way, message, 0);
                assert_eq!(one, Err(answer), "{}", name());
                // Fewer cells don't matter.
                assert_eq!(self.product.values_in(way, message, 0), Err(answer), "{}", name());
            }
        }
    }

    /// Compares what is held about a port, and the formats of its modes. Gives whether the product has it as present.
    pub fn compare_port(&mut self, tally: &mut TableTally, port: u8) -> bool {
        let answer = self.table.port(port);
        assert_eq!(
            self.list.port(port),
            answer,
            "the second program differs on port {port}"
        );
        let by_product = self.product.port(port);
        assert_eq!(by_product, port_cells(Ok(answer)), "the product differs on port {port}");
        tally.count_port(answer);
        // No mode of an absent port has a format; a mode over 15 has none either.
        match answer {
            Some(_) => (0..=16).for_each(|mode| self.compare_format(tally, port, mode)),
            None => self.compare_format(tally, port, port % 16),
        }
        by_product != Ok([0; PORT_CELLS])
    }

    /// Compares the ports, and the list of those that are present.
    pub fn compare_ports(&mut self, tally: &mut TableTally, ports: impl IntoIterator<Item = u8>) {
        for port in ports {
            self.compare_port(tally, port);
        }
        let mut present: Vec<u8> = self.table.ports().collect();
        present.sort_unstable();
        tally.count_ports(present.len());
        assert_eq!(self.product.ports(), Ok(present), "the product differs on the ports");
    }

    /// Compares all 256 ports, and the list of those that are present with them.
    pub fn compare_all_ports(&mut self, tally: &mut TableTally) {
        let present: Vec<u8> = (0..=255).filter(|&port| self.compare_port(tally, port)).collect();
        tally.count_ports(present.len());
        assert!(
            self.list.ports().eq(present.iter().copied()),
            "the second program differs on the ports"
        );
        assert_eq!(self.product.ports(), Ok(present), "the ports and the list of them");
    }

    /// The ports that a message names, and their partners.
    fn named(&self, message: &[u8]) -> Vec<u8> {
        // Wherever messages name ports.
        let places = [3, 4, 5, 7, 8].into_iter();
        let mut ports: Vec<u8> = places.filter_map(|place| message.get(place).copied()).collect();
        for port in ports.clone() {
            match self.table.port(port).map(|it| it.wiring) {
                Some(Wiring::Joined { virtual_port }) => ports.push(virtual_port),
                Some(Wiring::Virtual { port_a, port_b }) => ports.extend([port_a, port_b]),
                Some(Wiring::Unjoined) | None => {}
            }
        }
        ports
    }

    fn compare_format(&mut self, tally: &mut TableTally, port: u8, mode: u8) {
        let answer = self.table.format(port, mode);
        assert_eq!(
            self.list.format(port, mode),
            answer,
            "the second program differs on port {port}, mode {mode}"
        );
        assert_eq!(
            self.product.format(port, mode),
            format_cells(Ok(answer)),
            "the product differs on port {port}, mode {mode}"
        );
        if answer.is_some() {
            tally.count_format();
        }
    }
}
