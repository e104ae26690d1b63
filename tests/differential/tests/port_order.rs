//! Ports don't wait for each other: two messages whose ports differ, each a 41, 42, 44, 47 or 48 or refused by reading,
//! leave the same cells in either order, and each gets the same answer. The seeds are fixed, so every run tries the same
//! pairs.

use differential::by_hand::refusal;
use differential::castanetash::port_cell;
use differential::{offer_answer, LentTable, TableTally, Trio};
use yardstick::examples::bytes;
use yardstick::traffic::{Scene, Traffic};
use yardstick::{decode, Form, Table, Way, Wiring, PLACES};

/// The types that tell one port something.
const PORT_TYPES: [u8; 5] = [0x41, 0x42, 0x44, 0x47, 0x48];

/// What asks a port for something.
const ASKINGS: [Form; 2] = [Form::InputFormatSetup, Form::ModeDatasets];

/// A message with its way and its experiment number.
#[derive(Clone, Debug)]
struct Entry {
    way: Way,
    message: Vec<u8>,
    experiment: u16,
}

impl Entry {
    fn new((way, message, experiment): (Way, Vec<u8>, u16)) -> Entry {
        Entry {
            way,
            message,
            experiment,
        }
    }

    fn form(&self) -> Option<Form> {
        decode(self.way, &self.message).ok().map(|it| it.form)
    }

    /// The port, if reading accepts the message.
    fn port(&self) -> Option<u8> {
        self.form().and_then(|_| self.message.get(3).copied())
    }

    /// Of one of the five types, or refused by reading.
    fn is_told(&self) -> bool {
        self.form().is_none() || PORT_TYPES.contains(&self.message[2])
    }

    fn is_asking(&self) -> bool {
        self.form().is_some_and(|form| ASKINGS.contains(&form))
    }

    fn offer(&self, table: &mut LentTable) -> u64 {
        table.offer(self.way, &self.message, self.experiment)
    }

    fn offer_second(&self, table: &mut Table) -> u64 {
        offer_answer(table.offer(self.way, &self.message, self.experiment))
    }
}

/// Whether two messages are such that their order must not matter.
fn may_change_places(one: &Entry, two: &Entry) -> bool {
    let ports_differ = match (one.port(), two.port()) {
        (Some(port), Some(other)) => port != other,
        _ => true,
    };
    one.is_told() && two.is_told() && ports_differ
}

/// What was tried.
#[derive(Debug, Default)]
struct Tried {
    pairs: u64,
    /// Answers, by number, 0 for acceptance.
    answers: [u64; 24],
    both_accepted: u64,
    one_refused: u64,
    /// Both accepted, each of them an asking, with different numbers.
    both_asked: u64,
    /// Both accepted, and their ports are members of one virtual port, or one of them is the other's virtual port.
    members: u64,
    virtual_and_member: u64,
    /// Both accepted, and sixteen ports are present.
    full: u64,
    /// Values that were handed out after both.
    values: u64,
}

impl Tried {
    fn count(&mut self, table: &Table, [one, two]: [&Entry; 2], answers: [u64; 2]) {
        self.pairs += 1;
        for answer in answers {
            self.answers[(answer >> 32) as usize] += 1;
        }
        match answers {
            [0, 0] => self.both_accepted += 1,
            [0, _] | [_, 0] => self.one_refused += 1,
            _ => {}
        }
        let (Some(port), Some(other), [0, 0]) = (one.port(), two.port(), answers) else {
            return;
        };
        let askings = one.is_asking() && two.is_asking();
        self.both_asked += u64::from(askings && one.experiment != two.experiment);
        let wiring = |port| table.port(port).map(|it| it.wiring);
        match (wiring(port), wiring(other)) {
            (Some(Wiring::Joined { virtual_port }), Some(Wiring::Joined { virtual_port: other }))
                if virtual_port == other =>
            {
                self.members += 1
            }
            (Some(Wiring::Joined { virtual_port }), _) if virtual_port == other => self.virtual_and_member += 1,
            (_, Some(Wiring::Joined { virtual_port })) if virtual_port == port => self.virtual_and_member += 1,
            _ => {}
        }
        self.full += u64::from(table.ports().count() == PLACES);
    }

    /// Panics unless all of it came at least so often.
    fn expect(&self, least: u64) {
        let counts = [
            self.both_accepted,
            self.one_refused,
            self.both_asked,
            self.members,
            self.virtual_and_member,
            self.full,
            self.values,
        ];
        assert!(counts.iter().all(|&count| count >= least), "{self:?}");
    }
}

/// Two messages in either order, by the product and the second program: the answers and the tables.
struct Orders {
    /// Each message's answer where it comes first, and where it comes second.
    first: [u64; 2],
    second: [u64; 2],
    /// After the first message alone, and after the second.
    alone: [LentTable; 2],
    /// After both, in either order.
    both: [LentTable; 2],
}

impl Orders {
    fn new(product: &LentTable, second: &Table, entries: [&Entry; 2]) -> Orders {
        let order = |[first, then]: [&Entry; 2]| {
            let (mut table, mut by_second) = (product.clone(), second.clone());
            let answers = [first, then].map(|entry| {
                let answer = entry.offer(&mut table);
                assert_eq!(answer, entry.offer_second(&mut by_second), "{entry:02X?}");
                assert_eq!(table.cells(), by_second.to_cells(), "{entry:02X?}");
                (answer, table.clone())
            });
            answers
        };
        let [one, two] = entries;
        let [(first_one, alone_one), (second_two, one_two)] = order([one, two]);
        let [(first_two, alone_two), (second_one, two_one)] = order([two, one]);
        Orders {
            first: [first_one, first_two],
            second: [second_one, second_two],
            alone: [alone_one, alone_two],
            both: [one_two, two_one],
        }
    }

    /// Whether order doesn't matter: the answers, with their places, and all cells are the same.
    fn agree(&self) -> bool {
        self.first == self.second && self.both[0].cells() == self.both[1].cells()
    }
}

/// Offers two messages in either order. All that is known of each one's port is then what it leaves there alone; an
/// accepted asking leaves its own number.
fn try_pair(tried: &mut Tried, product: &LentTable, second: &Table, entries: [&Entry; 2]) -> Orders {
    let mut orders = Orders::new(product, second, entries);
    assert!(
        orders.agree(),
        "{entries:02X?}: {:X?} and {:X?}",
        orders.first,
        orders.second
    );
    for (index, entry) in entries.into_iter().enumerate() {
        let Some(port) = entry.port() else { continue };
        let alone = orders.alone[index].port(port);
        for both in &mut orders.both {
            let cells = both.port(port);
            assert_eq!(cells, alone, "{entries:02X?}: port {port}");
            for mode in 0..16 {
                let format = orders.alone[index].format(port, mode);
                assert_eq!(
                    both.format(port, mode),
                    format,
                    "{entries:02X?}: port {port}, mode {mode}"
                );
            }
            if orders.first[index] == 0 && entry.is_asking() {
                let cells = cells.expect("a sound table");
                assert_eq!(cells[port_cell::EXPERIMENT], entry.experiment.into(), "{entries:02X?}");
            }
        }
    }
    tried.count(second, entries, orders.first);
    orders
}

/// Hands out a value after both orders.
fn try_value(tried: &mut Tried, orders: &mut Orders, way: Way, value: &[u8]) {
    let [one_two, two_one] = orders.both.each_mut().map(|table| table.values(way, value));
    assert_eq!(one_two, two_one, "{value:02X?}");
    tried.values += u64::from(one_two.is_ok());
}

/// Two messages whose order must not matter.
fn next_pair(traffic: &mut Traffic, table: &Table) -> [Entry; 2] {
    loop {
        let [one, two] = [0; 2].map(|_| Entry::new(traffic.told(table)));
        if may_change_places(&one, &two) {
            return [one, two];
        }
    }
}

/// Random tables and pairs of messages. A value is handed out after each pair.
#[test]
fn random_pairs() {
    let mut tried = Tried::default();
    for seed in 601..=660 {
        let mut traffic = Traffic::new(seed, Scene::ALL[seed as usize % Scene::ALL.len()]);
        let (mut product, mut second) = (LentTable::empty(), Table::default());
        for _ in 0..250 {
            let next = Entry::new(traffic.next(&second));
            assert_eq!(next.offer(&mut product), next.offer_second(&mut second));
            for _ in 0..3 {
                let [one, two] = next_pair(&mut traffic, &second);
                let mut orders = try_pair(&mut tried, &product, &second, [&one, &two]);
                let mut after = second.clone();
                one.offer_second(&mut after);
                two.offer_second(&mut after);
                let (way, value) = traffic.value(&after);
                try_value(&mut tried, &mut orders, way, &value);
            }
        }
    }
    println!("random pairs: {tried:?}");
    assert_eq!(tried.pairs, 45_000);
    tried.expect(500);
    for number in [0, 5, 6, 7, 10, 21] {
        assert!(tried.answers[number] >= 500, "{number}: {tried:?}");
    }
}

/// Two messages within a list, and the rest of it after them, in either order: the product, the second program's table and
/// the reader without a table agree throughout, and the tables are the same at the end.
#[test]
fn within_a_list() {
    let mut tally = TableTally::default();
    for seed in 701..=760 {
        let mut traffic = Traffic::new(seed, Scene::ALL[seed as usize % Scene::ALL.len()]);
        let mut trio = Trio::default();
        for _ in 0..60 {
            let (way, message, experiment) = traffic.next(trio.table());
            trio.offer(&mut tally, way, &message, experiment);
        }
        for _ in 0..10 {
            let [one, two] = next_pair(&mut traffic, trio.table());
            let mut other = trio.clone();
            for (trio, entries) in [(&mut trio, [&one, &two]), (&mut other, [&two, &one])] {
                for entry in entries {
                    trio.offer(&mut tally, entry.way, &entry.message, entry.experiment);
                }
            }
            assert_eq!(trio.table(), other.table(), "{one:02X?}, {two:02X?}");
            other.compare_all_ports(&mut tally);
            for _ in 0..4 {
                let (way, message, experiment) = traffic.next(trio.table());
                trio.offer(&mut tally, way, &message, experiment);
                other.offer(&mut tally, way, &message, experiment);
                assert_eq!(
                    trio.table(),
                    other.table(),
                    "{one:02X?}, {two:02X?}, then {message:02X?}"
                );
            }
        }
    }
    println!("within a list: {tally}");
    tally.expect_offered([0], 2000);
}

/// A table and its second, after messages that are all accepted.
fn after(entries: &[(Way, &str)]) -> (LentTable, Table) {
    let (mut product, mut second) = (LentTable::empty(), Table::default());
    for (index, &(way, message)) in entries.iter().enumerate() {
        let entry = Entry::new((way, bytes(message), 100 + index as u16));
        assert_eq!(entry.offer(&mut product), 0, "{message}");
        assert_eq!(entry.offer_second(&mut second), 0, "{message}");
    }
    (product, second)
}

const ATTACH_0: (Way, &str) = (Way::Up, "0F 00 04 00 01 26 00 00 00 00 10 00 00 00 10");
const ATTACH_1: (Way, &str) = (Way::Up, "0F 00 04 01 01 26 00 00 00 00 10 00 00 00 10");
const JOIN: (Way, &str) = (Way::Up, "09 00 04 10 02 26 00 00 01");

/// Each of the five types about a port, accepted and refused: setups, lists, other sub commands, formats, texts, answers
/// with one, two and no pointers, and messages that reading refuses.
fn about(port: u8) -> Vec<Entry> {
    let messages = [
        (Way::Down, "0A 00 41 00 02 01 00 00 00 01"),
        (Way::Down, "0A 00 41 00 03 01 00 00 00 00"),
        (Way::Down, "0A 00 41 00 10 01 00 00 00 00"),
        (Way::Up, "0A 00 41 00 02 01 00 00 00 01"),
        (Way::Down, "07 00 42 00 01 00 20"),
        (Way::Down, "08 00 42 00 01 00 30 21"),
        (Way::Down, "08 00 42 00 01 00 30 30"),
        (Way::Down, "05 00 42 00 06"),
        (Way::Up, "0A 00 44 00 02 80 01 02 04 00"),
        (Way::Up, "0A 00 44 00 02 80 03 00 04 00"),
        (Way::Up, "0A 00 44 00 02 80 11 00 04 00"),
        (Way::Up, "07 00 44 00 02 00 41"),
        (Way::Up, "0A 00 47 00 02 01 00 00 00 01"),
        (Way::Up, "0A 00 47 00 03 01 00 00 00 00"),
        (Way::Up, "07 00 48 00 00 01 00"),
        (Way::Up, "07 00 48 00 00 03 00"),
        (Way::Up, "07 00 48 00 00 00 00"),
        (Way::Up, "06 00 48 00 00 01"),
    ];
    let about_port = |(index, (way, message)): (usize, (Way, &str))| {
        let mut message = bytes(message);
        message[3] = port;
        Entry::new((way, message, 1 + 32 * u16::from(port) + index as u16))
    };
    messages.into_iter().enumerate().map(about_port).collect()
}

/// Every pair of such messages about two of four ports: a virtual port, its members and one that is not present; and of
/// messages that reading refuses about any. The table is bare, set up, combined, and full.
#[test]
fn every_pair() {
    let joined = vec![ATTACH_0, ATTACH_1, JOIN];
    let asked = [
        (Way::Up, "0A 00 44 00 02 80 01 02 04 00"),
        (Way::Up, "0A 00 44 01 02 80 01 02 04 00"),
        (Way::Down, "0A 00 41 00 02 01 00 00 00 01"),
        (Way::Down, "0A 00 41 10 02 01 00 00 00 01"),
        (Way::Up, "0A 00 47 01 02 01 00 00 00 01"),
    ];
    let combined = [
        (Way::Down, "08 00 42 00 01 00 20 21"),
        (Way::Down, "08 00 42 01 01 00 30 31"),
        (Way::Down, "07 00 42 10 01 00 20"),
        (Way::Up, "07 00 48 00 00 03 00"),
        (Way::Up, "07 00 48 10 00 01 00"),
    ];
    let others: Vec<String> = (0x20..0x2D)
        .map(|port| format!("0F 00 04 {port:02X} 01 26 00 00 00 00 10 00 00 00 10"))
        .collect();
    let others: Vec<(Way, &str)> = others.iter().map(|message| (Way::Up, message.as_str())).collect();
    let messages: Vec<Entry> = [0x00, 0x01, 0x10, 0x07].into_iter().flat_map(about).collect();
    let values = [
        "08 00 45 00 01 02 03 04",
        "08 00 45 01 FE FF FF FF",
        "0A 00 46 00 01 00 05 00 00 00",
    ];
    let mut tried = Tried::default();
    for entries in [
        vec![],
        joined.clone(),
        [&joined[..], &asked].concat(),
        [&joined[..], &combined].concat(),
        [&joined[..], &asked, &combined, &others].concat(),
    ] {
        let (product, second) = after(&entries);
        for one in &messages {
            for two in &messages {
                if may_change_places(one, two) {
                    let mut orders = try_pair(&mut tried, &product, &second, [one, two]);
                    for value in values {
                        try_value(&mut tried, &mut orders, Way::Up, &bytes(value));
                    }
                }
            }
        }
    }
    println!("every pair: {tried:?}");
    tried.expect(300);
    assert!(
        [0, 5, 6, 7, 10, 21].iter().all(|&number| tried.answers[number] >= 500),
        "{tried:?}"
    );
}

/// A virtual port and its member are asked, each with a number: both keep theirs, in either order.
#[test]
fn a_virtual_port_and_its_member() {
    let (product, second) = after(&[ATTACH_0, ATTACH_1, JOIN]);
    let member = Entry::new((Way::Down, bytes("0A 00 41 00 02 01 00 00 00 01"), 7));
    let joint = Entry::new((Way::Down, bytes("07 00 42 10 01 00 20"), 9));
    let orders = try_pair(&mut Tried::default(), &product, &second, [&member, &joint]);
    for mut table in orders.both {
        let numbers = [0x00, 0x01, 0x10].map(|port| table.port(port).expect("a sound table")[port_cell::EXPERIMENT]);
        assert_eq!(numbers, [7, 0, 9]);
        let states = [0x00, 0x01, 0x10].map(|port| table.port(port).expect("a sound table")[port_cell::STATE]);
        assert_eq!(states, [1, 0, 1]);
    }
}

/// A refused message does not wait either: 10, 21, and a place of reading's, in either order.
#[test]
fn refusals_in_either_order() {
    let (product, second) = after(&[ATTACH_0]);
    let ask = Entry::new((Way::Down, bytes("0A 00 41 00 02 01 00 00 00 01"), 7));
    for (way, message, answer) in [
        (Way::Down, "0A 00 41 07 02 01 00 00 00 01", refusal(10, 0)),
        // The port of what reading refuses is of no account.
        (Way::Down, "0A 00 41 00 02 01 00 00 00 02", refusal(7, 9)),
        (Way::Down, "09 00 41 00 02 01 00 00 00", refusal(6, 10)),
        (Way::Up, "0A 00 41 00 02 01 00 00 00 01", refusal(5, 2)),
        (Way::Up, "", refusal(1, 0)),
    ] {
        let other = Entry::new((way, bytes(message), 9));
        let orders = try_pair(&mut Tried::default(), &product, &second, [&ask, &other]);
        assert_eq!(orders.first, [0, answer], "{message}");
    }
    let taken = Entry::new((Way::Up, bytes("07 00 48 00 00 01 00"), 7));
    let absent = Entry::new((Way::Up, bytes("07 00 48 01 00 01 00"), 9));
    let orders = try_pair(&mut Tried::default(), &product, &second, [&taken, &absent]);
    assert_eq!(orders.first, [refusal(21, 0), refusal(10, 0)]);
}

/// A table that is not sound refuses both in either order, and stays as it is.
#[test]
fn a_table_that_is_not_sound() {
    let (mut product, _) = after(&[ATTACH_0, ATTACH_1]);
    // Port 1 twice.
    product.set(1, 1);
    let before = product.cells().to_vec();
    let [one, two] = [0x00, 0x01].map(|port| about(port)[0].clone());
    for order in [[&one, &two], [&two, &one]] {
        assert_eq!(order.map(|entry| entry.offer(&mut product)), [refusal(9, 0); 2]);
        assert_eq!(product.cells(), before);
    }
}

/// The conditions matter. To one port order matters: a 47 after a 41 gives state 2, before it state 1.
#[test]
fn one_port_waits_for_itself() {
    let (product, second) = after(&[ATTACH_0]);
    let ask = Entry::new((Way::Down, bytes("0A 00 41 00 02 01 00 00 00 01"), 7));
    let answer = Entry::new((Way::Up, bytes("0A 00 47 00 02 01 00 00 00 01"), 7));
    assert!(!may_change_places(&ask, &answer));
    let mut orders = Orders::new(&product, &second, [&ask, &answer]);
    assert!(!orders.agree());
    let states = orders
        .both
        .each_mut()
        .map(|table| table.port(0).expect("a sound table")[port_cell::STATE]);
    assert_eq!(states, [2, 1]);
}

/// Of other types order matters, though the ports differ: the detachment of a member takes its virtual port with it, and two
/// attachments take their places in the order in which they come.
#[test]
fn other_types_may_wait() {
    let (product, second) = after(&[ATTACH_0, ATTACH_1, JOIN]);
    let detach = Entry::new((Way::Up, bytes("05 00 04 00 00"), 0));
    let ask = Entry::new((Way::Down, bytes("0A 00 41 10 02 01 00 00 00 01"), 7));
    assert!(!may_change_places(&detach, &ask));
    let orders = Orders::new(&product, &second, [&detach, &ask]);
    assert_eq!((orders.first, orders.second), ([0, 0], [0, refusal(10, 0)]));
    assert!(!orders.agree());

    let (product, second) = after(&[]);
    let attachments = [ATTACH_0, ATTACH_1].map(|(way, message)| Entry::new((way, bytes(message), 0)));
    let [one, two] = &attachments;
    assert!(!may_change_places(one, two));
    let orders = Orders::new(&product, &second, [one, two]);
    assert_eq!((orders.first, orders.second), ([0, 0], [0, 0]));
    assert!(!orders.agree());
}
