use crate::table::{TableCells, RECORD_CELLS, TABLE_CELLS};

/// Changes of a sound table, with whether it is sound after them.
pub struct SoundExample {
    /// What is changed.
    pub name: &'static str,
    /// The sound table.
    base: &'static [Base],
    /// The changes: place, cell of the record, content.
    changes: &'static [(usize, usize, u32)],
    /// Whether the table is still sound.
    pub is_sound: bool,
}

impl SoundExample {
    /// The cells of the changed table.
    pub fn cells(&self) -> TableCells {
        let mut cells = [0; TABLE_CELLS];
        for base in self.base {
            let record = &mut cells[base.place * RECORD_CELLS..][..RECORD_CELLS];
            record[..base.start.len()].copy_from_slice(base.start);
            for (first, list) in [(LIST, base.list), (TAKEN, base.taken)] {
                record[first] = list.len() as u32;
                record[first + 1..][..list.len()].copy_from_slice(list);
            }
        }
        for &(place, cell, content) in self.changes {
            cells[place * RECORD_CELLS + cell] = content;
        }
        cells
    }
}

/// Where a record has the count of its list, and of the one that was taken over.
const LIST: usize = 29;
const TAKEN: usize = 46;

/// A record of a sound table: its place, the cells that it starts with, and the entries of its lists. The other cells
/// are 0.
struct Base {
    place: usize,
    start: &'static [u32],
    list: &'static [u32],
    taken: &'static [u32],
}

const fn plain(place: usize, start: &'static [u32]) -> Base {
    listed(place, start, &[], &[])
}

const fn listed(place: usize, start: &'static [u32], list: &'static [u32], taken: &'static [u32]) -> Base {
    Base {
        place,
        start,
        list,
        taken,
    }
}

/// A sound table without lists.
#[rustfmt::skip]
const BASE: &[Base] = &[
    // Ports 0 and 1 are the members of port 16, ports 7 and 6 those of port 0x11, which is before them.
    plain(0, &[2, 0, 0x26, 16, 0]),
    plain(1, &[2, 1, 0xFFFF, 16, 0, 1, 3, 1, 1, 0xFFFF]),
    plain(2, &[3, 16, 0x26, 0, 1, 2, 16, 5, 0, 0x0102, 16, 5, 0]),
    plain(5, &[3, 0x11, 0, 7, 6]),
    plain(6, &[2, 6, 0, 0x11, 0]),
    plain(7, &[2, 7, 0, 0x11, 0]),
    // State 3: another delta, another notify, another mode.
    plain(8, &[1, 2, 0, 0, 0, 3, 1, 0x8000_0000, 0, 7, 1, 0, 0]),
    plain(9, &[1, 3, 0, 0, 0, 3, 1, 0, 0, 0, 1, 0, 1]),
    plain(10, &[1, 4, 0, 0, 0, 3, 2, 0, 1, 256, 1, 0, 1]),
    // State 1, with an older answer that is equal and one that isn't; state 0 with an answer, state 2.
    plain(11, &[1, 8, 0, 0, 0, 1, 1, 0, 0, 1, 1, 0, 0]),
    plain(12, &[1, 9, 0, 0, 0, 1, 16, 9, 1, 0, 1, 8, 0]),
    plain(13, &[1, 10, 0, 0, 0, 0, 0, 0, 0, 0, 16, u32::MAX, 1]),
    plain(14, &[1, 11, 0, 0, 0, 2, 1, 0, 0, 0, 1, 0, 0]),
    // Formats of modes 0 to 3.
    plain(15, &[1, 255, 0, 0, 0, 0, 0, 0, 0, 0, 0, 0, 0, 0x0000_0001, 0xFFFF_0310, 0, 0x0001_0210]),
];

/// A sound table of ports with lists: place 10 is free, and ports 13 and 14 are the members of port 15.
#[rustfmt::skip]
const COMBINED_BASE: &[Base] = &[
    // A list asked: unanswered; answered by a 48 with all pointers, and with some; then another list asked.
    listed(0, &[1, 0, 0x26, 0, 0, 1, 17, 0, 0, 9], &[0x10, 0x21], &[]),
    listed(1, &[1, 1, 0, 0, 0, 2, 17, 0, 0, 7, 17, 3, 0], &[0x10, 0x21], &[0x10, 0x21]),
    listed(2, &[1, 2, 0, 0, 0, 3, 17, 0, 0, 0, 17, 1, 0], &[0x10, 0x21], &[0x10, 0x21]),
    listed(3, &[1, 3, 0, 0, 0, 1, 17, 0, 0, 0xFFFF, 17, 2, 0], &[0x21, 0x10, 0x32], &[0x10, 0x21]),
    // A mode asked after a list: answered by a 48; the 48 before it, by another list; answered by a 47.
    listed(4, &[1, 4, 0, 0, 0, 3, 3, 1, 1, 5, 17, 3, 0], &[0x10, 0x21], &[0x10, 0x21]),
    listed(5, &[1, 5, 0, 0, 0, 1, 3, 1, 1, 5, 17, 3, 0], &[0xFF], &[0x10, 0x21]),
    listed(6, &[1, 6, 0, 0, 0, 2, 3, 1, 1, 5, 3, 1, 1], &[0x00], &[]),
    // A list asked, answered by a 47.
    listed(7, &[1, 7, 0, 0, 0, 3, 17, 0, 0, 5, 3, 1, 1], &[0x00, 0xFF], &[]),
    // The longest list, with all pointers and with the last.
    listed(8, &[1, 8, 0, 0, 0, 2, 17, 0, 0, 5, 17, 0xFFFF, 0], LONGEST, LONGEST),
    listed(9, &[1, 9, 0, 0, 0, 3, 17, 0, 0, 5, 17, 0x8000, 0], LONGEST, LONGEST),
    // Nothing asked, and answered by a 47. A list asked, with a 47 before it.
    plain(11, &[1, 11, 0, 0, 0, 0, 0, 0, 0, 0, 3, 0, 1]),
    listed(12, &[1, 12, 0, 0, 0, 1, 17, 0, 0, 1, 3, 0, 0], &[0x10], &[]),
    // A virtual port that is combined.
    plain(13, &[2, 13, 0, 15, 0]),
    plain(14, &[2, 14, 0, 15, 0]),
    listed(15, &[3, 15, 0, 13, 14, 2, 17, 0, 0, 8, 17, 1, 0], &[0x10], &[0x10]),
];

const LONGEST: &[u32] = &[0, 1, 2, 3, 4, 5, 6, 7, 8, 9, 10, 11, 12, 13, 14, 15];

const fn sound(name: &'static str, changes: &'static [(usize, usize, u32)]) -> SoundExample {
    SoundExample {
        name,
        base: BASE,
        changes,
        is_sound: true,
    }
}

const fn unsound(name: &'static str, changes: &'static [(usize, usize, u32)]) -> SoundExample {
    SoundExample {
        is_sound: false,
        ..sound(name, changes)
    }
}

const fn sound_lists(name: &'static str, changes: &'static [(usize, usize, u32)]) -> SoundExample {
    SoundExample {
        base: COMBINED_BASE,
        ..sound(name, changes)
    }
}

const fn unsound_lists(name: &'static str, changes: &'static [(usize, usize, u32)]) -> SoundExample {
    SoundExample {
        base: COMBINED_BASE,
        ..unsound(name, changes)
    }
}

/// Tables that break one condition each, and tables next to them that are sound.
#[rustfmt::skip]
pub const SOUND: &[SoundExample] = &[
    sound("nothing", &[]),
    // Lists.
    unsound("wiring 4", &[(15, 0, 4)]),
    unsound("port 256", &[(15, 1, 256)]),
    unsound("port 2^32 - 1", &[(15, 1, u32::MAX)]),
    sound("another port", &[(15, 1, 254)]),
    sound("device 65535", &[(15, 2, 65535)]),
    unsound("device 65536", &[(15, 2, 65536)]),
    sound("asked mode 15", &[(12, 6, 16)]),
    unsound("asked mode 16", &[(12, 6, 17)]),
    sound("answered mode 15", &[(12, 10, 16)]),
    unsound("answered mode 16", &[(12, 10, 17)]),
    unsound("asked notify 2", &[(12, 8, 2)]),
    unsound("answered notify 2", &[(12, 12, 2)]),
    unsound("state 4", &[(12, 5, 4)]),
    sound("a format with the most datasets", &[(15, 28, 0x0000_0010)]),
    unsound("a format with 17 datasets", &[(15, 28, 0x0000_0011)]),
    unsound("a format without datasets, of kind 1", &[(15, 28, 0x0000_0100)]),
    unsound("a format without datasets, with figures", &[(15, 28, 0x0001_0000)]),
    unsound("a format without datasets, with decimals", &[(15, 28, 0x0100_0000)]),
    unsound("a format of kind 4", &[(15, 28, 0x0000_0401)]),
    unsound("a format of kind 255", &[(15, 13, 0x0000_FF01)]),
    sound("a format with the most figures and decimals", &[(15, 13, 0xFFFF_0001)]),
    // Ports.
    unsound("a port twice, both unjoined", &[(15, 1, 11)]),
    unsound("a port twice, the first one joined", &[(15, 1, 0)]),
    unsound("a port twice, the first one virtual", &[(15, 1, 16)]),
    unsound("a port twice, the second one joined", &[(1, 1, 7), (2, 4, 7)]),
    // Pairs.
    unsound("an unjoined port with a partner", &[(15, 3, 16)]),
    unsound("an unjoined port with a second member", &[(15, 4, 1)]),
    unsound("a joined port with a second member", &[(1, 4, 1)]),
    unsound("a virtual port with one member twice", &[(2, 4, 0), (1, 0, 1), (1, 3, 0)]),
    unsound("a virtual port with an absent member", &[(2, 4, 200), (1, 0, 1), (1, 3, 0)]),
    unsound("a virtual port with an absent first member", &[(5, 3, 300), (7, 0, 1), (7, 3, 0)]),
    unsound("a virtual port with an unjoined second member", &[(1, 0, 1), (1, 3, 0)]),
    unsound("a virtual port with an unjoined first member", &[(7, 0, 1), (7, 3, 0)]),
    unsound("a virtual port with a virtual member", &[(2, 4, 0x11), (1, 0, 1), (1, 3, 0)]),
    unsound("a virtual port that names itself", &[(2, 4, 16), (1, 0, 1), (1, 3, 0)]),
    unsound("a virtual port with another's second member", &[(2, 4, 6), (1, 0, 1), (1, 3, 0)]),
    unsound("a virtual port with another's first member", &[(2, 3, 7), (0, 0, 1), (0, 3, 0)]),
    unsound("two virtual ports with the same members", &[
        (5, 3, 0), (5, 4, 1), (6, 0, 1), (6, 3, 0), (7, 0, 1), (7, 3, 0),
    ]),
    unsound("a third port joined to a virtual one", &[(15, 0, 2), (15, 3, 16)]),
    unsound("a port joined to an absent one", &[(15, 0, 2), (15, 3, 200)]),
    unsound("a port joined to port 0, which is joined", &[(15, 0, 2), (15, 3, 0)]),
    unsound("a port joined to an unjoined one", &[(15, 0, 2), (15, 3, 11)]),
    unsound("a port joined to itself", &[(15, 0, 2), (15, 3, 255)]),
    unsound("members that name each other's virtual port", &[(0, 3, 0x11), (7, 3, 16)]),
    unsound("a partner that is right in its lowest byte", &[(0, 3, 256 + 16)]),
    unsound("a member that is right in its lowest byte", &[(2, 4, 256 + 1)]),
    unsound("an unjoined port made virtual", &[(15, 0, 3)]),
    unsound("an unjoined port made joined", &[(15, 0, 2)]),
    sound("members in the other order", &[(2, 3, 1), (2, 4, 0)]),
    sound("members exchanged", &[(2, 4, 6), (5, 4, 1), (1, 3, 0x11), (6, 3, 16)]),
    sound("a pair taken apart", &[(2, 0, 1), (2, 4, 0), (0, 0, 1), (0, 3, 0), (1, 0, 1), (1, 3, 0)]),
    sound("a virtual port with the number 0", &[
        (0, 1, 16), (2, 1, 0), (2, 3, 16), (0, 3, 0), (1, 3, 0),
    ]),
    // Setups and states.
    unsound("nothing asked, with a delta", &[(15, 7, 1)]),
    unsound("nothing asked, with a notify", &[(15, 8, 1)]),
    unsound("nothing asked, with state 1", &[(15, 5, 1)]),
    unsound("nothing asked, with state 2", &[(15, 5, 2)]),
    unsound("nothing asked, with state 3 and an answer", &[(13, 5, 3)]),
    unsound("asked, with state 0", &[(1, 5, 0)]),
    unsound("asked and answered, with state 0", &[(14, 5, 0)]),
    unsound("no answer, with a delta", &[(15, 11, 1)]),
    unsound("no answer, with a notify", &[(1, 12, 1)]),
    unsound("no answer, with state 2", &[(1, 5, 2)]),
    unsound("no answer, with state 3", &[(1, 5, 3)]),
    unsound("another delta, with state 2", &[(8, 5, 2)]),
    unsound("another notify, with state 2", &[(9, 5, 2)]),
    unsound("another mode, with state 2", &[(10, 5, 2)]),
    unsound("an equal answer, with state 3", &[(14, 5, 3)]),
    unsound("an equal answer in a virtual record, with state 3", &[(2, 5, 3)]),
    sound("an equal answer older than the asking", &[(14, 5, 1)]),
    sound("another answer older than the asking", &[(8, 5, 1)]),
    sound("the equal older answer made a later one", &[(11, 5, 2)]),
    sound("the other older answer made a later one", &[(12, 5, 3)]),
    // Experiment numbers: below 65536, and 0 where nothing was asked.
    sound("unanswered, with the experiment number 65535", &[(12, 9, 65535)]),
    unsound("unanswered, with the experiment number 65536", &[(12, 9, 65536)]),
    sound("answered as asked, with the experiment number 65535", &[(14, 9, 65535)]),
    unsound("answered as asked, with the experiment number 65536", &[(14, 9, 65536)]),
    sound("answered otherwise, with the experiment number 65535", &[(9, 9, 65535)]),
    unsound("answered otherwise, with the experiment number 65536", &[(9, 9, 65536)]),
    unsound("an experiment number that is right in its lowest bytes", &[(2, 9, 0x0001_0102)]),
    unsound("the experiment number 2^32 - 1", &[(14, 9, u32::MAX)]),
    sound("asked, with the experiment number 0", &[(1, 9, 0)]),
    sound("a virtual port with another experiment number", &[(2, 9, 0x0201)]),
    unsound("nothing asked, with the experiment number 1", &[(15, 9, 1)]),
    unsound("nothing asked, with the experiment number 65535", &[(15, 9, 65535)]),
    unsound("nothing asked, with the experiment number 65536", &[(15, 9, 65536)]),
    unsound("nothing asked, an answer, with the experiment number 1", &[(13, 9, 1)]),
    unsound("nothing asked of a joined port, with the experiment number 256", &[(0, 9, 256)]),
    unsound("nothing asked of a virtual port, with the experiment number 1", &[(5, 9, 1)]),
    // Free places.
    unsound("a free place with a port", &[(3, 1, 1)]),
    unsound("a free place with a device", &[(3, 2, 1)]),
    unsound("a free place with an experiment number", &[(4, 9, 1)]),
    unsound("a free place with an answer", &[(4, 10, 1)]),
    unsound("a free place with a format", &[(4, 28, 1)]),
    unsound("a record whose wiring is 0", &[(15, 0, 0)]),
    sound("a record at a free place", &[(3, 0, 1), (3, 1, 200), (3, 2, 1)]),
];

/// The same of tables with lists.
#[rustfmt::skip]
pub const COMBINED_SOUND: &[SoundExample] = &[
    sound_lists("no list changed", &[]),
    // Lists: 1 to 16 different bytes, then zeros.
    sound_lists("another entry", &[(0, 31, 0x22)]),
    sound_lists("entry 0", &[(0, 30, 0)]),
    sound_lists("entry 255", &[(0, 31, 255)]),
    unsound_lists("entry 256", &[(0, 31, 256)]),
    unsound_lists("entry 2^32 - 1", &[(0, 30, u32::MAX)]),
    unsound_lists("an entry that is right in its lowest byte", &[(0, 30, 0x110)]),
    unsound_lists("an entry twice", &[(0, 31, 0x10)]),
    unsound_lists("the last of sixteen entries twice", &[(8, 5, 1), (8, 45, 14)]),
    unsound_lists("the first of sixteen entries at the end too", &[(8, 5, 1), (8, 45, 0)]),
    sound_lists("another last of sixteen entries, with the old answer", &[(8, 5, 1), (8, 45, 16)]),
    unsound_lists("an entry after the list", &[(0, 32, 0x32)]),
    unsound_lists("an entry at the end, after the list", &[(0, 45, 1)]),
    unsound_lists("a count that is too small", &[(0, 29, 1)]),
    unsound_lists("no count", &[(0, 29, 0)]),
    sound_lists("a list of one entry", &[(0, 29, 1), (0, 31, 0)]),
    sound_lists("one entry more, which is 0", &[(0, 29, 3)]),
    unsound_lists("two entries more, which are 0", &[(0, 29, 4)]),
    unsound_lists("a count of 16 with two entries", &[(0, 29, 16)]),
    unsound_lists("a count of 17", &[(8, 5, 1), (8, 29, 17)]),
    unsound_lists("a count of 2^32 - 1", &[(0, 29, u32::MAX)]),
    unsound_lists("a count that is right in its lowest byte", &[(0, 29, 256 + 2)]),
    // The asking.
    unsound_lists("a list asked with a delta", &[(0, 7, 1)]),
    unsound_lists("a list asked with a notify", &[(0, 8, 1)]),
    unsound_lists("mode 17 asked", &[(0, 6, 18)]),
    unsound_lists("a list asked that isn't kept", &[(0, 29, 0), (0, 30, 0), (0, 31, 0)]),
    sound_lists("a mode asked in place of the list", &[(0, 6, 1)]),
    sound_lists("mode 15 asked in place of the list", &[(0, 6, 16), (0, 7, u32::MAX), (0, 8, 1)]),
    sound_lists("a mode asked, and no list", &[(6, 29, 0)]),
    unsound_lists("nothing asked, and a list", &[(0, 5, 0), (0, 6, 0), (0, 9, 0)]),
    unsound_lists("nothing asked, a 47, and a list of one entry, which is 0", &[(11, 29, 1)]),
    unsound_lists("nothing asked, a 47, and a list", &[(11, 29, 1), (11, 30, 0x10)]),
    sound_lists("nothing asked, and no list", &[(0, 5, 0), (0, 6, 0), (0, 9, 0), (0, 29, 0), (0, 30, 0), (0, 31, 0)]),
    unsound_lists("a list asked, with the experiment number 65536", &[(0, 9, 65536)]),
    sound_lists("a list asked, with the experiment number 0", &[(0, 9, 0)]),
    // The answer.
    unsound_lists("no pointers", &[(3, 11, 0)]),
    unsound_lists("no pointers, with state 3", &[(2, 11, 0)]),
    sound_lists("other pointers of the list that was taken over", &[(3, 11, 3)]),
    unsound_lists("a pointer past the list that was taken over", &[(3, 11, 4)]),
    unsound_lists("a pointer past the list among others", &[(3, 11, 7)]),
    unsound_lists("a pointer past the list that was taken over, with state 3", &[(2, 11, 4)]),
    unsound_lists("pointers of 17 bits", &[(8, 5, 3), (8, 11, 0x1_0000)]),
    unsound_lists("pointers that are right in their lowest 16 bits", &[(8, 11, 0x1_FFFF)]),
    unsound_lists("a 48 with a notify", &[(1, 12, 1)]),
    unsound_lists("mode 17 answered", &[(1, 10, 18)]),
    unsound_lists("a 48 that took over no list", &[(3, 46, 0), (3, 47, 0), (3, 48, 0)]),
    unsound_lists("a 48 before any list", &[(5, 29, 0), (5, 30, 0)]),
    unsound_lists("a 48, and nothing asked", &[(5, 5, 0), (5, 6, 0), (5, 7, 0), (5, 8, 0), (5, 9, 0)]),
    unsound_lists("a 48, and nothing asked, and no list", &[
        (5, 5, 0), (5, 6, 0), (5, 7, 0), (5, 8, 0), (5, 9, 0), (5, 29, 0), (5, 30, 0),
    ]),
    sound_lists("another list that was taken over", &[(3, 48, 0x22)]),
    unsound_lists("an entry twice in the list that was taken over", &[(3, 48, 0x10)]),
    unsound_lists("entry 256 in the list that was taken over", &[(3, 48, 256)]),
    unsound_lists("an entry after the list that was taken over", &[(3, 49, 0x32)]),
    unsound_lists("an entry at the end, after the list that was taken over", &[(3, 62, 1)]),
    unsound_lists("a count of 17 taken over", &[(9, 46, 17)]),
    unsound_lists("a count taken over that is too small", &[(3, 46, 1)]),
    sound_lists("one entry more taken over, which is 0", &[(3, 46, 3)]),
    unsound_lists("a list taken over before any answer", &[(0, 46, 2), (0, 47, 0x10), (0, 48, 0x21)]),
    unsound_lists("a count taken over before any answer", &[(0, 46, 1)]),
    unsound_lists("an entry taken over before any answer", &[(0, 47, 1)]),
    unsound_lists("a list taken over, and a 47", &[(6, 46, 1)]),
    unsound_lists("an entry taken over, and a 47", &[(12, 47, 0x10)]),
    unsound_lists("a 47 in place of the 48, with the list", &[(1, 5, 3), (1, 10, 1)]),
    sound_lists("a 47 in place of the 48", &[(1, 5, 3), (1, 10, 1), (1, 46, 0), (1, 47, 0), (1, 48, 0)]),
    // A 48 that came after the latest asking has the list that is kept.
    unsound_lists("another list kept, with state 2", &[(1, 31, 0x22)]),
    unsound_lists("another list taken over, with state 2", &[(1, 48, 0x22)]),
    unsound_lists("a longer list kept, with state 2", &[(1, 29, 3)]),
    unsound_lists("another list kept, with state 3", &[(2, 31, 0x22)]),
    unsound_lists("another list kept, with state 3, after a 41", &[(4, 31, 0x22)]),
    unsound_lists("the entries in another order, with state 2", &[(1, 30, 0x21), (1, 31, 0x10)]),
    sound_lists("another list in both places, with state 2", &[(1, 31, 0x22), (1, 48, 0x22)]),
    sound_lists("another list kept, with state 1", &[(1, 5, 1), (1, 31, 0x22)]),
    sound_lists("the same list kept, with state 1", &[(1, 5, 1)]),
    unsound_lists("another list kept, with state 2, of a virtual port", &[(15, 30, 0x11)]),
    // States.
    unsound_lists("all pointers, with state 3", &[(1, 5, 3)]),
    unsound_lists("all pointers, with state 0", &[(1, 5, 0)]),
    unsound_lists("some pointers, with state 2", &[(2, 5, 2)]),
    unsound_lists("the other pointer, with state 2", &[(2, 5, 2), (2, 11, 2)]),
    sound_lists("the other pointer, with state 3", &[(2, 11, 2)]),
    sound_lists("all pointers at last, with state 2", &[(2, 5, 2), (2, 11, 3)]),
    unsound_lists("all pointers at last, with state 3", &[(2, 11, 3)]),
    unsound_lists("a 48 after a 41, with state 2", &[(4, 5, 2)]),
    sound_lists("a 48 after a 41, with some pointers", &[(4, 11, 1)]),
    sound_lists("a 48 before a 41", &[(4, 5, 1)]),
    unsound_lists("a 47 after a list, with state 2", &[(7, 5, 2)]),
    sound_lists("a 47 before a list", &[(7, 5, 1)]),
    unsound_lists("a list asked and no answer, with state 0", &[(0, 5, 0)]),
    unsound_lists("a list asked and no answer, with state 2", &[(0, 5, 2)]),
    unsound_lists("a list asked and no answer, with state 3", &[(0, 5, 3)]),
    unsound_lists("a list asked, with state 4", &[(0, 5, 4)]),
    unsound_lists("sixteen pointers, with state 3", &[(8, 5, 3)]),
    unsound_lists("fifteen pointers, with state 2", &[(8, 11, 0x7FFF)]),
    sound_lists("fifteen pointers, with state 3", &[(8, 5, 3), (8, 11, 0x7FFF)]),
    unsound_lists("the last pointer, with state 2", &[(9, 5, 2)]),
    unsound_lists("a mode answered as asked beside a list, with state 3", &[(6, 5, 3)]),
    // Free places.
    unsound_lists("a free place with a count", &[(10, 29, 1)]),
    unsound_lists("a free place with an entry", &[(10, 30, 1)]),
    unsound_lists("a free place with a last entry", &[(10, 45, 1)]),
    unsound_lists("a free place with a count taken over", &[(10, 46, 1)]),
    unsound_lists("a free place with an entry taken over", &[(10, 47, 1)]),
    unsound_lists("a free place with a last entry taken over", &[(10, 62, 1)]),
    sound_lists("a record at the free place", &[(10, 0, 1), (10, 1, 10)]),
];
