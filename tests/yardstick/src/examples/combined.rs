use super::messages::{ANSWER_2, ASK_2, ATTACH_0, ATTACH_1, VALUE_1, VIRTUAL_10};
use super::table_step::{
    absent, accepted, accepted_in, bare, combined, format, handed_out, handed_out_in, no_format, refused, refused_in,
    set_up, setup, single, with_list, withheld, TableExample,
};
use crate::answer::Asked::{self, List, Single};
use crate::answer::Setup;
use crate::answer::State::{AsAsked, NothingAsked, Otherwise, Unanswered};
use crate::answer::Value::{Float, Whole};
use crate::answer::Wiring::{Joined, Unjoined, Virtual};
use crate::way::Way::{Down, Up};

// Formats of port 0: mode 1 has one dataset of 8 bits, mode 2 two of 16 bits, mode 3 one float.
const FORMAT_1: &str = "0A 00 44 00 01 80 01 00 03 00";
const FORMAT_2: &str = "0A 00 44 00 02 80 02 01 05 00";
const FORMAT_3: &str = "0A 00 44 00 03 80 01 03 08 03";

// The list of dataset 0 of mode 1 and dataset 1 of mode 2, asked of port 0; the same in the other order; and the first
// alone.
const FIRST: &[u8] = &[0x10, 0x21];
const ASK_FIRST: &str = "08 00 42 00 01 00 10 21";
const SECOND: &[u8] = &[0x21, 0x10];
const ASK_SECOND: &str = "08 00 42 00 01 05 21 10";
const ONE: &[u8] = &[0x10];
const ASK_ONE: &str = "07 00 42 00 01 00 10";

// Port 0 answers with pointers to both entries, to the first, to the second, to none, and to the third.
const BOTH: &str = "07 00 48 00 00 03 00";
const FIRST_ALONE: &str = "07 00 48 00 00 01 00";
const SECOND_ALONE: &str = "07 00 48 00 80 02 00";
const NONE: &str = "07 00 48 00 00 00 00";
const THIRD: &str = "07 00 48 00 00 04 00";

// Port 0 sends -128 and -2 by the first list, -128 by its first entry, -2 by its second.
const VALUES: &str = "09 00 46 00 03 00 80 FE FF";
const VALUE_OF_FIRST: &str = "07 00 46 00 01 00 80";
const VALUE_OF_SECOND: &str = "08 00 46 00 02 00 FE FF";

// Mode 2 asked with delta 1 and notifications.
const SETUP_2: Asked = Single(Setup {
    mode: 2,
    delta: 1,
    notify: true,
});

/// Lists of messages in which ports are combined.
#[rustfmt::skip]
pub const COMBINED: &[TableExample] = &[
    TableExample { name: "a list is asked, answered and read", steps: &[
        accepted(Up, ATTACH_0),
        accepted(Up, FORMAT_1),
        accepted(Up, FORMAT_2),
        refused(Up, VALUES, 20, 0),
        refused(Up, BOTH, 21, 0),
        accepted_in(9, Down, ASK_FIRST),
        with_list(9, 0, Unanswered, List, FIRST, None),
        refused(Up, VALUES, 20, 0),
        refused(Up, VALUE_1, 14, 0),
        // The answer's own number isn't taken.
        accepted_in(4, Up, BOTH),
        with_list(9, 0, AsAsked, List, FIRST, combined(3, FIRST)),
        accepted_in(5, Up, VALUES),
        handed_out_in(9, VALUES, 0, [0, 1], AsAsked, Whole(-128)),
        handed_out_in(9, VALUES, 1, [0, 2], AsAsked, Whole(-2)),
        withheld(Up, VALUES, 2, 17, 0),
        withheld(Up, VALUES, usize::MAX, 17, 0),
        // A combined port has a list in place of a mode.
        refused(Up, VALUE_1, 14, 0),
        withheld(Up, VALUE_1, 0, 14, 0),
        with_list(9, 0, AsAsked, List, FIRST, combined(3, FIRST)),
    ] },
    TableExample { name: "the values of a 46 are those of its pointers, the lowest first", steps: &[
        accepted(Up, ATTACH_0),
        accepted(Up, FORMAT_1),
        accepted(Up, FORMAT_2),
        accepted(Down, ASK_FIRST),
        accepted(Up, BOTH),
        accepted(Up, VALUE_OF_FIRST),
        handed_out(VALUE_OF_FIRST, 0, [0, 1], AsAsked, Whole(-128)),
        withheld(Up, VALUE_OF_FIRST, 1, 17, 0),
        accepted(Up, VALUE_OF_SECOND),
        handed_out(VALUE_OF_SECOND, 0, [0, 2], AsAsked, Whole(-2)),
        withheld(Up, VALUE_OF_SECOND, 1, 17, 0),
        accepted(Down, ASK_SECOND),
        accepted(Up, BOTH),
        // By the other list the same bytes are -384 and -1.
        handed_out(VALUES, 0, [0, 2], AsAsked, Whole(-384)),
        handed_out(VALUES, 1, [0, 1], AsAsked, Whole(-1)),
        refused(Up, VALUE_OF_FIRST, 16, 0),
        refused(Up, VALUE_OF_SECOND, 16, 0),
    ] },
    TableExample { name: "a 48 takes over the list as it stands, and a later list doesn't matter to a 46", steps: &[
        accepted(Up, ATTACH_0),
        accepted(Up, FORMAT_1),
        accepted(Up, FORMAT_2),
        accepted_in(9, Down, ASK_FIRST),
        accepted(Up, BOTH),
        accepted_in(10, Down, ASK_SECOND),
        with_list(10, 0, Unanswered, List, SECOND, combined(3, FIRST)),
        accepted(Up, VALUES),
        handed_out(VALUES, 0, [0, 1], Unanswered, Whole(-128)),
        handed_out(VALUES, 1, [0, 2], Unanswered, Whole(-2)),
        // A refused 48 leaves the port as it was.
        refused(Up, THIRD, 21, 0),
        refused(Up, NONE, 21, 0),
        refused(Up, "07 00 48 00 00 03 80", 21, 0),
        with_list(10, 0, Unanswered, List, SECOND, combined(3, FIRST)),
        handed_out(VALUES, 0, [0, 1], Unanswered, Whole(-128)),
        accepted(Up, BOTH),
        with_list(10, 0, AsAsked, List, SECOND, combined(3, SECOND)),
        handed_out_in(10, VALUES, 0, [0, 2], AsAsked, Whole(-384)),
        handed_out_in(10, VALUES, 1, [0, 1], AsAsked, Whole(-1)),
        // A shorter list: the pointers of a 48 are judged by it, those of a 46 by the 48 before.
        accepted_in(11, Down, ASK_ONE),
        refused(Up, BOTH, 21, 0),
        refused(Up, SECOND_ALONE, 21, 0),
        with_list(11, 0, Unanswered, List, ONE, combined(3, SECOND)),
        handed_out(VALUES, 0, [0, 2], Unanswered, Whole(-384)),
        accepted(Up, FIRST_ALONE),
        with_list(11, 0, AsAsked, List, ONE, combined(1, ONE)),
        refused(Up, VALUES, 21, 0),
        handed_out_in(11, VALUE_OF_FIRST, 0, [0, 1], AsAsked, Whole(-128)),
        // A longer one.
        accepted_in(12, Down, ASK_FIRST),
        refused(Up, VALUES, 21, 0),
        handed_out(VALUE_OF_FIRST, 0, [0, 1], Unanswered, Whole(-128)),
    ] },
    TableExample { name: "a 48 that points to a part of the list", steps: &[
        accepted(Up, ATTACH_0),
        accepted(Up, FORMAT_1),
        accepted(Up, FORMAT_2),
        accepted_in(9, Down, ASK_FIRST),
        accepted(Up, SECOND_ALONE),
        with_list(9, 0, Otherwise, List, FIRST, combined(2, FIRST)),
        refused(Up, VALUES, 21, 0),
        refused(Up, VALUE_OF_FIRST, 21, 0),
        accepted(Up, VALUE_OF_SECOND),
        handed_out(VALUE_OF_SECOND, 0, [0, 2], Otherwise, Whole(-2)),
        accepted(Up, FIRST_ALONE),
        with_list(9, 0, Otherwise, List, FIRST, combined(1, FIRST)),
        refused(Up, VALUE_OF_SECOND, 21, 0),
        handed_out(VALUE_OF_FIRST, 0, [0, 1], Otherwise, Whole(-128)),
        accepted(Up, BOTH),
        with_list(9, 0, AsAsked, List, FIRST, combined(3, FIRST)),
    ] },
    TableExample { name: "the state follows the latest asking and answer, each of two sorts", steps: &[
        accepted(Up, ATTACH_0),
        accepted_in(1, Down, ASK_FIRST),
        with_list(1, 0, Unanswered, List, FIRST, None),
        accepted(Up, FIRST_ALONE),
        with_list(1, 0, Otherwise, List, FIRST, combined(1, FIRST)),
        accepted(Up, BOTH),
        with_list(1, 0, AsAsked, List, FIRST, combined(3, FIRST)),
        // A 48 older than the latest asking, and a 48 after a 41.
        accepted_in(2, Down, ASK_2),
        with_list(2, 0, Unanswered, SETUP_2, FIRST, combined(3, FIRST)),
        accepted(Up, BOTH),
        with_list(2, 0, Otherwise, SETUP_2, FIRST, combined(3, FIRST)),
        accepted(Up, ANSWER_2),
        with_list(2, 0, AsAsked, SETUP_2, FIRST, single(setup(2, 1, true))),
        // A 47 older than the latest asking, and a 47 after a list.
        accepted_in(3, Down, ASK_ONE),
        with_list(3, 0, Unanswered, List, ONE, single(setup(2, 1, true))),
        accepted(Up, ANSWER_2),
        with_list(3, 0, Otherwise, List, ONE, single(setup(2, 1, true))),
        accepted(Up, FIRST_ALONE),
        with_list(3, 0, AsAsked, List, ONE, combined(1, ONE)),
        // The same list asked again.
        accepted_in(4, Down, ASK_ONE),
        with_list(4, 0, Unanswered, List, ONE, combined(1, ONE)),
        accepted_in(5, Down, ASK_FIRST),
        with_list(5, 0, Unanswered, List, FIRST, combined(1, ONE)),
        accepted(Up, FIRST_ALONE),
        with_list(5, 0, Otherwise, List, FIRST, combined(1, FIRST)),
        // A list between a 41 and its 47.
        accepted_in(6, Down, ASK_2),
        accepted_in(7, Down, ASK_FIRST),
        accepted(Up, ANSWER_2),
        with_list(7, 0, Otherwise, List, FIRST, single(setup(2, 1, true))),
        accepted(Up, BOTH),
        with_list(7, 0, AsAsked, List, FIRST, combined(3, FIRST)),
    ] },
    TableExample { name: "a 41 and a 47 leave the list, and a 47 makes the port single again", steps: &[
        accepted(Up, ATTACH_0),
        accepted(Up, FORMAT_1),
        accepted(Up, FORMAT_2),
        accepted_in(9, Down, ASK_FIRST),
        accepted_in(10, Down, ASK_2),
        with_list(10, 0, Unanswered, SETUP_2, FIRST, None),
        accepted(Up, BOTH),
        handed_out(VALUES, 0, [0, 1], Otherwise, Whole(-128)),
        handed_out(VALUES, 1, [0, 2], Otherwise, Whole(-2)),
        accepted(Up, ANSWER_2),
        refused(Up, VALUES, 20, 0),
        withheld(Up, VALUES, 0, 20, 0),
        handed_out_in(10, "08 00 45 00 01 00 FE FF", 0, [0, 2], AsAsked, Whole(1)),
        handed_out_in(10, "08 00 45 00 01 00 FE FF", 1, [0, 2], AsAsked, Whole(-2)),
        // A second 48 takes the list over again.
        accepted(Up, BOTH),
        with_list(10, 0, Otherwise, SETUP_2, FIRST, combined(3, FIRST)),
        refused(Up, "08 00 45 00 01 00 FE FF", 14, 0),
        handed_out(VALUES, 0, [0, 1], Otherwise, Whole(-128)),
        // A 47 that nobody asked for.
        accepted(Up, "0A 00 47 00 01 00 00 00 00 00"),
        with_list(10, 0, Otherwise, SETUP_2, FIRST, single(setup(1, 0, false))),
        refused(Up, VALUES, 20, 0),
        handed_out(VALUE_1, 0, [0, 1], Otherwise, Whole(-2)),
    ] },
    TableExample { name: "sub commands 2, 3, 4 and 6 change nothing; combination index and control byte aren't kept", steps: &[
        refused(Down, "05 00 42 00 02", 10, 0),
        refused(Down, ASK_FIRST, 10, 0),
        refused(Up, BOTH, 10, 0),
        refused(Up, NONE, 10, 0),
        refused(Up, VALUES, 10, 0),
        accepted(Up, ATTACH_0),
        accepted_in(6, Down, "05 00 42 00 02"),
        accepted_in(7, Down, "05 00 42 00 03"),
        bare(0, Unjoined),
        accepted_in(9, Down, ASK_FIRST),
        accepted_in(1, Down, "05 00 42 00 04"),
        with_list(9, 0, Unanswered, List, FIRST, None),
        accepted_in(2, Up, BOTH),
        accepted_in(3, Down, "05 00 42 00 02"),
        accepted_in(4, Down, "05 00 42 00 03"),
        accepted_in(5, Down, "05 00 42 00 06"),
        with_list(9, 0, AsAsked, List, FIRST, combined(3, FIRST)),
        accepted_in(10, Down, "08 00 42 00 01 FF 10 21"),
        with_list(10, 0, Unanswered, List, FIRST, combined(3, FIRST)),
        accepted_in(11, Up, "07 00 48 00 FF 03 00"),
        with_list(10, 0, AsAsked, List, FIRST, combined(3, FIRST)),
        // None of them has a dataset.
        withheld(Down, "05 00 42 00 06", 0, 17, 0),
        withheld(Down, ASK_SECOND, 0, 17, 0),
        withheld(Up, FIRST_ALONE, 0, 17, 0),
        withheld(Up, NONE, 0, 21, 0),
        withheld(Down, "08 00 42 00 01 FF 10 10", 0, 7, 7),
        withheld(Up, "06 00 46 00 01 00", 0, 6, 7),
        with_list(10, 0, AsAsked, List, FIRST, combined(3, FIRST)),
    ] },
    TableExample { name: "a detachment takes the list along", steps: &[
        accepted(Up, ATTACH_0),
        accepted(Up, FORMAT_1),
        accepted_in(9, Down, ASK_ONE),
        accepted(Up, FIRST_ALONE),
        accepted(Up, VALUE_OF_FIRST),
        accepted(Up, "05 00 04 00 00"),
        absent(0),
        refused(Up, VALUE_OF_FIRST, 10, 0),
        refused(Up, FIRST_ALONE, 10, 0),
        accepted(Up, ATTACH_0),
        bare(0, Unjoined),
        refused(Up, VALUE_OF_FIRST, 20, 0),
        refused(Up, FIRST_ALONE, 21, 0),
        accepted(Down, ASK_2),
        refused(Up, FIRST_ALONE, 21, 0),
        set_up(0, Unjoined, Unanswered, setup(2, 1, true), None),
        accepted_in(10, Down, ASK_FIRST),
        with_list(10, 0, Unanswered, List, FIRST, None),
        // So does a notice that empties the table.
        accepted(Up, "04 00 02 31"),
        accepted(Up, ATTACH_0),
        bare(0, Unjoined),
        refused(Up, BOTH, 21, 0),
        accepted(Up, ANSWER_2),
        set_up(0, Unjoined, NothingAsked, None, setup(2, 1, true)),
    ] },
    TableExample { name: "a refused 42 leaves no list and no number", steps: &[
        accepted(Up, ATTACH_0),
        refused_in(8, Down, "08 00 42 00 01 00 10 10", 7, 7),
        bare(0, Unjoined),
        refused(Up, FIRST_ALONE, 21, 0),
        accepted_in(9, Down, ASK_FIRST),
        refused_in(10, Down, "0A 00 42 00 01 00 10 21 21 10", 7, 8),
        refused_in(11, Down, "06 00 42 00 01 00", 6, 7),
        refused_in(12, Down, "17 00 42 00 01 00 00 01 02 03 04 05 06 07 08 09 0A 0B 0C 0D 0E 0F 10", 6, 7),
        refused_in(13, Down, "07 00 42 00 05 00 10", 7, 4),
        refused_in(14, Up, ASK_SECOND, 5, 2),
        refused_in(15, Down, "08 00 42 09 01 00 10 21", 10, 0),
        with_list(9, 0, Unanswered, List, FIRST, None),
        accepted(Up, BOTH),
        with_list(9, 0, AsAsked, List, FIRST, combined(3, FIRST)),
    ] },
    // The list is dataset 15 of mode 1, dataset 0 of mode 3, of mode 2 and of mode 1; the 48 leaves the third out.
    TableExample { name: "a 46 is judged by 10, 20, 21, 15, 17, 16", steps: &[
        refused(Up, "07 00 46 00 00 00 00", 10, 0),
        accepted(Up, ATTACH_0),
        refused(Up, "07 00 46 00 00 00 00", 20, 0),
        refused(Up, "07 00 46 00 00 80 00", 20, 0),
        accepted(Down, "0A 00 42 00 01 00 1F 30 20 10"),
        refused(Up, "07 00 46 00 00 00 00", 20, 0),
        accepted(Up, "07 00 48 00 00 0B 00"),
        // Pointers before formats: none, the one that was left out, one past the list, one among others.
        refused(Up, "07 00 46 00 00 00 00", 21, 0),
        refused(Up, "07 00 46 00 04 00 00", 21, 0),
        refused(Up, "07 00 46 00 10 00 00", 21, 0),
        refused(Up, "07 00 46 00 0F 00 00", 21, 0),
        refused(Up, "07 00 46 00 01 80 00", 21, 0),
        refused(Up, "07 00 46 00 01 00 00", 15, 0),
        refused(Up, "07 00 46 00 0B 00 00", 15, 0),
        accepted(Up, FORMAT_1),
        // Formats of all entries before the dataset of any, and before the size.
        refused(Up, "07 00 46 00 03 00 00", 15, 0),
        refused(Up, "07 00 46 00 02 00 00", 15, 0),
        refused(Up, "0A 00 46 00 0A 00 00 00 80 3F", 15, 0),
        refused(Up, "07 00 46 00 05 00 00", 21, 0),
        // The dataset before the size.
        refused(Up, "07 00 46 00 01 00 00", 17, 0),
        refused(Up, "09 00 46 00 01 00 00 00 00", 17, 0),
        refused(Up, "08 00 46 00 09 00 00 00", 17, 0),
        withheld(Up, "07 00 46 00 01 00 00", 0, 17, 0),
        handed_out("07 00 46 00 08 00 FE", 0, [0, 1], Otherwise, Whole(-2)),
        accepted(Up, FORMAT_3),
        refused(Up, "0B 00 46 00 03 00 00 00 00 80 3F", 17, 0),
        refused(Up, "0C 00 46 00 0B 00 00 00 00 80 3F FE", 17, 0),
        // The size is the sum of the widths: a byte less, a byte more, the right one.
        refused(Up, "09 00 46 00 02 00 00 80 3F", 16, 0),
        refused(Up, "0B 00 46 00 02 00 00 00 80 3F 00", 16, 0),
        refused(Up, "0A 00 46 00 0A 00 00 00 80 3F", 16, 0),
        refused(Up, "0C 00 46 00 0A 00 00 00 80 3F FE 00", 16, 0),
        refused(Up, "08 00 46 00 08 00 FE FF", 16, 0),
        withheld(Up, "08 00 46 00 08 00 FE FF", 9, 16, 0),
        accepted(Up, "0B 00 46 00 0A 00 00 00 80 3F FE"),
        handed_out("0B 00 46 00 0A 00 00 00 80 3F FE", 0, [0, 3], Otherwise, Float(0x3F80_0000)),
        handed_out("0B 00 46 00 0A 00 00 00 80 3F FE", 1, [0, 1], Otherwise, Whole(-2)),
        // With two datasets in mode 1 there is still no dataset 15; with sixteen there is.
        accepted(Up, "0A 00 44 00 01 80 02 00 03 00"),
        refused(Up, "07 00 46 00 01 00 FE", 17, 0),
        accepted(Up, "0A 00 44 00 01 80 0F 00 03 00"),
        refused(Up, "07 00 46 00 01 00 FE", 17, 0),
        accepted(Up, "0A 00 44 00 01 80 10 02 03 00"),
        refused(Up, "07 00 46 00 01 00 FE", 16, 0),
        handed_out("0A 00 46 00 01 00 FE FF FF FF", 0, [0, 1], Otherwise, Whole(-2)),
    ] },
    TableExample { name: "datasets of a 46 are judged by 17 and 18", steps: &[
        accepted(Up, ATTACH_0),
        accepted(Up, FORMAT_1),
        accepted(Up, FORMAT_3),
        accepted_in(9, Down, "08 00 42 00 01 00 30 10"),
        accepted(Up, BOTH),
        // A NaN and -2: only the dataset asked for is judged.
        accepted(Up, "0B 00 46 00 03 00 00 00 C0 7F FE"),
        withheld(Up, "0B 00 46 00 03 00 00 00 C0 7F FE", 0, 18, 0),
        handed_out_in(9, "0B 00 46 00 03 00 00 00 C0 7F FE", 1, [0, 1], AsAsked, Whole(-2)),
        withheld(Up, "0B 00 46 00 03 00 00 00 C0 7F FE", 2, 17, 0),
        withheld(Up, "0A 00 46 00 01 00 00 00 80 FF", 0, 18, 0),
        withheld(Up, "0A 00 46 00 01 00 00 00 80 FF", 1, 17, 0),
        handed_out_in(9, "0A 00 46 00 01 00 FF FF 7F FF", 0, [0, 3], AsAsked, Float(0xFF7F_FFFF)),
        // The mode's latest format counts, not the one that it had when the list was asked or taken over.
        accepted(Up, "0A 00 44 00 03 80 01 02 08 03"),
        handed_out_in(9, "0A 00 46 00 01 00 00 00 C0 7F", 0, [0, 3], AsAsked, Whole(0x7FC0_0000)),
        format(0, 3, [1, 2, 8, 3]),
        no_format(0, 2),
    ] },
    TableExample { name: "each port has its own list, a virtual one too", steps: &[
        accepted(Up, ATTACH_0),
        accepted(Up, ATTACH_1),
        accepted_in(9, Down, ASK_FIRST),
        bare(1, Unjoined),
        refused(Up, "07 00 48 01 00 03 00", 21, 0),
        accepted(Up, BOTH),
        refused(Up, "07 00 46 01 01 00 80", 20, 0),
        accepted(Up, VIRTUAL_10),
        bare(0x10, Virtual { port_a: 0, port_b: 1 }),
        refused(Up, "07 00 48 10 00 01 00", 21, 0),
        accepted(Up, "0A 00 44 10 01 80 01 00 03 00"),
        accepted_in(10, Down, "07 00 42 10 01 00 10"),
        accepted(Up, "07 00 48 10 00 01 00"),
        handed_out_in(10, "07 00 46 10 01 00 80", 0, [0x10, 1], AsAsked, Whole(-128)),
        // The formats of port 0 are its own.
        refused(Up, VALUES, 15, 0),
        bare(1, Joined { virtual_port: 0x10 }),
        // With port 1 goes the virtual port, and port 0 keeps its list.
        accepted(Up, "05 00 04 01 00"),
        absent(0x10),
        with_list(9, 0, AsAsked, List, FIRST, combined(3, FIRST)),
        accepted(Up, ATTACH_1),
        accepted(Up, VIRTUAL_10),
        refused(Up, "07 00 48 10 00 01 00", 21, 0),
        refused(Up, "07 00 46 10 01 00 80", 20, 0),
    ] },
];
