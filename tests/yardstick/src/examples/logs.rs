use super::bytes;
use super::messages::{
    ANSWER_2 as ANSWER, ASK_2 as ASK, ATTACH_0 as ATTACH, ATTACH_1, FORMAT_2 as FORMAT, GO_0, GO_10, PRESET_10, TURN_0,
    TURN_10, VALUE_4 as VALUE, VIRTUAL_10,
};
use crate::log::LOG_RECORD;

/// A log with the lines that are printed of it.
pub struct LogExample {
    /// What it shows.
    pub name: &'static str,
    /// The records: direction, zero and experiment number, which are bytes 4 to 7, then the message, all in hex.
    records: &'static [(&'static str, &'static str)],
    /// What is printed.
    pub lines: &'static str,
}

impl LogExample {
    /// The log's bytes. Times are any.
    pub fn log(&self) -> Vec<u8> {
        let mut log = Vec::new();
        for (middle, message) in self.records {
            let mut record = vec![0x04, 0x03, 0x02, 0x01];
            record.extend(bytes(middle));
            record.extend(bytes(message));
            record.resize(LOG_RECORD, 0);
            log.extend(record);
        }
        log
    }
}

// Combined mode of port 0: mode 1 has one dataset of 8 bits, mode 2 two of 16 bits; a list of one of each, the answer
// with both pointers, and both values.
const NARROW_1: &str = "0A 00 44 00 01 80 01 00 03 00";
const MEDIUM_2: &str = "0A 00 44 00 02 80 02 01 05 00";
const LIST: &str = "08 00 42 00 01 00 10 21";
const COMBINE: &str = "07 00 48 00 00 03 00";
const VALUES: &str = "09 00 46 00 03 00 80 FE FF";

/// Logs with their lines.
#[rustfmt::skip]
pub const LOGS: &[LogExample] = &[
    LogExample { name: "nothing", records: &[], lines: "total 0 refused 0\n" },
    LogExample {
        name: "the rules' example: an old log, with numbers 0",
        records: &[
            ("01 00 00 00", ATTACH), ("01 00 00 00", FORMAT), ("01 00 00 00", VALUE),
            ("00 00 00 00", ASK), ("01 00 00 00", ANSWER), ("01 00 00 00", VALUE),
        ],
        lines: "1 0\n2 0\n3 14\n4 0\n5 0\n6 0 0 2 2 0 5\ntotal 6 refused 1\n",
    },
    LogExample {
        name: "the same in an experiment: byte 6 is the low byte",
        records: &[
            ("01 00 2D 01", ATTACH), ("01 00 2D 01", FORMAT), ("01 00 2D 01", VALUE),
            ("00 00 2D 01", ASK), ("01 00 2D 01", ANSWER), ("01 00 2D 01", VALUE),
        ],
        lines: "1 0\n2 0\n3 14\n4 0\n5 0\n6 0 0 2 2 301 5\ntotal 6 refused 1\n",
    },
    LogExample {
        name: "only the number of the 41 counts",
        records: &[
            ("01 00 01 00", ATTACH), ("01 00 00 01", FORMAT), ("01 00 FF FF", VALUE),
            ("00 00 02 01", ASK), ("01 00 03 00", ANSWER), ("01 00 04 00", VALUE),
        ],
        lines: "1 0\n2 0\n3 14\n4 0\n5 0\n6 0 0 2 2 258 5\ntotal 6 refused 1\n",
    },
    LogExample {
        name: "the numbers 65535, 256 and 255",
        records: &[
            ("01 00 00 00", ATTACH), ("01 00 00 00", FORMAT),
            ("00 00 FF FF", ASK), ("01 00 00 00", ANSWER), ("01 00 00 00", VALUE),
            ("00 00 00 01", ASK), ("01 00 00 00", ANSWER), ("01 00 00 00", VALUE),
            ("00 00 FF 00", ASK), ("01 00 00 00", ANSWER), ("01 00 00 00", VALUE),
        ],
        lines: "1 0\n2 0\n3 0\n4 0\n5 0 0 2 2 65535 5\n6 0\n7 0\n8 0 0 2 2 256 5\n9 0\n10 0\n11 0 0 2 2 255 5\n\
                total 11 refused 0\n",
    },
    LogExample {
        name: "states 0, 1 and 3 print 0, and state 2 the number that was kept",
        records: &[
            ("01 00 07 00", ATTACH), ("01 00 07 00", FORMAT), ("01 00 07 00", ANSWER), ("01 00 07 00", VALUE),
            ("00 00 07 00", ASK), ("01 00 07 00", VALUE),
            ("01 00 07 00", "0A 00 47 00 02 02 00 00 00 01"), ("01 00 07 00", VALUE),
            ("01 00 08 00", ANSWER), ("01 00 08 00", VALUE),
        ],
        lines: "1 0\n2 0\n3 0\n4 0 0 2 0 0 5\n5 0\n6 0 0 2 1 0 5\n7 0\n8 0 0 2 3 0 5\n9 0\n10 0 0 2 2 7 5\n\
                total 10 refused 0\n",
    },
    LogExample {
        name: "damaged and refused askings leave no number: byte 5, a byte too many, mode 16, an absent port",
        records: &[
            ("01 00 00 00", ATTACH), ("01 00 00 00", FORMAT), ("00 00 09 00", ASK), ("01 00 00 00", ANSWER),
            ("00 01 0A 00", ASK), ("02 00 0B 00", ASK), ("00 00 0C 00", "0A 00 41 00 02 01 00 00 00 01 01"),
            ("00 00 0D 00", "0A 00 41 00 10 01 00 00 00 01"), ("00 00 0E 00", "0A 00 41 05 02 01 00 00 00 01"),
            ("01 00 0F 00", VALUE),
        ],
        lines: "1 0\n2 0\n3 0\n4 0\n5 19\n6 19\n7 19\n8 7\n9 10\n10 0 0 2 2 9 5\ntotal 10 refused 5\n",
    },
    LogExample {
        name: "a port attached again has no number",
        records: &[
            ("01 00 05 00", ATTACH), ("01 00 05 00", FORMAT), ("00 00 05 00", ASK), ("01 00 05 00", ANSWER),
            ("01 00 05 00", VALUE), ("01 00 05 00", "05 00 04 00 00"), ("01 00 05 00", ATTACH),
            ("01 00 05 00", FORMAT), ("01 00 05 00", ANSWER), ("01 00 05 00", VALUE),
            ("00 00 06 00", ASK), ("01 00 05 00", ANSWER), ("01 00 05 00", VALUE),
        ],
        lines: "1 0\n2 0\n3 0\n4 0\n5 0 0 2 2 5 5\n6 0\n7 0\n8 0\n9 0\n10 0 0 2 0 0 5\n11 0\n12 0\n13 0 0 2 2 6 5\n\
                total 13 refused 0\n",
    },
    LogExample {
        name: "a motor turned back by three degrees, and other whole numbers: a minus sign, no plus",
        records: &[
            ("01 00 00 00", ATTACH), ("01 00 00 00", FORMAT), ("01 00 00 00", ANSWER),
            ("01 00 00 00", "08 00 45 00 FD FF FF FF"), ("01 00 00 00", "08 00 45 00 00 00 00 80"),
            ("01 00 00 00", "08 00 45 00 FF FF FF 7F"), ("01 00 00 00", "08 00 45 00 00 00 00 00"),
            ("01 00 00 00", "0A 00 44 00 02 80 04 00 04 00"), ("01 00 00 00", "08 00 45 00 FF 80 7F 00"),
            ("01 00 00 00", "0A 00 44 00 02 80 03 01 05 00"), ("01 00 00 00", "0A 00 45 00 FD FF FF 7F 00 80"),
        ],
        lines: "1 0\n2 0\n3 0\n4 0 0 2 0 0 -3\n5 0 0 2 0 0 -2147483648\n6 0 0 2 0 0 2147483647\n7 0 0 2 0 0 0\n\
                8 0\n9 0 0 2 0 0 -1 -128 127 0\n10 0\n11 0 0 2 0 0 -3 32767 -32768\ntotal 11 refused 0\n",
    },
    LogExample {
        name: "floats are their 32 bits without a sign",
        records: &[
            ("01 00 00 00", ATTACH), ("01 00 00 00", "0A 00 44 00 02 80 02 03 04 00"), ("01 00 00 00", ANSWER),
            ("01 00 00 00", "0C 00 45 00 00 00 80 BF FF FF 7F 7F"),
            ("01 00 00 00", "0C 00 45 00 FF FF 7F FF 00 00 00 80"),
        ],
        lines: "1 0\n2 0\n3 0\n4 0 0 2 0 0 3212836864 2139095039\n5 0 0 2 0 0 4286578687 2147483648\n\
                total 5 refused 0\n",
    },
    LogExample {
        name: "of a wrong size the number alone, whatever size was wanted",
        records: &[
            ("00 00 00 00", "03 00 02"), ("00 00 00 00", "05 00 02 01 00"), ("00 00 00 00", "03 00 01"),
            ("01 00 00 00", "05 00 44 00 02"), ("01 00 00 00", "06 00 44 00 02 00"),
            ("01 00 00 00", "06 00 43 00 02 16"), ("01 00 00 00", "04 00 45 00"), ("00 00 00 00", "05 00 61 01 00"),
            ("01 00 00 00", "0E 00 04 00 01 26 00 00 00 00 10 00 00 00"), ("01 00 00 00", VALUE),
        ],
        lines: "1 6\n2 6\n3 6\n4 6\n5 6\n6 6\n7 6\n8 6\n9 6\n10 10\ntotal 10 refused 10\n",
    },
    LogExample {
        name: "commands for motors and their feedback, which have no number of an experiment",
        records: &[
            ("01 00 00 00", ATTACH), ("01 00 00 00", ATTACH_1), ("01 00 00 00", FORMAT), ("00 00 09 00", ASK),
            ("01 00 00 00", ANSWER), ("00 00 05 00", TURN_10), ("00 00 05 00", TURN_0), ("00 00 05 00", GO_0),
            ("01 00 00 00", VIRTUAL_10), ("00 00 05 00", TURN_10), ("00 00 05 00", GO_10), ("00 00 05 00", PRESET_10),
            ("00 00 05 00", TURN_0), ("01 00 05 00", "07 00 82 10 0A 00 01"), ("01 00 05 00", "07 00 82 10 0A 02 01"),
            ("01 00 05 00", "07 00 82 63 0A 00 20"), ("01 00 05 00", "06 00 82 10 0A 00"), ("01 00 05 00", GO_0),
            ("00 00 05 00", "09 00 81 00 11 07 3C 64 00"), ("01 00 05 00", VALUE),
        ],
        lines: "1 0\n2 0\n3 0\n4 0\n5 0\n6 10\n7 22\n8 0\n9 0\n10 0\n11 0\n12 0\n13 22\n14 0\n15 10\n16 7\n17 6\n\
                18 5\n19 7\n20 0 0 2 2 9 5\ntotal 20 refused 8\n",
    },
    LogExample {
        name: "a combined port: the list was asked with number 9",
        records: &[
            ("01 00 01 00", ATTACH), ("01 00 02 00", NARROW_1), ("01 00 03 00", MEDIUM_2), ("00 00 09 00", LIST),
            ("01 00 04 00", COMBINE), ("01 00 05 00", VALUES),
        ],
        lines: "1 0\n2 0\n3 0\n4 0\n5 0\n6 0 0 2 9 3 -128 -2\ntotal 6 refused 0\n",
    },
    LogExample {
        name: "the pointer word, decimal; states 1 and 3 print 0 as the number",
        records: &[
            ("01 00 00 00", ATTACH), ("01 00 00 00", NARROW_1), ("01 00 00 00", MEDIUM_2), ("00 00 FF FF", LIST),
            ("01 00 00 00", COMBINE), ("01 00 00 00", "07 00 46 00 01 00 7F"),
            ("01 00 00 00", "08 00 46 00 02 00 00 80"),
            // Another list: the values are still of the old one.
            ("00 00 07 00", "08 00 42 00 01 00 21 10"), ("01 00 00 00", VALUES),
            ("01 00 00 00", "07 00 48 00 00 02 00"), ("01 00 00 00", "07 00 46 00 02 00 80"),
            // A mode, then the list again, which was kept.
            ("00 00 08 00", ASK), ("01 00 00 00", ANSWER), ("01 00 00 00", "08 00 45 00 FE FF 01 00"),
            ("01 00 00 00", VALUES), ("01 00 00 00", COMBINE), ("01 00 00 00", VALUES),
            ("01 00 00 00", "08 00 45 00 FE FF 01 00"),
        ],
        lines: "1 0\n2 0\n3 0\n4 0\n5 0\n6 0 0 2 65535 1 127\n7 0 0 2 65535 2 -32768\n8 0\n9 0 0 1 0 3 -128 -2\n\
                10 0\n11 0 0 3 0 2 -128\n12 0\n13 0\n14 0 0 2 2 8 -2 1\n15 20\n16 0\n17 0 0 3 0 3 -384 -1\n18 14\n\
                total 18 refused 2\n",
    },
    LogExample {
        name: "refusals of combined mode; a float of a 46 is its 32 bits, and 18 where it is no number",
        records: &[
            ("00 00 00 00", LIST), ("01 00 00 00", COMBINE), ("01 00 00 00", VALUES), ("01 00 00 00", ATTACH),
            ("01 00 00 00", VALUES), ("01 00 00 00", COMBINE), ("00 00 00 00", "05 00 42 00 02"),
            ("00 00 00 00", "05 00 42 00 05"), ("00 00 00 00", "06 00 42 00 01 00"),
            ("00 00 00 00", "0A 00 42 00 01 00 10 21 21 10"), ("01 00 00 00", LIST),
            // A float of mode 3, and dataset 1 of mode 1.
            ("00 00 0A 00", "08 00 42 00 01 00 30 11"), ("01 00 00 00", "07 00 48 00 00 04 00"),
            ("01 00 00 00", "07 00 48 00 00 00 00"), ("01 00 00 00", COMBINE),
            ("01 00 00 00", "07 00 46 00 00 00 00"), ("01 00 00 00", "07 00 46 00 04 00 00"),
            ("01 00 00 00", NARROW_1), ("01 00 00 00", "07 00 46 00 03 00 00"), ("01 00 00 00", "07 00 46 00 02 00 00"),
            ("01 00 00 00", "0A 00 44 00 03 80 01 03 08 03"), ("01 00 00 00", "09 00 46 00 01 00 00 00 00"),
            ("01 00 00 00", "0A 00 46 00 01 00 00 00 80 BF"), ("01 00 00 00", "0A 00 46 00 01 00 00 00 C0 7F"),
            ("01 00 00 00", "0A 00 44 00 01 80 02 00 03 00"), ("01 00 00 00", "0B 00 46 00 03 00 00 00 80 FF FE"),
            ("01 00 00 00", "0B 00 46 00 03 00 00 00 80 BF FE"),
        ],
        lines: "1 10\n2 10\n3 10\n4 0\n5 20\n6 21\n7 0\n8 7\n9 6\n10 7\n11 5\n12 0\n13 21\n14 21\n15 0\n16 21\n\
                17 21\n18 0\n19 15\n20 17\n21 0\n22 16\n23 0 0 2 10 1 3212836864\n24 18\n25 0\n26 18\n\
                27 0 0 2 10 3 3212836864 -2\ntotal 27 refused 18\n",
    },
    LogExample {
        name: "bytes 6 and 7 are not looked at by refusal 19, byte 5 is",
        records: &[
            ("00 00 FF FF", "03 00 12"), ("00 00 01 00", "03 00 12"), ("00 00 00 80", "03 00 12"),
            ("00 01 00 00", "03 00 12"), ("00 FF FF FF", "03 00 12"), ("02 00 01 00", "03 00 12"),
            ("01 00 FF FF", "03 00 12"), ("00 00 FF FF", ""),
        ],
        lines: "1 0\n2 0\n3 0\n4 19\n5 19\n6 19\n7 5\n8 1\ntotal 8 refused 5\n",
    },
];
