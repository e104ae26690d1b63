use super::record::LOG_RECORD;

/// A line that a log reader printed, taken apart with the record that it is of.
#[derive(Clone, Debug, PartialEq, Eq)]
pub struct LogLine {
    /// The record's number, from 1.
    pub number: i64,
    /// Its refusal, 0 for acceptance.
    pub refusal: i64,
    /// What the line says of a value.
    pub value: Option<LineValue>,
}

/// What a line says of an accepted 45 or 46.
#[derive(Clone, Debug, PartialEq, Eq)]
pub struct LineValue {
    /// The port.
    pub port: i64,
    /// The mode of a 45. The line of a 46 has none.
    pub mode: Option<i64>,
    /// The state.
    pub state: i64,
    /// The experiment number.
    pub experiment: i64,
    /// The pointer word of a 46. The line of a 45 has none.
    pub pointers: Option<i64>,
    /// The datasets.
    pub datasets: Vec<i64>,
}

/// The lines that a log reader printed of a log, without the totals. Panics if one of them is no line.
pub fn log_lines(log: &[u8], text: &str) -> Vec<LogLine> {
    let lines = text.lines().filter(|line| !line.starts_with("total"));
    lines
        .zip(log.chunks(LOG_RECORD))
        .map(|(line, record)| log_line(line, record))
        .collect()
}

fn log_line(line: &str, record: &[u8]) -> LogLine {
    /// Where a record has its message's type, and the type of combined values.
    const TYPE: usize = 10;
    const COMBINED: u8 = 0x46;
    let numbers: Vec<i64> = line.split(' ').map(|it| it.parse().expect("a number")).collect();
    let is_combined = record.get(TYPE) == Some(&COMBINED);
    let (number, refusal, value) = match numbers[..] {
        [number, refusal] => (number, refusal, None),
        [number, refusal, port, state, experiment, pointers, ref datasets @ ..] if is_combined => {
            let value = LineValue {
                port,
                mode: None,
                state,
                experiment,
                pointers: Some(pointers),
                datasets: datasets.to_vec(),
            };
            (number, refusal, Some(value))
        }
        [number, refusal, port, mode, state, experiment, ref datasets @ ..] => {
            let value = LineValue {
                port,
                mode: Some(mode),
                state,
                experiment,
                pointers: None,
                datasets: datasets.to_vec(),
            };
            (number, refusal, Some(value))
        }
        _ => panic!("`{line}` is no line"),
    };
    assert!(refusal == 0 || value.is_none(), "`{line}` has a value");
    LogLine { number, refusal, value }
}
