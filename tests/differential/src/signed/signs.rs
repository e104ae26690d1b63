/// Counts numbers by their sign.
#[derive(Default)]
pub struct Signs {
    negative: u64,
    others: u64,
}

impl Signs {
    /// Counts a number.
    pub fn count(&mut self, number: i64) {
        if number < 0 {
            self.negative += 1;
        } else {
            self.others += 1;
        }
    }

    /// Prints the counts, and panics unless each is at least `least`.
    pub fn expect(&self, name: &str, least: u64) {
        println!("{name}: {} negative, {} others", self.negative, self.others);
        assert!(self.negative >= least && self.others >= least, "{name}: too few");
    }
}
