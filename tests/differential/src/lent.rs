use std::fmt::Debug;

/// How many places before and after the lent ones are looked at too.
const MARGIN: usize = 8;

/// What stands in lent memory beforehand.
pub trait Filling: Copy + Debug + PartialEq {
    /// What stands at a place: something else than at the places next to it.
    fn filling(place: usize) -> Self;
}

impl Filling for u8 {
    /// No byte of a text is as large.
    fn filling(place: usize) -> u8 {
        0x80 | (place * 89 + 7) as u8
    }
}

impl Filling for u32 {
    fn filling(place: usize) -> u32 {
        0xA5A5_0000 | place as u32
    }
}

impl Filling for u64 {
    fn filling(place: usize) -> u64 {
        cell_filling(place)
    }
}

/// What stands in a cell of a row beforehand. No answer has such numbers.
pub(crate) const fn cell_filling(place: usize) -> u64 {
    0xA5A5_0000_0000_5A00 | place as u64
}

/// Memory that is lent to the product, with a margin on both sides, and what it held beforehand.
#[derive(Clone)]
pub struct Lent<T> {
    memory: Vec<T>,
    before: Vec<T>,
}

impl<T: Filling> Lent<T> {
    /// So many places, filled.
    pub fn filled(length: usize) -> Lent<T> {
        let contents: Vec<T> = (MARGIN..MARGIN + length).map(T::filling).collect();
        Lent::holding(&contents)
    }

    /// Places with these contents.
    pub fn holding(contents: &[T]) -> Lent<T> {
        let mut memory: Vec<T> = (0..MARGIN).map(T::filling).collect();
        memory.extend(contents);
        let end = memory.len();
        memory.extend((end..end + MARGIN).map(T::filling));
        Lent {
            before: memory.clone(),
            memory,
        }
    }

    /// The places that are lent.
    pub fn lend(&mut self) -> &mut [T] {
        let end = self.memory.len() - MARGIN;
        &mut self.memory[MARGIN..end]
    }

    /// What the lent places hold now.
    pub fn contents(&self) -> &[T] {
        &self.memory[MARGIN..self.memory.len() - MARGIN]
    }

    /// Panics unless the lent places start with `start`, and all else is as it was.
    #[track_caller]
    pub fn expect(&self, start: &[T], name: &str) {
        assert!(
            self.is_changed_to(start),
            "{name}: not {start:X?} and the rest as it was\nbefore {:X?}\nafter  {:X?}",
            self.before,
            self.memory
        );
    }

    /// Panics unless everything is as it was.
    #[track_caller]
    pub fn expect_unchanged(&self, name: &str) {
        assert!(
            self.is_changed_to(&[]),
            "{name}: something changed\nbefore {:X?}\nafter  {:X?}",
            self.before,
            self.memory
        );
    }

    fn is_changed_to(&self, start: &[T]) -> bool {
        let end = MARGIN + start.len();
        self.memory[MARGIN..end] == *start
            && self.memory[..MARGIN] == self.before[..MARGIN]
            && self.memory[end..] == self.before[end..]
    }
}

#[cfg(test)]
mod tests {
    use super::Lent;

    #[test]
    fn every_change_is_seen() {
        let mut lent = Lent::<u64>::filled(3);
        assert!(lent.is_changed_to(&[]));
        lent.lend()[1] = 5;
        let start = [lent.contents()[0], 5];
        assert!(lent.is_changed_to(&start));
        assert!(!lent.is_changed_to(&[]));
        for place in 0..lent.memory.len() {
            let mut changed = lent.clone();
            changed.memory[place] ^= 1;
            assert!(!changed.is_changed_to(&start), "place {place}");
            assert!(!changed.is_changed_to(&[]), "place {place}");
        }
    }

    #[test]
    fn fillings_differ() {
        let lent = Lent::<u8>::filled(100);
        assert!(lent.before.windows(2).all(|pair| pair[0] != pair[1]));
        assert!(lent.before.iter().all(|&byte| byte >= 0x80));
    }
}
