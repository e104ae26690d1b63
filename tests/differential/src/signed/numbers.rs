use yardstick::Random;

/// The kinds of whole numbers, with their widths in bytes.
pub const KINDS: [(u64, usize); 3] = [(0, 1), (1, 2), (2, 4)];

/// The number that the bytes of a dataset stand for, by Rust's own integers.
pub fn number(bytes: &[u8]) -> i64 {
    match *bytes {
        [a] => i8::from_le_bytes([a]).into(),
        [a, b] => i16::from_le_bytes([a, b]).into(),
        [a, b, c, d] => i32::from_le_bytes([a, b, c, d]).into(),
        _ => panic!("no whole number has {} bytes", bytes.len()),
    }
}

/// The same without a sign.
pub fn unsigned(bytes: &[u8]) -> u64 {
    match *bytes {
        [a] => u8::from_le_bytes([a]).into(),
        [a, b] => u16::from_le_bytes([a, b]).into(),
        [a, b, c, d] => u32::from_le_bytes([a, b, c, d]).into(),
        _ => panic!("no whole number has {} bytes", bytes.len()),
    }
}

/// Datasets of a width: every one of one or two bytes, and many of four.
pub fn datasets(width: usize) -> Vec<Vec<u8>> {
    match width {
        1 => (0..=u8::MAX).map(|number| vec![number]).collect(),
        2 => (0..=u16::MAX).map(|number| number.to_le_bytes().to_vec()).collect(),
        _ => four_bytes().iter().map(|bytes| bytes.to_vec()).collect(),
    }
}

/// The numbers beside powers of two, every byte at every place beside others, and random ones.
fn four_bytes() -> Vec<[u8; 4]> {
    let mut datasets = Vec::new();
    for power in (0..32).map(|bit| 1_u32 << bit) {
        for number in [power - 1, power, power + 1] {
            datasets.extend([number, number.wrapping_neg()].map(u32::to_le_bytes));
        }
    }
    for place in 0..4 {
        for others in [0x00, 0x7F, 0x80, 0xFF] {
            for byte in 0..=u8::MAX {
                let mut bytes = [others; 4];
                bytes[place] = byte;
                datasets.push(bytes);
            }
        }
    }
    let mut random = Random::new(81);
    datasets.extend((0..50_000).map(|_| (random.number() as u32).to_le_bytes()));
    datasets
}

/// Every order of signs of eight datasets, and random orders of one to sixteen. True is negative.
pub fn orders_of_signs(random: &mut Random) -> Vec<Vec<bool>> {
    let mut orders: Vec<Vec<bool>> = (0..256)
        .map(|bits| (0..8).map(|bit| bits >> bit & 1 == 1).collect())
        .collect();
    for _ in 0..20 {
        for datasets in 1..=16 {
            orders.push((0..datasets).map(|_| random.once_in(2)).collect());
        }
    }
    orders
}

/// Random datasets of a width with these signs. Some are at an end of their range, or next to 0.
pub fn with_signs(random: &mut Random, width: usize, signs: &[bool]) -> Vec<Vec<u8>> {
    let dataset = |&negative: &bool| {
        let filling = random.one_of(&[None, None, Some(0x00), Some(0xFF)]);
        let mut bytes: Vec<u8> = (0..width).map(|_| filling.unwrap_or_else(|| random.byte())).collect();
        bytes[width - 1] = bytes[width - 1] & 0x7F | u8::from(negative) << 7;
        bytes
    };
    signs.iter().map(dataset).collect()
}
