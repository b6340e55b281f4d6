//! What a field holds, as a field reading answers it.

#[derive(Clone, Copy, PartialEq, Debug)]
pub enum Value {
    Word(u32),
    Long(u64),
    /// The first bytes of the array; how many.
    Block([u8; 16], usize),
    /// Type, and bytes with the unused ones zero.
    Address(u32, [u8; 16]),
    /// The start and count of an opaque, a string, a list or an AS path.
    Span(usize, usize),
}

impl Value {
    pub fn block(bytes: &[u8]) -> Self {
        Value::Block(sixteen(bytes), bytes.len())
    }

    pub fn is_zero(&self) -> bool {
        match *self {
            Value::Word(word) => word == 0,
            Value::Long(long) => long == 0,
            Value::Block(bytes, _) => bytes == [0; 16],
            Value::Address(kind, bytes) => kind == 0 && bytes == [0; 16],
            Value::Span(start, count) => start == 0 && count == 0,
        }
    }
}

/// The bytes, and zeros behind them.
pub fn sixteen(bytes: &[u8]) -> [u8; 16] {
    let mut all = [0; 16];
    all[..bytes.len()].copy_from_slice(bytes);
    all
}
