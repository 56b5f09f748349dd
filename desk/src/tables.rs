//! The third input of a request to draft a text: how many numbers the table has, in 2
//! bytes, the numbers, in 8 bytes each, all big-endian, and what the buffer holds
//! before.

/// A table of user numbers, and a buffer.
#[derive(Clone, PartialEq, Eq, Debug)]
pub struct TableAndBuffer {
    pub table: Vec<u64>,
    pub buffer: Vec<u8>,
}

impl TableAndBuffer {
    /// What stands before the first number.
    pub const HEAD: usize = 2;
    pub const NUMBER: usize = 8;

    /// The table and the buffer in these bytes, unless they are shorter than the table.
    pub fn from_bytes(bytes: &[u8]) -> Option<TableAndBuffer> {
        let (head, rest) = bytes.split_at_checked(TableAndBuffer::HEAD)?;
        let count = usize::from(u16::from_be_bytes(head.try_into().expect("2 bytes")));
        let (numbers, buffer) = rest.split_at_checked(count * TableAndBuffer::NUMBER)?;
        let table = numbers
            .chunks(TableAndBuffer::NUMBER)
            .map(|number| u64::from_be_bytes(number.try_into().expect("8 bytes")))
            .collect();
        Some(TableAndBuffer {
            table,
            buffer: buffer.to_vec(),
        })
    }

    pub fn to_bytes(&self) -> Vec<u8> {
        let count = u16::try_from(self.table.len()).expect("tables are short");
        let numbers = self.table.iter().flat_map(|number| number.to_be_bytes());
        let mut bytes = count.to_be_bytes().to_vec();
        bytes.extend(numbers);
        bytes.extend(&self.buffer);
        bytes
    }
}
