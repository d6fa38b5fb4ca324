//! Tables of the C door: numbers of 8 bytes each, least significant byte first.

/// A table with room for so many entries.
pub(crate) struct Table<const ENTRIES: usize>([[u8; 8]; ENTRIES]);

impl<const ENTRIES: usize> Table<ENTRIES> {
    pub(crate) const fn new() -> Table<ENTRIES> {
        Table([[0; 8]; ENTRIES])
    }

    /// The table of these numbers, as many as there is room for.
    pub(crate) fn of(numbers: impl IntoIterator<Item = u64>) -> Table<ENTRIES> {
        let mut table = Table::new();
        for (entry, number) in table.0.iter_mut().zip(numbers) {
            *entry = number.to_le_bytes();
        }
        table
    }

    /// The bytes of the first entries, of all where there are no more.
    pub(crate) fn first(&self, entries: usize) -> &[u8] {
        self.0.get(..entries).unwrap_or(&self.0).as_flattened()
    }

    pub(crate) fn bytes_mut(&mut self) -> &mut [u8] {
        self.0.as_flattened_mut()
    }

    pub(crate) fn numbers(&self) -> [u64; ENTRIES] {
        self.0.map(u64::from_le_bytes)
    }
}
