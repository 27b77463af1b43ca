//! Reading and writing little-endian fields and counted lists.

/// The bytes not yet read. The caller has tested the length of the whole.
pub struct Reader<'a> {
    rest: &'a [u8],
}

impl<'a> Reader<'a> {
    pub fn new(bytes: &'a [u8]) -> Reader<'a> {
        Reader { rest: bytes }
    }

    /// The next `length` bytes, to be read on their own.
    pub fn part(&mut self, length: usize) -> Reader<'a> {
        let (part, rest) = self.rest.split_at(length);
        self.rest = rest;
        Reader::new(part)
    }

    pub fn byte(&mut self) -> u8 {
        self.part(1).rest[0]
    }

    pub fn pair(&mut self) -> u16 {
        u16::from_le_bytes([self.byte(), self.byte()])
    }

    pub fn quad(&mut self) -> u32 {
        u32::from(self.pair()) | u32::from(self.pair()) << 16
    }

    pub fn rest_is_zero(&self) -> bool {
        self.rest.iter().all(|&byte| byte == 0)
    }

    /// A count byte, then `limit` places of `width` bytes. `None` if the count
    /// is above the limit, an item is bad or a place beyond the count is not zero.
    pub fn list<T>(
        &mut self,
        limit: usize,
        width: usize,
        item: impl FnMut(Reader<'a>) -> Option<T>,
    ) -> Option<Vec<T>> {
        let count = usize::from(self.byte());
        let mut places = self.part(limit * width);
        if count > limit {
            return None;
        }
        let used: Vec<Reader<'a>> = (0..count).map(|_| places.part(width)).collect();
        let items = used.into_iter().map(item).collect::<Option<Vec<T>>>()?;
        places.rest_is_zero().then_some(items)
    }
}

/// The bytes written so far.
#[derive(Default)]
pub struct Writer {
    pub bytes: Vec<u8>,
}

impl Writer {
    pub fn byte(&mut self, value: u8) {
        self.bytes.push(value);
    }

    pub fn pair(&mut self, value: u16) {
        self.bytes.extend(value.to_le_bytes());
    }

    pub fn quad(&mut self, value: u32) {
        self.bytes.extend(value.to_le_bytes());
    }

    pub fn zeros(&mut self, count: usize) {
        self.bytes.resize(self.bytes.len() + count, 0);
    }

    /// The counterpart of `Reader::list`.
    pub fn list<T>(
        &mut self,
        limit: usize,
        width: usize,
        items: &[T],
        mut item: impl FnMut(&mut Writer, &T),
    ) {
        self.byte(items.len() as u8);
        for each in items {
            item(self, each);
        }
        self.zeros((limit - items.len()) * width);
    }
}
