//! A word's layout: the tag in the upper b bits, the value in the lower 64 - b.

const LEAST_TAG_BITS: u64 = 4;
const MOST_TAG_BITS: u64 = 48;

#[derive(Clone, Copy, PartialEq, Eq, Debug)]
pub struct Layout {
    tag_bits: u32,
}

impl Layout {
    /// Check 1 for b alone.
    pub fn new(tag_bits: u64) -> Option<Layout> {
        let in_range = (LEAST_TAG_BITS..=MOST_TAG_BITS).contains(&tag_bits);
        in_range.then_some(Layout { tag_bits: tag_bits as u32 })
    }

    /// 2^b: tags are below it.
    pub fn tags(self) -> u64 {
        1 << self.tag_bits
    }

    /// 2^(64 - b): values are below it.
    pub fn values(self) -> u64 {
        1 << (64 - self.tag_bits)
    }

    pub fn fits(self, value: u64) -> bool {
        value < self.values()
    }

    pub fn pack(self, tag: u64, value: u64) -> u64 {
        tag << (64 - self.tag_bits) | value
    }

    pub fn tag(self, word: u64) -> u64 {
        word >> (64 - self.tag_bits)
    }

    pub fn value(self, word: u64) -> u64 {
        word & (self.values() - 1)
    }

    pub fn next_tag(self, tag: u64) -> u64 {
        tag.wrapping_add(1) % self.tags()
    }

    pub fn previous_tag(self, tag: u64) -> u64 {
        tag.wrapping_sub(1) % self.tags()
    }
}
