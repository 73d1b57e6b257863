//! Slips made on purpose, to see that the comparison notices them.
//!
//! Each is off unless the stepper is compiled with `--cfg 'slip="N"'`, as
//! `slips.sh` does; being constants, they leave no trace in the plain program.

/// Document 01's first slip: Figure 6 line 6 as printed, the announced value
/// is taken even where the segment's swap failed.
pub const ANNOUNCED_VALUE_AFTER_FAILED_SWAP: bool = cfg!(slip = "1");

/// The second: the witness is named by the old header.
pub const WITNESS_FROM_OLD_HEADER: bool = cfg!(slip = "2");

/// The third: a store of the value already there leaves the tag.
pub const NO_NEW_TAG_FOR_EQUAL_VALUE: bool = cfg!(slip = "3");

/// The fourth: a "no" leaves the sequence open.
pub const OPEN_AFTER_NO: bool = cfg!(slip = "4");

/// The fifth: a witness leaves no sequence open.
pub const CLOSED_AFTER_WITNESS: bool = cfg!(slip = "5");

/// One more: a store answers yes at its header's swap, without its Copy.
pub const STORE_SKIPS_COPY: bool = cfg!(slip = "6");

/// One more: the second read goes to the announce row, not to the segment.
/// It takes as many steps as the right one, so that values alone show it.
pub const SECOND_READ_OF_ANNOUNCE_ROW: bool = cfg!(slip = "7");
