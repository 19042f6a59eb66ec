//! The entries of a list of TLVs.
use crate::calls;
use crate::Refusal;
use std::iter::FusedIterator;

/// An entry of a list of TLVs.
#[derive(Clone, Copy, Debug, PartialEq, Eq, Hash)]
pub struct Tlv<'a> {
    /// The number of the type.
    pub tlv_type: u16,
    /// The value.
    pub value: &'a [u8],
}

/// The entries of a list of TLVs, one after the other; a refusal is the last.
#[derive(Clone, Debug)]
pub struct Tlvs<'a> {
    list: &'a [u8],
    place: u64,
    is_over: bool,
}

/// The entries of a list of TLVs, as [`Announce::read`](crate::Announce::read) finds one in a frame.
///
/// ```
/// use rillarch::{tlvs, Refusal, Tlv};
/// let list = [0, 8, 0, 2, 0xAB, 0xCD];
/// let mut entries = tlvs(&list);
/// assert_eq!(entries.next(), Some(Ok(Tlv { tlv_type: 8, value: &[0xAB, 0xCD] })));
/// assert_eq!(entries.next(), None);
/// assert_eq!(tlvs(&[0, 8, 0, 3, 1, 2, 3]).next(), Some(Err(Refusal::OddTlv)));
/// ```
pub fn tlvs(list: &[u8]) -> Tlvs<'_> {
    Tlvs {
        list,
        place: 0,
        is_over: false,
    }
}

impl<'a> Tlvs<'a> {
    /// The entry at the place, which moves behind it; none at the end.
    fn entry(&mut self) -> Result<Option<Tlv<'a>>, Refusal> {
        let [found, tlv_type, start, length, next] = calls::tlv_entry(self.list, self.place)?;
        if found == 0 {
            return Ok(None);
        }
        self.place = next;
        Ok(Some(Tlv {
            tlv_type: tlv_type as u16,
            value: &self.list[start as usize..][..length as usize],
        }))
    }
}

impl<'a> Iterator for Tlvs<'a> {
    type Item = Result<Tlv<'a>, Refusal>;

    fn next(&mut self) -> Option<Self::Item> {
        if self.is_over {
            return None;
        }
        let entry = self.entry();
        self.is_over = !matches!(entry, Ok(Some(_)));
        entry.transpose()
    }
}

impl FusedIterator for Tlvs<'_> {}
