use crate::setting::{convert_by, set_by};
use crate::{calls, Entry, Permutation, Refusal, Setting};
use std::fmt;

/// A setting of the neighbour wiring, that of the bought archive: its switches join neighbours, places 2i and 2i + 1, and the
/// halves of a network are its even and its odd places. It does for blocks what a [`Setting`] does, by other bits. It is a
/// secret, so its `Debug` shows n alone.
///
/// ```
/// # fn main() -> Result<(), lomuveran::Refusal> {
/// use lomuveran::{NeighbourSetting, Permutation, Setting};
///
/// let order = Permutation::from_list(&[6, 2, 3, 7, 5, 1, 8, 0, 4])?;
/// let setting = NeighbourSetting::control_bits(&order);
/// let mut blocks = *b"abcdefghi";
/// setting.apply(1, &mut blocks)?;
/// assert_eq!(&blocks, b"hfbcieadg");
///
/// let ours = setting.to_paper(); // does the same in the paper's wiring, and can be written as a sheet
/// assert_eq!(ours, Setting::control_bits(&order));
/// ours.apply_inverse(1, &mut blocks)?;
/// assert_eq!(&blocks, b"abcdefghi");
/// # Ok(())
/// # }
/// ```
///
/// Sheets are of the paper's wiring: there is none of a neighbour setting.
///
/// ```compile_fail,E0599
/// lomuveran::NeighbourSetting::from_bits(3, &[1, 1, 0]).unwrap().write_sheet();
/// ```
#[derive(Clone, PartialEq, Eq)]
pub struct NeighbourSetting {
    places: usize,
    bits: Vec<u8>, // exactly the switches of so many places, each 0 or 1
}

impl NeighbourSetting {
    /// The canonical setting of an order.
    pub fn control_bits(order: &Permutation) -> NeighbourSetting {
        NeighbourSetting::control_bits_logged(order).0
    }

    /// The same, with the log of the call.
    pub fn control_bits_logged(order: &Permutation) -> (NeighbourSetting, Vec<Entry>) {
        let (bits, log) = set_by(calls::neighbour_control_bits, order);
        (NeighbourSetting { places: order.entries().len(), bits }, log)
    }

    /// A setting from its bits. Whether they are of the neighbour wiring nobody can see: that must be known. Questions 1, 4, 7.
    ///
    /// ```
    /// use lomuveran::NeighbourSetting;
    ///
    /// assert_eq!(NeighbourSetting::from_bits(3, &[1, 1, 0]).unwrap().to_paper().bits(), [0, 1, 1]);
    /// assert_eq!(NeighbourSetting::from_bits(3, &[1, 2, 0]).unwrap_err().place, 1);
    /// ```
    pub fn from_bits(places: usize, bits: &[u8]) -> Result<NeighbourSetting, Refusal> {
        // the questions are those of any setting
        Setting::from_bits(places, bits).map(|_| NeighbourSetting { places, bits: bits.to_vec() })
    }

    // bits that are known to be a setting of so many places
    pub(crate) fn of(places: usize, bits: Vec<u8>) -> NeighbourSetting {
        NeighbourSetting { places, bits }
    }

    /// The setting of the paper's wiring that does the same: the canonical one of this setting's order.
    pub fn to_paper(&self) -> Setting {
        Setting::of(self.places, convert_by(calls::to_paper, self.places, &self.bits))
    }

    /// Mixes the blocks, in place, and gives the log. Questions 2, 3.
    pub fn apply(&self, width: usize, blocks: &mut [u8]) -> Result<Vec<Entry>, Refusal> {
        let mut log = vec![Entry::default(); self.bits.len()];
        calls::neighbour_apply(self.places, width, blocks, &self.bits, log.as_flattened_mut())?;
        Ok(log)
    }

    /// Puts the blocks back, in place, and gives the log. Questions 2, 3.
    pub fn apply_inverse(&self, width: usize, blocks: &mut [u8]) -> Result<Vec<Entry>, Refusal> {
        let mut log = vec![Entry::default(); self.bits.len()];
        calls::neighbour_apply_inverse(self.places, width, blocks, &self.bits, log.as_flattened_mut())?;
        Ok(log)
    }

    /// n.
    pub fn places(&self) -> usize {
        self.places
    }

    /// A byte to a bit.
    pub fn bits(&self) -> &[u8] {
        &self.bits
    }
}

impl fmt::Debug for NeighbourSetting {
    fn fmt(&self, f: &mut fmt::Formatter<'_>) -> fmt::Result {
        f.debug_struct("NeighbourSetting").field("places", &self.places).finish_non_exhaustive()
    }
}
