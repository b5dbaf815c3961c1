use crate::{calls, NeighbourSetting, Permutation, Refusal, MAX_SHEET, MAX_SWITCHES};
use std::fmt;

/// An entry of a log. Of set: its kind, 1 to 6, the first place of a network, its number of places, and where in the setting its
/// first bit stands. Of mix and return: 7, the lower and the upper place of a switch, and where its bit stands.
pub type Entry = [u16; 4];

/// Set of a permutation by the call of a wiring: the bits and the log.
pub(crate) fn set_by(
    call: fn(&[u16], &mut [u8], &mut [u16]) -> Result<usize, Refusal>,
    order: &Permutation,
) -> (Vec<u8>, Vec<Entry>) {
    const NEVER: &str = "a permutation is never refused";
    let places = order.entries().len();
    let mut bits = vec![0; calls::switches(places).expect(NEVER)];
    let mut log = vec![Entry::default(); calls::entries(places).expect(NEVER)];
    call(order.entries(), &mut bits, log.as_flattened_mut()).expect(NEVER);
    (bits, log)
}

/// The bits that do in the other wiring what a setting's bits do in its own.
pub(crate) fn convert_by(call: fn(usize, &[u8], &mut [u8]) -> Result<usize, Refusal>, places: usize, bits: &[u8]) -> Vec<u8> {
    let mut out = vec![0; bits.len()];
    call(places, bits, &mut out).expect("a setting is never refused");
    out
}

/// The setting of a network of n places: what mixes blocks and puts them back. It is a secret, so its `Debug` shows n alone.
/// Its wiring is the paper's; [`NeighbourSetting`] is one of the neighbour wiring.
///
/// ```
/// # fn main() -> Result<(), lomuveran::Refusal> {
/// use lomuveran::{Permutation, Setting};
///
/// let order = Permutation::from_list(&[6, 2, 3, 7, 5, 1, 8, 0, 4])?;
/// let setting = Setting::control_bits(&order);
/// let mut blocks = *b"abcdefghi";
/// setting.apply(1, &mut blocks)?;
/// assert_eq!(&blocks, b"hfbcieadg");
///
/// let sheet = setting.write_sheet(); // keep it for thirty years
/// assert_eq!(sheet, [0x01, 0x09, 0x88, 0x2f, 0x1d]);
/// Setting::read_sheet(&sheet)?.apply_inverse(1, &mut blocks)?;
/// assert_eq!(&blocks, b"abcdefghi");
/// # Ok(())
/// # }
/// ```
#[derive(Clone, PartialEq, Eq)]
pub struct Setting {
    places: usize,
    bits: Vec<u8>, // exactly the switches of so many places, each 0 or 1
}

impl Setting {
    /// The canonical setting of an order.
    pub fn control_bits(order: &Permutation) -> Setting {
        Setting::control_bits_logged(order).0
    }

    /// The same, with the log of the call.
    ///
    /// ```
    /// use lomuveran::{Permutation, Setting};
    ///
    /// let (setting, log) = Setting::control_bits_logged(&Permutation::from_list(&[1, 0]).unwrap());
    /// assert_eq!(setting.bits(), [1]);
    /// assert_eq!(log, [[5, 0, 2, 0], [6, 0, 2, 0]]);
    /// ```
    pub fn control_bits_logged(order: &Permutation) -> (Setting, Vec<Entry>) {
        let (bits, log) = set_by(calls::control_bits, order);
        (Setting { places: order.entries().len(), bits }, log)
    }

    /// A setting from its bits. Questions 1, 4, 7.
    ///
    /// ```
    /// use lomuveran::Setting;
    ///
    /// assert_eq!(Setting::from_bits(3, &[0, 1, 1]).unwrap().write_sheet(), [1, 3, 6]);
    /// assert_eq!(Setting::from_bits(3, &[0, 2, 1]).unwrap_err().place, 1);
    /// ```
    pub fn from_bits(places: usize, bits: &[u8]) -> Result<Setting, Refusal> {
        calls::write_sheet(places, bits, &mut [0; MAX_SHEET])?;
        Ok(Setting { places, bits: bits.to_vec() })
    }

    /// Mixes the blocks, in place, and gives the log. Questions 2, 3.
    pub fn apply(&self, width: usize, blocks: &mut [u8]) -> Result<Vec<Entry>, Refusal> {
        let mut log = vec![Entry::default(); self.bits.len()];
        calls::apply(self.places, width, blocks, &self.bits, log.as_flattened_mut())?;
        Ok(log)
    }

    /// Puts the blocks back, in place, and gives the log. Questions 2, 3.
    pub fn apply_inverse(&self, width: usize, blocks: &mut [u8]) -> Result<Vec<Entry>, Refusal> {
        let mut log = vec![Entry::default(); self.bits.len()];
        calls::apply_inverse(self.places, width, blocks, &self.bits, log.as_flattened_mut())?;
        Ok(log)
    }

    /// The setting of the neighbour wiring that does the same: the canonical one of this setting's order.
    ///
    /// ```
    /// use lomuveran::Setting;
    ///
    /// assert_eq!(Setting::from_bits(3, &[0, 1, 1]).unwrap().to_neighbour().bits(), [1, 1, 0]);
    /// ```
    pub fn to_neighbour(&self) -> NeighbourSetting {
        NeighbourSetting::of(self.places, convert_by(calls::to_neighbour, self.places, &self.bits))
    }

    // bits that are known to be a setting of so many places
    pub(crate) fn of(places: usize, bits: Vec<u8>) -> Setting {
        Setting { places, bits }
    }

    /// The sheet: all that is needed to put the blocks back (docs/RULE.md).
    pub fn write_sheet(&self) -> Vec<u8> {
        let mut sheet = vec![0; MAX_SHEET];
        let count = calls::write_sheet(self.places, &self.bits, &mut sheet).expect("a setting is never refused");
        sheet.truncate(count);
        sheet
    }

    /// Questions 8, 9, 10; 8, 9, 1; 8, 9 of each number; 11, 12.
    pub fn read_sheet(sheet: &[u8]) -> Result<Setting, Refusal> {
        let mut bits = vec![0; MAX_SWITCHES];
        let places = calls::read_sheet(sheet, &mut bits)?;
        bits.truncate(calls::switches(places)?);
        Ok(Setting { places, bits })
    }

    /// n.
    pub fn places(&self) -> usize {
        self.places
    }

    /// A byte to a bit.
    pub fn bits(&self) -> &[u8] {
        &self.bits
    }
}

impl fmt::Debug for Setting {
    fn fmt(&self, f: &mut fmt::Formatter<'_>) -> fmt::Result {
        f.debug_struct("Setting").field("places", &self.places).finish_non_exhaustive()
    }
}
