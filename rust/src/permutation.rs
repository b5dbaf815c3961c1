use crate::{ffi, Entry, Refusal, Setting, MAX_LISTED, MAX_PLACES};

/// A permutation of at most 1,024 places (an order): entry i is the place to which the block at place i goes.
///
/// ```
/// # fn main() -> Result<(), lomuveran::Refusal> {
/// use lomuveran::Permutation;
///
/// let order = Permutation::from_list(&[1, 2, 0])?;
/// let back = order.inverse();
/// assert_eq!(back.entries(), [2, 0, 1]);
/// assert_eq!(order.combine(&back)?, Permutation::identity(3)?);
/// assert_eq!(order.combine(&back)?.fixed_points(), 3);
/// assert_eq!(Permutation::from_list(&[1, 3, 0]).unwrap_err().question, 6);
/// # Ok(())
/// # }
/// ```
#[derive(Clone, Debug, PartialEq, Eq, Hash)]
pub struct Permutation {
    entries: Vec<u16>,
    // how many entries stay home, as the library told it with these entries: so it refuses none of the calls below
    fixed: usize,
}

impl Permutation {
    /// Each place to itself. Question 1.
    pub fn identity(n: usize) -> Result<Permutation, Refusal> {
        // one entry too many is refused as any more would be
        let mut entries = vec![0; n.min(MAX_PLACES + 1)];
        // SAFETY: a pointer goes with its slice's length; the borrows keep two slices apart. The same holds below.
        let fixed = unsafe { ffi::lomuveran_permutation_identity(entries.as_mut_ptr(), entries.len()) }.fixed()?;
        Ok(Permutation { entries, fixed })
    }

    // The number of a list that is a permutation.
    fn fixed_of(list: &[u16]) -> Result<usize, Refusal> {
        // SAFETY: as above.
        unsafe { ffi::lomuveran_permutation_from_list(list.as_ptr(), list.len()) }.fixed()
    }

    /// A list that has each of its places once. Questions 1, 6.
    pub fn from_list(list: &[u16]) -> Result<Permutation, Refusal> {
        let fixed = Permutation::fixed_of(list)?;
        Ok(Permutation { entries: list.to_vec(), fixed })
    }

    /// An order of n places from random words, as [`shuffle`](crate::shuffle) draws it: n + 64 do but for a chance below
    /// 2^-1000. Lend it words of its own: how many were used is not told. Questions 1, 18.
    ///
    /// ```
    /// let order = lomuveran::Permutation::shuffle(3, &[2, 1, 0]).unwrap();
    /// assert_eq!(order.entries(), [2, 0, 1]);
    /// ```
    pub fn shuffle(n: usize, words: &[u32]) -> Result<Permutation, Refusal> {
        let mut entries = vec![0; n.min(MAX_PLACES)];
        crate::shuffle(n, words, &mut entries)?;
        let fixed = Permutation::fixed_of(&entries).expect("what is drawn is a permutation");
        Ok(Permutation { entries, fixed })
    }

    /// Of all orders of n places, at most [`MAX_LISTED`], in dictionary order, n! of them, the one of number r, counted from 0,
    /// with its setting.
    /// Questions 17, 14.
    ///
    /// ```
    /// use lomuveran::Permutation;
    ///
    /// let (order, setting) = Permutation::ranked(3, 3).unwrap();
    /// assert_eq!((order.entries(), setting.bits()), (&[1, 2, 0][..], &[0, 1, 1][..]));
    /// assert_eq!((0..).map_while(|r| Permutation::ranked(6, r).ok()).count(), 720);
    /// assert_eq!(Permutation::ranked(7, 0).unwrap_err().question, 17);
    /// ```
    pub fn ranked(n: usize, r: usize) -> Result<(Permutation, Setting), Refusal> {
        // more places are refused before their buffers are looked at
        let places = n.min(MAX_LISTED);
        let (mut entries, mut bits) = (vec![0; places], vec![0; crate::switches(places)?]);
        let mut log = vec![Entry::default(); crate::entries(places)?];
        crate::ranked_order(n, r, &mut entries, &mut bits, log.as_flattened_mut())?;
        let fixed = Permutation::fixed_of(&entries).expect("a listed order is a permutation");
        Ok((Permutation { entries, fixed }, Setting::from_bits(n, &bits).expect("its bits are a setting")))
    }

    /// Exchanges entries i and j. Question 14.
    pub fn exchange(&mut self, i: usize, j: usize) -> Result<(), Refusal> {
        let Permutation { entries, fixed } = self;
        // SAFETY: as above.
        *fixed = unsafe { ffi::lomuveran_permutation_exchange(entries.as_mut_ptr(), entries.len(), *fixed, i, j) }.fixed()?;
        Ok(())
    }

    /// First this one, then the second: entry i is `second[self[i]]`. Question 15.
    pub fn combine(&self, second: &Permutation) -> Result<Permutation, Refusal> {
        let mut entries = self.entries.clone();
        let (first, n, then) = (entries.as_mut_ptr(), entries.len(), &second.entries);
        // SAFETY: as above.
        let record =
            unsafe { ffi::lomuveran_permutation_combine(first, n, self.fixed, then.as_ptr(), then.len(), second.fixed) };
        Ok(Permutation { fixed: record.fixed()?, entries })
    }

    /// Entry v is the place that goes to v.
    pub fn inverse(&self) -> Permutation {
        let mut entries = self.entries.clone();
        // SAFETY: as above.
        let record = unsafe { ffi::lomuveran_permutation_inverse(entries.as_mut_ptr(), entries.len(), self.fixed) };
        let fixed = record.fixed().expect("a permutation is never refused");
        Permutation { entries, fixed }
    }

    /// How many entries stay home. Takes the same time for any number of places: it is kept with the entries, not counted.
    pub fn fixed_points(&self) -> usize {
        let list = &self.entries;
        // SAFETY: as above.
        let answer = unsafe { ffi::lomuveran_permutation_fixed_points(list.as_ptr(), list.len(), self.fixed) };
        answer.count().expect("a permutation is never refused")
    }

    /// The list.
    pub fn entries(&self) -> &[u16] {
        &self.entries
    }
}
