//! Blocks of the bought archive, which are mixed in the neighbour wiring. A setting of that wiring is a file of the digits 0 and 1;
//! `sheet` writes the sheet of the setting that does the same in the paper's wiring.
//!
//!     cargo run --example bought -- mix WIDTH BLOCKS MIXED DIGITS
//!     cargo run --example bought -- return WIDTH MIXED DIGITS BLOCKS
//!     cargo run --example bought -- sheet PLACES DIGITS SHEET
//!
//! As in the example `archive`, the work is done backwards and compared first, nothing that exists is written over, and what is made can be
//! read by its owner alone.

mod common;

use common::{create, drawn};
use lomuveran::NeighbourSetting;
use std::{env, error::Error, fs};

/// What is no digit 0 or 1 becomes a byte that the library refuses.
fn setting(places: usize, digits: &str) -> Result<NeighbourSetting, Box<dyn Error>> {
    let bits: Vec<u8> = fs::read(digits)?.iter().map(|digit| digit.wrapping_sub(b'0')).collect();
    Ok(NeighbourSetting::from_bits(places, &bits)?)
}

fn mix(width: usize, blocks: &str, mixed: &str, digits: &str) -> Result<(), Box<dyn Error>> {
    let month = fs::read(blocks)?;
    let setting = NeighbourSetting::control_bits(&drawn(month.len().checked_div(width).unwrap_or(0))?);
    let mut bytes = month.clone();
    setting.apply(width, &mut bytes)?;
    let mut back = bytes.clone();
    setting.apply_inverse(width, &mut back)?;
    if back != month {
        return Err(format!("{blocks}: put back, the mixed blocks are not these").into());
    }
    create(&[(digits, &setting.bits().iter().map(|bit| b'0' + bit).collect::<Vec<u8>>()), (mixed, &bytes)])
}

fn put_back(width: usize, mixed: &str, digits: &str, blocks: &str) -> Result<(), Box<dyn Error>> {
    let lent = fs::read(mixed)?;
    let setting = setting(lent.len().checked_div(width).unwrap_or(0), digits)?;
    let mut bytes = lent.clone();
    setting.apply_inverse(width, &mut bytes)?;
    let mut again = bytes.clone();
    setting.apply(width, &mut again)?;
    if again != lent {
        return Err(format!("{mixed}: mixed again, the blocks are not these").into());
    }
    create(&[(blocks, &bytes)])
}

fn sheet(places: usize, digits: &str, sheet: &str) -> Result<(), Box<dyn Error>> {
    create(&[(sheet, &setting(places, digits)?.to_paper().write_sheet())])
}

fn main() -> Result<(), Box<dyn Error>> {
    let args: Vec<String> = env::args().skip(1).collect();
    match args.iter().map(String::as_str).collect::<Vec<_>>()[..] {
        ["mix", width, blocks, mixed, digits] => mix(width.parse()?, blocks, mixed, digits),
        ["return", width, mixed, digits, blocks] => put_back(width.parse()?, mixed, digits, blocks),
        ["sheet", places, digits, to] => sheet(places.parse()?, digits, to),
        _ => {
            Err("bought mix WIDTH BLOCKS MIXED DIGITS, or return WIDTH MIXED DIGITS BLOCKS, or sheet PLACES DIGITS SHEET"
                .into())
        }
    }
}
