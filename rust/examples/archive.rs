//! Mixes the blocks of a file under an order drawn from the system's random numbers, and puts them back:
//!
//!     cargo run --example archive -- mix WIDTH BLOCKS MIXED SHEET
//!     cargo run --example archive -- return WIDTH MIXED SHEET BLOCKS
//!
//! Before anything is written the work is done backwards and compared. Nothing that exists is written over, and what is made can be read
//! by its owner alone: a sheet is secret.

mod common;

use common::{create, drawn};
use lomuveran::Setting;
use std::{env, error::Error, fs};

fn mix(width: usize, blocks: &str, mixed: &str, sheet: &str) -> Result<(), Box<dyn Error>> {
    let month = fs::read(blocks)?;
    let setting = Setting::control_bits(&drawn(month.len().checked_div(width).unwrap_or(0))?);
    let mut bytes = month.clone();
    setting.apply(width, &mut bytes)?;
    let written = setting.write_sheet();
    let mut back = bytes.clone();
    Setting::read_sheet(&written)?.apply_inverse(width, &mut back)?;
    if back != month {
        return Err(format!("{blocks}: put back, the mixed blocks are not these").into());
    }
    create(&[(sheet, &written), (mixed, &bytes)])
}

fn put_back(width: usize, mixed: &str, sheet: &str, blocks: &str) -> Result<(), Box<dyn Error>> {
    let lent = fs::read(mixed)?;
    let setting = Setting::read_sheet(&fs::read(sheet)?)?;
    let mut bytes = lent.clone();
    setting.apply_inverse(width, &mut bytes)?;
    let mut again = bytes.clone();
    setting.apply(width, &mut again)?;
    if again != lent {
        return Err(format!("{mixed}: mixed again, the blocks are not these").into());
    }
    create(&[(blocks, &bytes)])
}

fn main() -> Result<(), Box<dyn Error>> {
    let args: Vec<String> = env::args().skip(1).collect();
    match args.iter().map(String::as_str).collect::<Vec<_>>()[..] {
        ["mix", width, blocks, mixed, sheet] => mix(width.parse()?, blocks, mixed, sheet),
        ["return", width, mixed, sheet, blocks] => put_back(width.parse()?, mixed, sheet, blocks),
        _ => Err("archive mix WIDTH BLOCKS MIXED SHEET, or archive return WIDTH MIXED SHEET BLOCKS".into()),
    }
}
