//! Nine blocks mixed under a known order, their sheet, and the way back: `cargo run --example first`.

use lomuveran::{Permutation, Refusal, Setting};

fn main() -> Result<(), Refusal> {
    let order = Permutation::from_list(&[6, 2, 3, 7, 5, 1, 8, 0, 4])?;
    let (setting, log) = Setting::control_bits_logged(&order);
    let bits: String = setting.bits().iter().map(|bit| char::from(b'0' + bit)).collect();
    println!("setting {bits}, {} entries logged", log.len());

    let mut blocks = *b"abcdefghi";
    setting.apply(1, &mut blocks)?;
    println!("mixed {}", blocks.escape_ascii());

    let sheet = setting.write_sheet();
    println!("sheet {sheet:02x?}");

    Setting::read_sheet(&sheet)?.apply_inverse(1, &mut blocks)?;
    println!("returned {}", blocks.escape_ascii());

    let refusal = Setting::read_sheet(&[0x01, 0x03, 0x0e]).unwrap_err();
    println!("refused: {refusal}");
    Ok(())
}
