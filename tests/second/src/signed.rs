//! The signed read-out of request 2, by text. "Fields are 8 bytes, fifteen digits and a sign": sixteen characters, of
//! which the last is the sign. Request 3 has such fields of 1 to 16 bytes.

use crate::Refusal;

const BYTES: usize = 8;
const DIGITS: usize = 15;

/// "33 a lent field of other than 8 bytes, first; then 25 a digit over 9 in the first fifteen places, 26 a sign digit
/// below A". "Minus zero reads as 0": there is one zero among the answers.
pub fn read_signed(field: &[u8]) -> Result<i64, Refusal> {
    if field.len() != BYTES {
        return Err(33);
    }
    let (minus, size) = sign_and_size(field)?;
    let number = if minus { -size } else { size };
    Ok(i64::try_from(number).expect("fifteen digits"))
}

/// Whether a field of 1 to 16 bytes has a minus sign, and the number that its digits make.
pub(crate) fn sign_and_size(field: &[u8]) -> Result<(bool, i128), Refusal> {
    let whole = field.iter().fold(0, |whole, byte| whole << 8 | u128::from(*byte));
    let text = format!("{whole:0places$X}", places = 2 * field.len());
    let (digits, sign) = text.split_at(text.len() - 1);
    // A to F are no digits of a decimal text.
    let size = digits.parse().map_err(|_| 25)?;
    match sign {
        "A" | "C" | "E" | "F" => Ok((false, size)),
        "B" | "D" => Ok((true, size)),
        _ => Err(26),
    }
}

/// "The way back writes C or D, never D for zero, and takes only numbers of at most fifteen digits": "in writing, 33 then
/// 27 number too large, the field unchanged".
pub fn write_signed(number: i64, field: &mut [u8]) -> Result<(), Refusal> {
    if field.len() != BYTES {
        return Err(33);
    }
    if number.unsigned_abs().to_string().len() > DIGITS {
        return Err(27);
    }
    put_number(i128::from(number), field);
    Ok(())
}

/// The last digits of a number, as many as a field of 1 to 16 bytes has, and its sign.
pub(crate) fn put_number(number: i128, field: &mut [u8]) {
    let digits = 2 * field.len() - 1;
    let size = number.unsigned_abs() % 10u128.pow(digits as u32);
    let sign = if number < 0 { 'D' } else { 'C' };
    let text = format!("{size:0digits$}{sign}");
    let whole = u128::from_str_radix(&text, 16).expect("at most thirty-two characters");
    field.copy_from_slice(&whole.to_be_bytes()[16 - field.len()..]);
}
