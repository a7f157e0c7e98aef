//! Runs one SQCADD at 128 bits: Z0 = (100, 0), Z1 = (0, -100), 90 degrees.
use kobbeskuim::{Family, Fields, Refused, Size, encode, file_size, register_mut, run};

fn main() -> Result<(), Refused> {
    let sqcadd = Fields { family: Family::SQCADD, size: Size::B, turns: 1, second: 1, ..Fields::default() };
    let word = encode(&sqcadd)?; // SQCADD Z0.B, Z0.B, Z1.B, 90
    let mut file = vec![0; file_size(128)];
    register_mut(128, &mut file, 0)?[0] = 100;
    register_mut(128, &mut file, 1)?[1] = -100i8 as u8;
    let ran = run(128, &mut file, false, &[word]);
    ran.ended?;
    println!("word {word:08X}, done {}, lane 0 is {}", ran.done, file[0] as i8);
    Ok(())
}
