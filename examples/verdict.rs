// The verdict on FOLDER/day.bin and FOLDER/clearing.bin, from Rust.
//
//   rustc -O -L target/staticlib -l static=embed examples/verdict.rs -o target/verdict-rs
//   target/verdict-rs samples/accepted
use std::env;
use std::fs;
use std::path::Path;

const LONGEST: usize = 852;
const TOTALS: [&str; 6] = ["order value", "buyers", "sellers", "rent", "traded", "shortfall"];

// As include/ayinzhad.h declares them.
extern "C" {
    fn ayinzhad_check(day: *const u8, day_length: usize, clearing: *const u8, clearing_length: usize, room: *mut u8, room_length: usize, place: *mut usize, places: usize) -> u8;
    fn ayinzhad_totals(day: *const u8, day_length: usize, clearing: *const u8, clearing_length: usize, totals: *mut i64, totals_length: usize) -> u8;
}

// Each slice and array passes its own pointer and its own length, which is all that the functions ask.
fn check(day: &[u8], clearing: &[u8], room: &mut [u8]) -> (u8, [usize; 3]) {
    let mut place = [0; 3];
    let number = unsafe {
        ayinzhad_check(day.as_ptr(), day.len(), clearing.as_ptr(), clearing.len(), room.as_mut_ptr(), room.len(), place.as_mut_ptr(), place.len())
    };
    (number, place)
}

fn totals(day: &[u8], clearing: &[u8]) -> (u8, [i64; 6]) {
    let mut totals = [0; 6];
    let number = unsafe { ayinzhad_totals(day.as_ptr(), day.len(), clearing.as_ptr(), clearing.len(), totals.as_mut_ptr(), totals.len()) };
    (number, totals)
}

fn main() {
    let folder = env::args().nth(1).unwrap_or(".".to_string());
    let Ok(day) = fs::read(Path::new(&folder).join("day.bin")) else { return println!("missing day") };
    let Ok(clearing) = fs::read(Path::new(&folder).join("clearing.bin")) else { return println!("missing clearing") };
    let mut room = [0; LONGEST];
    let (number, place) = check(&day, &clearing, &mut room);
    println!("verdict {} {} {} {}", number, place[0], place[1], place[2]);
    if number == 0 {
        for (name, total) in TOTALS.iter().zip(totals(&day, &clearing).1) {
            println!("{name} {total}");
        }
    }
}
