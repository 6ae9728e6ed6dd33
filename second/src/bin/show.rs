//! One input of one entry: its own digests and its answer in words, then the bytes lent, 32 to a line. Arguments: the
//! entry's name, the seed, k.

use second::answers::{answer, Account, ENTRIES};
use second::inputs::*;

fn main() {
    let arguments: Vec<String> = std::env::args().skip(1).collect();
    let [entry, seed, k] = &arguments[..] else {
        eprintln!("an entry, a seed, a number");
        std::process::exit(2);
    };
    let (seed, k): (u64, u64) = (seed.parse().expect("a seed"), k.parse().expect("a number"));
    let mut account = Account::default();
    let text = answer(entry, seed, k, &mut account);
    println!("inputs {:08x}\tanswers {:08x}", account.inputs.value, account.answers.value);
    println!("{}", text.trim_end());
    let bytes = match entry.as_str() {
        "gather" => gather_input(seed, k).window,
        "capsule" => capsule_input(seed, k).capsule,
        "report" => call_input(0, seed, k).area,
        "soundness" | "rules" => call_input(1, seed, k).area,
        "directory_write" => directory_write_input(seed, k).area,
        "directory_read" => directory_read_input(seed, k).directory,
        "crc" => crc_input(seed, k),
        "pack" => {
            // Drivers, their table, images, vendor codes, the payloads' table: the lengths are told above.
            let i = pack_input(seed, k);
            [i.drivers, i.driver_table, i.images, i.vendor_codes, i.payload_table].concat()
        }
        "pack_again" => pack_again_input(seed, k).capsule,
        name => {
            let place = ENTRIES.iter().position(|&e| e == name).expect("an entry's name");
            call_input(place as u64 - 2, seed, k).area
        }
    };
    for (line, group) in bytes.chunks(32).enumerate() {
        print!("{:6}", 32 * line);
        for byte in group {
            print!(" {byte:02x}");
        }
        println!();
    }
}
