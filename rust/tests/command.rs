//! The command `meanderpeg`, run as a person runs it: each test is a transcript of the built program in a folder of
//! its own; what it says, its exit statuses included, is compared with a file of tests/command/.
//! MEANDERPEG_WRITE_EXPECTED=1 writes those files anew; then read the difference. The sample files are made by the
//! second implementation.

#[path = "command/transcript.rs"]
mod transcript;

use second::directory::directory_write;
use second::inputs::Draw;
use second::make::{
    make_area, make_capsule, make_record, payload, plan, put_descriptor, record_bytes, CapsulePlan, RecordPlan,
};
use second::record::{both_sound_and_equal, record_read};
use second::stores::apply;
use std::ffi::OsString;
use std::fs;
use std::os::unix::ffi::OsStringExt;
use std::path::Path;
use std::process::{Command, Stdio};
use std::time::Duration;
use transcript::{stores_of, value, Run, Transcript};

const GUID_0: &str = "a3a2a1a0-a5a4-a7a6-a8a9-aaabacadae00";
const GUID_1: &str = "a3a2a1a0-a5a4-a7a6-a8a9-aaabacadae01";

fn sample_plan() -> CapsulePlan {
    let mut second = payload(2, b"new firmware for the controller", b"the maker's own bytes");
    (second.guid, second.index, second.instance, second.spare) =
        (*b"\x3f\x1c\x9a\x7e\x52\xd8FK\xb0\xe5j\x11\xc4\xf9}(", 1, 7, 5);
    let drivers = vec![b"driver of the cutting table".to_vec()];
    CapsulePlan {
        header: 32,
        flags: 0x0005_0000,
        gap: 4,
        drivers,
        payloads: vec![payload(1, b"old", b""), second],
        tail: 0,
    }
}

/// The sample area: records of so many banks and images, every bank accepted.
fn sample_area(banks: usize, images: usize) -> Vec<u8> {
    let record = make_record(banks, images, 0, 1);
    make_area(&record, &record, 9)
}

/// Bank 0 accepted, bank 1 on trial with image 1 unaccepted, bank 2 invalid.
fn trial_area() -> Vec<u8> {
    let states =
        RecordPlan { states: [252, 254, 255, 255], accepted: [3, 1, 2, 0], active: 1, previous: 0, ..plan(3, 2) };
    let record = record_bytes(&states);
    make_area(&record, &record, 9)
}

const HELP: [&str; 14] = [
    "--help",
    "--version",
    "capsule --help",
    "capsule list --help",
    "capsule extract --help",
    "capsule pack --help",
    "gather x --help",
    "record show --help",
    "record update --help",
    "record report --help",
    "record make --help",
    "directory --help",
    "directory write --help",
    "directory show --help",
];

/// Lines that fit no subcommand, or not theirs.
const WRONG: [&str; 49] = [
    "",
    "help",
    "capsule",
    "capsule lost a",
    "--version x",
    "capsule list",
    "capsule list a b",
    "capsule list --all a",
    "capsule extract a 0x out",
    "capsule extract a -1 out",
    "capsule pack",
    "capsule pack out more",
    "capsule pack out --driver",
    "capsule pack out --flags reset,now",
    "capsule pack out --flags 0x100000000",
    "capsule pack out --flags persist,",
    "capsule pack out --flags persist --flags reset",
    "capsule pack out --payload a3a2a1a0 --image a.area",
    "capsule pack out --payload a3a2a1a0-a5a4-a7a6-a8a9-aaabacadae00",
    "capsule pack out --driver a.area --image a.area",
    "capsule pack out --payload a3a2a1a0-a5a4-a7a6-a8a9-aaabacadae00 --image a.area --index 256",
    "capsule pack out --payload a3a2a1a0-a5a4-a7a6-a8a9-aaabacadae00 --image a.area --instance -1",
    "capsule pack out --payload a3a2a1a0-a5a4-a7a6-a8a9-aaabacadae00 --image a.area --version two",
    "capsule pack out --payload a3a2a1a0-a5a4-a7a6-a8a9-aaabacadae00 --image a.area --image a.area",
    "gather a.area 0x10000000000000000 0",
    "gather a.area 1 g",
    "record make b.area",
    "record make b.area --banks",
    "record make b.area --banks 5 --image x",
    "record make b.area --banks 1",
    "record make b.area --banks 2",
    "record make b.area --banks 2 --banks 3",
    "record make b.area --banks 2 --image a3a2a1a0",
    "record update a.area",
    "record update a.area begin now",
    "record update a.area commit",
    "record update a.area start-up",
    "record update a.area start-up 0x1ffffffff",
    "record update a.area begin --stores",
    "record update a.area begin --stores many",
    "record update a.area begin --stores 1 --dry-run",
    "record update a.area commit a3a2a1a0-a5a4-a7a6-a8a9-aaabacadae00 perhaps",
    "record update a.area reset",
    "directory",
    "directory show",
    "directory show a b",
    "directory write a.area 0 words",
    "directory write a.area one words out",
    "directory write a.area 0x100000000 words out",
];

#[test]
fn help_version_and_wrong_words() {
    let mut program = Transcript::new("help");
    program.write("a.area", &sample_area(2, 1));
    for line in HELP {
        assert_eq!(program.run(line).status, 0, "{line}");
    }
    for line in WRONG {
        assert_eq!(program.run(line).status, 2, "{line}");
    }
    let twice = format!("record make b.area --banks 2 --image {GUID_0} --image {}", GUID_0.to_uppercase());
    assert_eq!(program.run(&twice).status, 2);
    assert!(!program.path("b.area").exists() && !program.path("out").exists());
    program.compare();
}

#[test]
fn capsules() {
    let mut program = Transcript::new("capsule");
    let sample = make_capsule(&sample_plan());
    program.write("sample.capsule", &sample);
    program.run("capsule list sample.capsule");
    program.run("capsule extract sample.capsule 2 image.bin");
    program.run("capsule extract sample.capsule 2 --vendor-code code.bin");
    program.run("capsule extract sample.capsule 0x0 driver.bin");
    program.run("capsule extract --vendor-code sample.capsule 0 -- none.bin");
    assert_eq!(program.read("image.bin"), b"new firmware for the controller");
    assert_eq!(program.read("code.bin"), b"the maker's own bytes");
    assert_eq!(
        (program.read("driver.bin"), program.read("none.bin")),
        (b"driver of the cutting table".to_vec(), vec![])
    );
    assert_eq!(program.run("capsule extract sample.capsule 3 more.bin").status, 1);
    assert!(!program.path("more.bin").exists());
    program.write("empty.capsule", &make_capsule(&CapsulePlan { drivers: vec![], payloads: vec![], ..sample_plan() }));
    assert_eq!(program.run("capsule list empty.capsule").status, 0);
    for (number, at, byte) in [(11, 16, 27), (12, 22, 4), (13, 0, 0), (14, 32, 2), (15, 95, 3)] {
        let mut faulty = sample.clone();
        faulty[at] = byte;
        program.write("faulty.capsule", &faulty);
        let run = program.run("capsule list faulty.capsule");
        assert!(run.status == 1 && run.err.starts_with(&format!("refusal {number}: ")), "{number}: {}", run.err);
    }
    program.write("long.capsule", &[&sample[..], &[0; 9]].concat());
    program.write("short.capsule", &sample[..27]);
    assert_eq!(program.run("capsule list long.capsule").status, 1);
    assert_eq!(program.run("capsule list /dev/zero").status, 1);
    assert_eq!(program.run("capsule list short.capsule").status, 1);
    assert_eq!(program.run("capsule extract short.capsule 0 more.bin").status, 1);
    for line in ["capsule list nowhere", "capsule list .", "capsule extract sample.capsule 0 nowhere/out"] {
        assert_eq!(program.run(line).status, 3);
    }
    program.compare();
}

/// The files that are packed here.
fn with_parts(name: &'static str) -> Transcript {
    let program = Transcript::new(name);
    program.write("table.efi", b"driver of the cutting table");
    program.write("controller.bin", b"new firmware for the controller");
    program.write("notes.bin", b"the maker's own bytes");
    program.write("empty.bin", b"");
    program
}

/// The files of the folder.
fn listed(program: &Transcript) -> Vec<OsString> {
    let files = fs::read_dir(&program.folder).expect("the folder").map(|file| file.expect("a file").file_name());
    let mut files: Vec<OsString> = files.collect();
    files.sort();
    files
}

const CONTROLLER: &str = "--payload 7e9a1c3f-d852-4b46-b0e5-6a11c4f97d28 --image controller.bin";

#[test]
fn capsules_packed() {
    let mut program = with_parts("pack");
    let code = "--vendor-code notes.bin --instance 0x7";
    program.run(&format!("capsule pack a.capsule --flags persist,reset --driver table.efi {CONTROLLER} {code}"));
    program.run("capsule list a.capsule");
    for (item, part, file) in [(0, "", "table.efi"), (1, "", "controller.bin"), (1, "--vendor-code", "notes.bin")] {
        assert_eq!(program.quiet(&format!("capsule extract a.capsule {item} {part} part.bin")).status, 0);
        assert_eq!(program.read("part.bin"), program.read(file));
    }
    let whole = program.read("a.capsule");
    let plan = CapsulePlan { header: 28, gap: 0, payloads: vec![], ..sample_plan() };
    let mut packed = payload(2, b"new firmware for the controller", b"the maker's own bytes");
    (packed.guid, packed.index, packed.instance) = (*b"\x3f\x1c\x9a\x7e\x52\xd8FK\xb0\xe5j\x11\xc4\xf9}(", 1, 7);
    packed.reserved = [0; 3];
    assert_eq!(whole, make_capsule(&CapsulePlan { payloads: vec![packed], ..plan }));
    // Everything that is told, in another order, over the file that is there; files named twice, and an empty image.
    let all = "--version 1 --index 0xff --vendor-code controller.bin --driver notes.bin";
    let more = format!("--payload {GUID_0} --image empty.bin --instance 18446744073709551615 --index 0 --version 2");
    let line =
        format!("--driver table.efi {CONTROLLER} {all} {more} --driver table.efi a.capsule --flags 7,populate,0x10000");
    program.run(&format!("capsule pack {line}"));
    program.run("capsule list a.capsule");
    program.run("capsule pack none.capsule");
    program.run("capsule list none.capsule");
    let most = format!("capsule pack most.capsule {}", "--driver notes.bin ".repeat(64));
    assert_eq!((program.quiet(&most).status, program.quiet("capsule list most.capsule").status), (0, 0));
    assert_eq!(program.read("most.capsule").len(), 36 + 64 * (8 + 21));
    program.compare();
}

/// With each refusal the file that is there stays, and nothing is left beside it.
#[test]
fn packing_refused() {
    let mut program = with_parts("pack_refused");
    fs::File::create(program.path("long.bin")).and_then(|file| file.set_len(1 << 26)).expect("a file of 64 MiB");
    program.write("out", b"as it was");
    let before = listed(&program);
    let old = "--version 1 --instance 1";
    let cases = [
        (50, format!("{} {CONTROLLER}", "--driver empty.bin ".repeat(64))),
        (52, format!("--driver table.efi --driver empty.bin {CONTROLLER} --version 0 --driver empty.bin")),
        (53, format!("--flags reset {CONTROLLER} {old} {CONTROLLER} --version 3 {CONTROLLER} --version 0x100")),
        (54, format!("--flags reset {CONTROLLER} {CONTROLLER} {old}")),
        (55, format!("--flags populate,reset --driver table.efi {CONTROLLER}")),
        (56, "--driver long.bin ".repeat(64)),
    ];
    for (number, line) in cases {
        let run = program.quiet(&format!("capsule pack out {line}"));
        assert!(run.status == 1 && run.err.starts_with(&format!("refusal {number}: ")), "{number}: {}", run.err);
        program.note(&format!("{}[{}]\n\n", run.err, run.status));
        assert_eq!((listed(&program), program.read("out")), (before.clone(), b"as it was".to_vec()));
        assert_eq!(program.quiet(&format!("capsule pack new {line}")).status, 1);
        assert_eq!(listed(&program), before);
    }
    program.compare();
}

/// Files that can't be read and places that can't be written, by their names. Nothing is left beside OUT.
#[test]
fn packing_files_at_fault() {
    let mut program = with_parts("pack_files");
    program.write("out", b"as it was");
    fs::create_dir(program.path("folder")).expect("a folder");
    std::os::unix::fs::symlink("out", program.path("link")).expect("a link");
    let before = listed(&program);
    for line in [
        "out --driver nowhere".to_string(),
        "out --driver table.efi --driver folder".to_string(),
        format!("out {CONTROLLER} --vendor-code nowhere"),
        format!("out --payload {GUID_0} --image nowhere --version 3"),
        "nowhere/out --driver table.efi".to_string(),
        "folder --driver table.efi".to_string(),
        "link --driver table.efi".to_string(),
        "/dev/null --driver table.efi".to_string(),
    ] {
        assert_eq!(program.run(&format!("capsule pack {line}")).status, 3);
        assert_eq!((listed(&program), program.read("out")), (before.clone(), b"as it was".to_vec()));
    }
    // No name is no file's, also behind a payload without a vendor code.
    let words = |words: &[&str]| words.iter().map(OsString::from).collect::<Vec<_>>();
    let payload = words(&["--payload", GUID_0, "--image", "empty.bin"]);
    let out = words(&["capsule", "pack", "out"]);
    assert_eq!(program.quietly(&words(&["capsule", "pack", ""])).status, 3);
    assert_eq!(program.quietly(&[&out[..], &payload, &payload, &words(&["--vendor-code", ""])].concat()).status, 3);
    assert_eq!((listed(&program), program.read("out")), (before.clone(), b"as it was".to_vec()));
    // A file may be packed into its own place.
    assert_eq!(program.run("capsule pack out --driver out").status, 0);
    assert_eq!((listed(&program), program.read("out").len()), (before, 36 + 8 + 9));
    program.compare();
}

#[test]
fn gathering() {
    let mut program = Transcript::new("gather");
    let mut window = vec![0x2E; 256];
    put_descriptor(&mut window, 0, 4, 0x1040);
    put_descriptor(&mut window, 16, 3, 0x1050);
    put_descriptor(&mut window, 32, 0, 0);
    window[0x40..0x44].copy_from_slice(b"mean");
    window[0x50..0x53].copy_from_slice(b"der");
    program.write("window.bin", &window);
    program.run("gather window.bin 0x1000 4096 gathered.bin");
    assert_eq!((program.read("gathered.bin"), program.read("window.bin")), (b"meander".to_vec(), window.clone()));
    program.run("gather window.bin 0x1000 0x1000");
    for (line, number) in
        [("0xffffffffffffff01 0xffffffffffffff01", 1), ("0x1000 0x1001", 3), ("0x1000 0x1020", 6), ("0x2000 0x2000", 4)]
    {
        let run = program.run(&format!("gather window.bin {line} other.bin"));
        assert!(run.status == 1 && run.err.starts_with(&format!("refusal {number}: ")), "{line}: {}", run.err);
    }
    assert!(!program.path("other.bin").exists());
    assert_eq!(program.run("gather nowhere 0 0").status, 3);
    program.compare();
}

#[test]
fn records_shown() {
    let mut program = Transcript::new("show");
    let area = trial_area();
    program.write("a.area", &area);
    program.run("record show a.area");
    program.run("record report a.area");
    program.write("erased.area", &[&area[..8_192], &[0xFF; 8_192]].concat());
    program.run("record update erased.area repair --dry-run");
    let mut other = area.clone();
    other[..280].copy_from_slice(&make_record(2, 3, 1, 0));
    program.write("differ.area", &other);
    program.run("record show differ.area");
    let mut broken = area.clone();
    broken[4] = 0;
    program.write("broken.area", &broken);
    program.run("record show broken.area");
    program.run("record report broken.area");
    broken[8_192 + 60] ^= 1;
    program.write("both.area", &broken);
    program.write("short.area", &area[1..]);
    program.write("long.area", &[area, vec![0; 9]].concat());
    for file in ["both.area", "short.area", "long.area"] {
        assert_eq!(program.run(&format!("record show {file}")).status, 1);
        assert_eq!(program.run(&format!("record report {file}")).status, 1);
    }
    assert_eq!(program.run("record show nowhere").status, 3);
    assert_eq!(program.run("record report .").status, 3);
    program.compare();
}

#[test]
fn records_made() {
    let mut program = Transcript::new("make");
    program.run(&format!("record make a.area --banks 2 --image {GUID_0}"));
    program.run("record show a.area");
    program.run(&format!("record make a.area --banks 2 --image {GUID_1}"));
    program.write("b.area.session", b"");
    assert_eq!(program.run(&format!("record make b.area --banks 2 --image {GUID_1}")).status, 3);
    assert_eq!(program.run(&format!("record make nowhere/b.area --banks 2 --image {GUID_1}")).status, 3);
    for (banks, images) in [(2, 1), (3, 5), (4, 32)] {
        let guids = (0..images).map(|image| format!(" --image a3a2a1a0-a5a4-a7a6-a8a9-aaabacadae{image:02x}"));
        let file = format!("{banks}.area");
        let line = format!("record make {file} --banks {banks}{}", guids.collect::<String>());
        let words: Vec<OsString> = line.split(' ').map(OsString::from).collect();
        assert_eq!(program.quietly(&words).status, 0, "{line}");
        let (made, wanted) = (record_read(&program.read(&file)).expect("sound").1, make_record(banks, images, 0, 1));
        assert!(both_sound_and_equal(&program.read(&file)) && made.len() == wanted.len());
        assert_eq!((&made[4..40], &made[40..56]), (&wanted[4..40], &wanted[40..56]));
        assert!(program.read(&file)[made.len()..8_192].iter().all(|&byte| byte == 0xFF));
        let words = [words, vec!["--image".into(), GUID_0.replace("a3", "00").into()]].concat();
        assert_eq!(program.quietly(&words).status, if images == 32 { 2 } else { 3 });
    }
    program.compare();
}

/// A line for each image, with all that such a file may have.
const WORDS: &str = "# what is installed\n\n0x3 0x100000 2 5 # write read\n\t4  65536\t0 4294967295\r\n\n";

#[test]
fn directories() {
    let mut program = Transcript::new("directory");
    let area = trial_area();
    program.write("a.area", &area);
    program.write("words.txt", WORDS.as_bytes());
    let mut wanted = [0; 104];
    for booted in [1, 0] {
        program.run(&format!("directory write a.area {booted} words.txt a.directory"));
        directory_write(&area, booted, &[3, 0x10_0000, 2, 5, 4, 65_536, 0, u32::MAX], &mut wanted).expect("written");
        assert_eq!(program.read("a.directory"), wanted);
        program.run("directory show a.directory");
    }
    program.write("all.txt", b"0 0 0 0\n7 0xffffffff 0xffffffff 0xffffffff\n9 0 0 0 # past the last image\n");
    program.run("directory write a.area 0 all.txt all.directory");
    program.run("directory show all.directory");
    assert_eq!(program.read("a.area"), area);
    program.compare();
}

#[test]
fn directories_refused() {
    let mut program = Transcript::new("directory_refused");
    let area = trial_area();
    let mut none = area.clone();
    (none[4], none[8_192 + 4]) = (0, 0);
    program.write("a.area", &area);
    program.write("none.area", &none);
    program.write("short.area", &area[1..]);
    program.write("words.txt", WORDS.as_bytes());
    program.write("few.txt", b"# image 1 is missing\n3 1 1 1\n");
    program.write("wrong.txt", b"3 1 1 1\n8 1 1 1\n");
    let refused = |run: Run, number: u32| assert!(run.err.starts_with(&format!("refusal {number}: ")), "{}", run.err);
    refused(program.run("directory write short.area 3 few.txt out"), 20);
    refused(program.run("directory write none.area 3 few.txt out"), 21);
    refused(program.run("directory write a.area 3 few.txt out"), 28);
    refused(program.run("directory write a.area 1 few.txt out"), 40);
    refused(program.run("directory write a.area 1 wrong.txt out"), 41);
    assert!(!program.path("out").exists());
    program.run("directory write a.area 1 words.txt a.directory");
    let directory = program.read("a.directory");
    for (number, at, byte, length) in [(43, 0, 2, 23), (44, 0, 1, 104), (45, 0, 2, 103), (46, 40, 8, 104)] {
        let mut faulty = directory.clone();
        faulty[at] = byte;
        program.write("faulty.directory", &faulty[..length]);
        refused(program.run("directory show faulty.directory"), number);
    }
    program.write("long.directory", &[&directory[..], &[0; 9_000]].concat());
    refused(program.run("directory show long.directory"), 45);
    refused(program.run("directory show /dev/zero"), 44);
    refused(program.run("directory show /dev/null"), 43);
    // With a refusal what is there stays.
    refused(program.run("directory write a.area 1 wrong.txt a.directory"), 41);
    assert_eq!(program.read("a.directory"), directory);
    program.compare();
}

/// Words that are none, with the line that is at fault, and places that cannot be written. Nothing is left beside OUT.
#[test]
fn directory_files_at_fault() {
    let mut program = Transcript::new("directory_files");
    program.write("a.area", &trial_area());
    program.write("words.txt", WORDS.as_bytes());
    program.write("out", b"as it was");
    fs::create_dir(program.path("folder")).expect("a folder");
    std::os::unix::fs::symlink("out", program.path("link")).expect("a link");
    let faults: [&[u8]; 9] = [
        b"1 2 3\n",
        b"# image 0\n1 2 3 4\n\n1 2 3 4 5\n",
        b"1 2 3 4\n1 2 3 many",
        b"1 2 3 4294967296\n",
        b"1 2 3 0x\n",
        b"-1 2 3 4\n",
        b"1, 2, 3, 4\n",
        b"1 2 3 4\n\n\xff\n",
        &[b' '; 65_537],
    ];
    for fault in faults {
        program.write("faulty.txt", fault);
        assert_eq!(program.run("directory write a.area 1 faulty.txt out").status, 3);
    }
    let before = listed(&program);
    let places = ["nowhere/out", "folder", "link", "/dev/null", ""];
    let words = |place: &str| ["directory", "write", "a.area", "1", "words.txt", place].map(OsString::from);
    for place in places {
        assert_eq!(program.quietly(&words(place)).status, 3, "{place:?}");
    }
    assert_eq!((listed(&program), program.read("out")), (before.clone(), b"as it was".to_vec()));
    assert_eq!(program.quietly(&words("out")).status, 0);
    assert_eq!((listed(&program), program.read("out").len()), (before, 104));
    for line in ["write nowhere 1 words.txt out", "write a.area 1 nowhere out", "show nowhere", "show folder"] {
        assert_eq!(program.run(&format!("directory {line}")).status, 3);
    }
    for place in &places[..4] {
        program.run(&format!("directory write a.area 1 words.txt {place}"));
    }
    program.compare();
}

#[test]
fn a_whole_update() {
    let mut program = Transcript::new("update");
    let before = sample_area(2, 2);
    program.write("a.area", &before);
    let refused = |run: Run, number: u32| assert!(run.err.starts_with(&format!("refusal {number}: ")), "{}", run.err);
    assert_eq!(program.run("record update a.area begin").status, 3);
    refused(program.run("record update a.area start-up 2"), 28);
    program.run("record update a.area start-up 0");
    refused(program.run("record update a.area end"), 25);
    program.run("record update a.area begin --dry-run");
    assert_eq!(program.read("a.area"), before);
    program.run("record update a.area begin");
    refused(program.run("record update a.area end"), 27);
    refused(program.run("record update a.area commit 6dcbd5ed-e82d-4c44-bda1-7194199ad92a accepted"), 26);
    program.run(&format!("record update a.area commit {GUID_0} accepted"));
    program.run("record update a.area cancel");
    program.run("record update a.area begin");
    program.run(&format!("record update a.area commit {GUID_0} accepted"));
    program.run(&format!("record update a.area commit {} unaccepted", GUID_1.to_uppercase()));
    let session = program.read("a.area.session");
    program.note(&format!("$ cat a.area.session\n{}\n", String::from_utf8_lossy(&session)));
    program.run("record update a.area end");
    refused(program.run("record update a.area begin"), 25);
    program.run("record update a.area start-up 1");
    let trial = program.read("a.area");
    program.run(&format!("record update a.area accept {GUID_1}"));
    program.run("record show a.area");
    program.write("a.area.session", &session);
    refused(program.run("record update a.area begin"), 24);
    program.write("a.area", &trial);
    program.run("record update a.area start-up 0");
    program.run("record update a.area select-previous");
    program.run("record update a.area start-up 0");
    assert_eq!(program.run("record update a.area repair").out.lines().last(), Some("next session        Regular"));
    program.compare();
}

/// End on a small record, cut at every store: what stands in the file is the list's beginning and nothing else, start-
/// up reads the old record or the new, and a repair, cut at every store of its own, leaves that one in both copies.
#[test]
fn every_cut_of_end() {
    let mut program = Transcript::new("cuts");
    program.write("a.area", &sample_area(2, 1));
    for line in ["start-up 0", "begin", &format!("commit {GUID_0} accepted")] {
        program.run(&format!("record update a.area {line}"));
    }
    let (area, session) = (program.read("a.area"), program.read("a.area.session"));
    let stores = stores_of(&program.run("record update a.area end --dry-run").out);
    let (old, new) = (record_read(&area), record_read(&apply(&area, &stores)));
    assert!(old != new && stores.len() > 4);
    for n in 0..=stores.len() {
        program.write("a.area", &area);
        program.write("a.area.session", &session);
        let run = program.quiet(&format!("record update a.area end --stores {n}"));
        let left = program.read("a.area");
        assert!(run.status == 4 && left == apply(&area, &stores[..n]) && stores_of(&run.out) == stores[..n]);
        assert!(!program.path("a.area.session").exists(), "{n}: a session after a cut");
        let record = record_read(&left).expect("a sound copy").1;
        let which = value(&run.out, "record read");
        let wanted = if which == "the old one" { &old } else { &new };
        assert!(["the old one", "the new one"].contains(&which) && record == wanted.as_ref().expect("sound").1, "{n}");
        let repairs = every_cut_of_repair(&program, &left, &record);
        let [zero, one] = ["copy 0", "copy 1"].map(|copy| value(&run.out, copy));
        program.note(&format!(
            "end cut after {n:>2} stores: copy 0 {zero:<9}, copy 1 {one:<9}, {which} is read; repair {repairs}\n"
        ));
    }
    program.note("\n");
    program.write("a.area", &area);
    program.write("a.area.session", &session);
    assert_eq!(program.run("record update a.area end --stores 5").status, 4);
    for line in ["begin", "start-up 0", "begin", "repair", "begin --stores 0", "start-up 0", "begin"] {
        program.run(&format!("record update a.area {line}"));
    }
    program.run(&format!("record update a.area commit {GUID_0} accepted"));
    assert_eq!(program.run(&format!("record update a.area end --stores {}", stores.len() + 1)).status, 0);
    program.run("record update a.area start-up 1");
    program.compare();
}

/// Starts up and repairs from what a cut left, the repair cut at each of its own stores too. Answers how many it has.
fn every_cut_of_repair(program: &Transcript, left: &[u8], record: &[u8]) -> usize {
    let active = record[8];
    let stores = stores_of(&program.quiet("record update a.area repair --dry-run").out);
    for n in 0..=stores.len() + 1 {
        program.write("a.area", left);
        let started = program.quiet(&format!("record update a.area start-up {active}"));
        assert_eq!((started.status, value(&started.out, "next session")), (0, "Regular"));
        let run = program.quiet(&format!("record update a.area repair --stores {n}"));
        assert_eq!(
            (run.status, program.path("a.area.session").exists()),
            if n <= stores.len() { (4, false) } else { (0, true) }
        );
        assert_eq!(record_read(&program.read("a.area")).expect("a sound copy").1, record, "repair cut after {n}");
        assert_eq!(program.quiet("record update a.area repair").status, 0);
        let area = program.read("a.area");
        assert!(both_sound_and_equal(&area) && record_read(&area).expect("sound").1 == record);
    }
    stores.len()
}

/// A run that is killed in the middle of its stores loses its session, as by a power cut, and the record read stays. The
/// run is a repair of an erased copy, which has a long list.
#[test]
fn killed_for_real() {
    let program = Transcript::new("killed");
    let area = [&sample_area(4, 32)[..8_192], &[0xFF; 8_192]].concat();
    program.write("a.area", &area);
    assert_eq!(program.quiet("record update a.area start-up 0").status, 0);
    let session = program.read("a.area.session");
    let stores = stores_of(&program.quiet("record update a.area repair --dry-run").out);
    let (after, mut cut) = (apply(&area, &stores), 0);
    assert!(stores.len() > 1_000 && both_sound_and_equal(&after));
    for wait in (0..200).map(|wait| Duration::from_micros(100 * (wait % 40))) {
        program.write("a.area", &area);
        program.write("a.area.session", &session);
        let mut run = Command::new(env!("CARGO_BIN_EXE_meanderpeg"));
        run.args(["record", "update", "a.area", "repair"]).current_dir(&program.folder).stdout(Stdio::null());
        let mut run = run.spawn().expect("a run");
        while program.path("a.area.session").exists() && run.try_wait().expect("its status").is_none() {
            std::hint::spin_loop();
        }
        std::thread::sleep(wait);
        run.kill().expect("a kill");
        run.wait().expect("its end");
        let left = program.read("a.area");
        assert!(record_read(&left) == record_read(&area), "another record is read");
        if left != area && left != after {
            assert!(!program.path("a.area.session").exists(), "a session after a kill");
            cut += 1;
        }
        if cut == 5 {
            break;
        }
    }
    assert!(cut > 0, "no run was killed between two of its stores");
}

/// Sessions written by hand, and files that are no session.
#[test]
fn session_files() {
    let mut program = Transcript::new("session");
    program.write("a.area", &sample_area(2, 1));
    for text in [
        "",
        "state Staging\n",
        "state Staging\nbank 1\nset 0x100000000\n",
        "state Staging\nbank +1\nset 0\n",
        "state Regular\nbank 1\n",
        "state regular\n",
        "state\n",
        "\u{e9}",
    ] {
        program.write("a.area.session", text.as_bytes());
        assert_eq!(program.quiet("record update a.area begin").status, 3, "{text}");
        assert_eq!(program.quiet("record update a.area repair").status, 3, "{text}");
    }
    program.run("record update a.area begin");
    program.write("a.area.session", b"\xff");
    program.run("record update a.area repair");
    program.write("a.area.session", b"# by hand\nstate Staging\n# another\nbank 0\nset 0x1\n");
    program.run("record update a.area end");
    program.write("a.area.session", b"state Restart");
    program.run("record update a.area cancel");
    fs::remove_file(program.path("a.area.session")).expect("the file goes");
    fs::create_dir(program.path("a.area.session")).expect("a folder");
    program.run("record update a.area start-up 0");
    program.run("record update a.area begin");
    program.compare();
}

/// Lines for a file that may hold anything.
const ON_ANY_FILE: [&str; 18] = [
    "capsule list f",
    "capsule extract f 1 out",
    "capsule pack out --driver f",
    "capsule pack out --payload a3a2a1a0-a5a4-a7a6-a8a9-aaabacadae00 --image f --vendor-code f",
    "capsule pack f --driver words --driver f",
    "gather f 0 0",
    "gather f 0xfffffffffffffff8 0xfffffffffffffff8 out",
    "record show f",
    "record report f",
    "record update f start-up 1",
    "record update f repair",
    "record update f begin --dry-run",
    "record update f end --stores 3",
    "record update f select-previous",
    "record update f accept a3a2a1a0-a5a4-a7a6-a8a9-aaabacadae00 --stores 0",
    "directory show f",
    "directory write f 1 words out",
    "directory write f 0 f out",
];

/// Whatever a file holds and whatever the words are, the program ends with one of its statuses and does not panic,
/// which `quietly` asks of every run.
#[test]
fn odd_inputs() {
    let program = Transcript::new("odd");
    let mut directory = vec![0; 64];
    directory_write(&sample_area(2, 1), 0, &[7, 1, 2, 3], &mut directory).expect("written");
    program.write("words", &b"7 1 2 3\n".repeat(32));
    let [small, large] = [sample_area(2, 1), sample_area(4, 32)];
    let samples = [make_capsule(&sample_plan()), small, large, directory, vec![0; 300], vec![]];
    for k in 0..600 {
        let mut draw = Draw::start(31, 5, k);
        let mut bytes = samples[draw.below(samples.len() as u64) as usize].clone();
        for _ in 0..draw.below(4) {
            let (at, byte) = (draw.below(300) as usize, draw.below(256) as u8);
            bytes.iter_mut().skip(at).step_by(8_192).for_each(|to| *to = byte);
        }
        bytes.truncate(if draw.below(4) == 0 { draw.below(17_000) as usize } else { usize::MAX });
        program.write("f", &bytes);
        let state = ["state Regular", "state Trial", "state Staging\nbank 1\nset 1", "x"][draw.below(4) as usize];
        program.write("f.session", state.as_bytes());
        program.quiet(ON_ANY_FILE[draw.below(ON_ANY_FILE.len() as u64) as usize]);
    }
    let odd = OsString::from_vec(vec![0xFF, 0x2D]);
    let dashed = OsString::from_vec(vec![0x2D, 0x2D, 0xFF]);
    for word in [odd, dashed, OsString::from("")] {
        for before in [
            "",
            "record",
            "record show",
            "capsule extract f",
            "record update f",
            "record update f begin --stores",
            "capsule pack x --flags",
            "capsule pack x --driver",
        ] {
            let mut words: Vec<OsString> = before.split(' ').map(OsString::from).collect();
            words.push(word.clone());
            assert!(program.quietly(&words).status >= 1);
        }
    }
}

/// The repository's demonstration (crates/demonstration), repeated by hand on its own data: what the command prints
/// agrees with what the demonstration prints.
#[test]
fn the_demonstration_by_hand() {
    let mut program = Transcript::new("demonstration");
    let top = Path::new(env!("CARGO_MANIFEST_DIR")).join("../crates/demonstration");
    let input = fs::read(top.join("stdin")).expect("the demonstration's input");
    let printed = fs::read_to_string(top.join("stdout")).expect("the demonstration's output");
    program.write("window.bin", &input[..512]);
    program.write("a.area", &input[512..]);
    let gathered = program.run("gather window.bin 0x1000 0x1000 sample.capsule").out;
    let line = format!("gather: placed at {}, total {}\n", value(&gathered, "place"), value(&gathered, "total"));
    assert!(printed.starts_with(&line), "{line}");
    program.run("capsule list sample.capsule");
    program.run("capsule extract sample.capsule 1 image.bin");
    assert!(printed.contains(&format!("image {:?}", String::from_utf8_lossy(&program.read("image.bin")))));
    let commit = "commit 7e9a1c3f-d852-4b46-b0e5-6a11c4f97d28 accepted";
    let mut reports = program.run("record report a.area").out;
    for line in ["start-up 0", "begin", commit, "end --stores 5", "start-up 0"] {
        program.run(&format!("record update a.area {line}"));
    }
    reports += &program.run("record report a.area").out;
    for line in ["repair", "start-up 0"] {
        program.run(&format!("record update a.area {line}"));
    }
    reports += &program.run("record report a.area").out;
    for line in ["begin", commit, "end", "start-up 1"] {
        program.run(&format!("record update a.area {line}"));
    }
    reports += &program.run("record report a.area").out;
    let wanted: String = printed.lines().filter(|line| line.contains('\t')).map(|line| format!("{line}\n")).collect();
    assert_eq!(reports, wanted);
    program.compare();
}

/// The commands of a block: the lines behind `$ `, each with those that it goes on with behind a backslash.
fn commands_of(block: &str) -> Vec<String> {
    let mut commands: Vec<String> = vec![];
    for line in block.lines() {
        match commands.last_mut() {
            Some(command) if command.ends_with('\\') => *command += &format!("\n{line}"),
            _ => commands.extend(line.strip_prefix("$ ").map(String::from)),
        }
    }
    commands
}

/// What the README shows of the command is what the command prints: each line behind `$ ` is run by the shell in a
/// folder that has the demonstration's data, and what it says is compared with the lines that follow.
#[test]
fn the_readme() {
    let program = Transcript::new("readme");
    let top = Path::new(env!("CARGO_MANIFEST_DIR")).join("..");
    let readme = fs::read_to_string(top.join("README.md")).expect("README.md");
    fs::create_dir_all(program.path("crates/demonstration")).expect("a folder");
    fs::copy(top.join("crates/demonstration/stdin"), program.path("crates/demonstration/stdin")).expect("the data");
    let folder = Path::new(env!("CARGO_BIN_EXE_meanderpeg")).parent().expect("its folder");
    let path = format!("{}:{}", folder.display(), std::env::var("PATH").expect("PATH"));
    let mut shown = 0;
    for block in readme.split("```").skip(1).step_by(2).filter(|block| block.contains("$ meanderpeg")) {
        let (_, block) = block.split_once('\n').expect("lines");
        let mut said = String::new();
        for line in commands_of(block) {
            let mut shell = Command::new("sh");
            shell.args(["-c", &format!("exec 2>&1; {line}")]).current_dir(&program.folder).env("PATH", &path);
            let output = shell.output().expect("a shell").stdout;
            said += &format!("$ {line}\n{}", String::from_utf8_lossy(&output));
        }
        assert_eq!(said, block);
        shown += 1;
    }
    assert_eq!(shown > 0, readme.contains("$ meanderpeg"), "its commands stand in fenced blocks");
}

/// A fault of standard output is told by the status, and is no panic.
#[test]
fn nowhere_to_print() {
    let Ok(full) = fs::OpenOptions::new().write(true).open("/dev/full") else { return };
    let output = Command::new(env!("CARGO_BIN_EXE_meanderpeg")).arg("--help").stdout(full).output().expect("a run");
    assert_eq!(output.status.code(), Some(3));
    assert!(String::from_utf8_lossy(&output.stderr).starts_with("meanderpeg: standard output: "));
}
