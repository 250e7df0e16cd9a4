//! The program `capture`: the line it prints, for lists of every kind, for
//! files of many pieces, and for the page docs/CAPTURE.md.

use beside::capture::{anywhere, listed, Case, CODES};
use beside::random::{seeds, Random};
use beside::{difference, runner};
use kounpheray::{csr, Tcd};
use model::capture::{self, Access, Flaw, Verdict};
use std::ffi::OsStr;
use std::fs::{self, File};
use std::io::{BufWriter, Seek, SeekFrom, Write};
use std::path::{Path, PathBuf};
use std::process::Command;
use std::{env, iter};

const PAGE: &str = include_str!("../../../docs/CAPTURE.md");

/// Document 01's 'Run only'.
const RUN_ONLY: &str = "8000000002020004000000040000000080000004000100040000000000010001";
const RUN_ONLY_LIST: &str = "4a520404800000000000000011223344\n4a520504800000040000000011223344\n";

/// The length of a record.
const RECORD: usize = 16;

/// Where the program is.
fn programs() -> PathBuf {
    match env::var_os("KOUNPHERAY_PROGRAMS") {
        Some(named) => PathBuf::from(named),
        None => Path::new(env!("CARGO_MANIFEST_DIR")).join("../../target/bin"),
    }
}

/// The command that runs it: through an emulator where there is one and the
/// program is for x86-64.
fn program() -> Command {
    let path = programs().join("capture");
    let bytes = fs::read(&path).unwrap_or_else(|why| {
        panic!("{}: {why}; make it with `./build capture`", path.display());
    });
    let for_x86_64 = bytes.get(18..20) == Some(&[0x3E, 0]);
    match runner().filter(|_| for_x86_64) {
        None => Command::new(&path),
        Some((runner, words)) => {
            let mut command = Command::new(runner);
            command.args(words).arg(&path);
            command
        }
    }
}

/// The one line that the program prints.
fn said<T: AsRef<OsStr>>(words: &[T]) -> String {
    let made = program().args(words).output().expect("the program can be started");
    let text = String::from_utf8(made.stdout).expect("it prints text");
    let wrong = String::from_utf8_lossy(&made.stderr);
    assert!(made.status.code().is_some(), "it was stopped: {text}{wrong}");
    let lines: Vec<&str> = text.lines().collect();
    assert!(lines.len() == 1 && text.ends_with('\n'), "not one line: {text}{wrong}");
    lines[0].to_string()
}

/// A file of records, removed when it is not needed any more.
struct Captured(PathBuf);

impl Captured {
    fn new(name: &str) -> Captured {
        Captured(Path::new(env!("CARGO_TARGET_TMPDIR")).join(name))
    }

    fn put(&self, records: &[u8]) {
        fs::write(&self.0, records).expect("the file can be written");
    }

    fn judged(&self, case: &Case) -> String {
        // Digits of either case will do.
        let mut descriptor = difference::hex(&case.tcd.to_bytes());
        descriptor[..32].make_ascii_uppercase();
        said(&[descriptor.as_ref(), format!("{:x}", case.cr).as_ref(), self.0.as_os_str()])
    }

    /// Holds what the program says of these records to what it has to say.
    fn check(&self, case: &Case, records: &[u8]) -> String {
        self.put(records);
        let line = self.judged(case);
        assert_eq!(line, expected(case, records), "{case:x?}, {} bytes", records.len());
        line
    }
}

impl Drop for Captured {
    fn drop(&mut self) {
        // What is left behind is a file in cargo's own folder.
        let _ = fs::remove_file(&self.0);
    }
}

fn words(flaw: Flaw) -> &'static str {
    match flaw {
        Flaw::Mark => "the mark is not 4a 52",
        Flaw::Kind => "the kind is neither 4 (a read) nor 5 (a write)",
        Flaw::Width => "the width is not 1, 2 or 4",
        Flaw::Value => "the value is wider than the width",
        Flaw::Cut => "cut short, a record has 16 bytes",
    }
}

/// An access in words; of a read that the rules ask for, no value is told.
fn told(access: Option<&Access>, asked: bool) -> String {
    let Some(Access { write, address, width, value }) = access else {
        return "no more accesses".to_string();
    };
    let kind = if *write { "write" } else { "read" };
    let bytes = if *width == 1 { "1 byte".to_string() } else { format!("{width} bytes") };
    let digits = 2 * usize::from(*width);
    if asked && !write {
        format!("a {kind} of {bytes} at {address:08x}")
    } else {
        format!("a {kind} of {bytes}, {value:0digits$x} at {address:08x}")
    }
}

/// The line for these records, by the model.
fn expected(case: &Case, records: &[u8]) -> String {
    let list = match capture::read(records) {
        Err((n, flaw)) => return format!("refused (22) at record {n}: {}", words(flaw)),
        Ok(list) => list,
    };
    match case.verdict(&list) {
        Verdict::Allowed if list.len() == 1 => "allowed: 1 access".to_string(),
        Verdict::Allowed => format!("allowed: {} accesses", list.len()),
        Verdict::Departs { at, asked } => format!(
            "departs at access {at}: the rules ask for {}; the list has {}",
            told(asked.as_ref(), true),
            told(list.get(at), false),
        ),
    }
}

/// 'Run only' beside a list, with the least and the most digits for CR.
fn says(file: &Captured, list: &[u8], line: &str) {
    file.put(list);
    let name = file.0.to_str().expect("a name in letters");
    for cr in ["0", "00000000"] {
        assert_eq!(said(&[RUN_ONLY, cr, name]), line);
    }
}

/// Each form of a verdict, word for word.
#[test]
fn the_lines_of_a_verdict() {
    let file = Captured::new("verdict.capture");
    let list = listed(RUN_ONLY_LIST);
    says(&file, &list, "allowed: 2 accesses");
    let mut wrong = list.clone();
    wrong[2 * RECORD - 1] = 0x45;
    let mut kind = list.clone();
    kind[2] = 5;
    let longer = [&list[..], &list[..RECORD]].concat();
    for (tried, at, asked, has) in [
        (&list[..RECORD], 1, "a write of 4 bytes, 11223344 at 80000004", "no more accesses"),
        (&[], 0, "a read of 4 bytes at 80000000", "no more accesses"),
        (&longer, 2, "no more accesses", "a read of 4 bytes, 11223344 at 80000000"),
        (&kind, 0, "a read of 4 bytes at 80000000", "a write of 4 bytes, 11223344 at 80000000"),
        (
            &wrong,
            1,
            "a write of 4 bytes, 11223344 at 80000004",
            "a write of 4 bytes, 11223345 at 80000004",
        ),
    ] {
        let line = format!("departs at access {at}: the rules ask for {asked}; the list has {has}");
        says(&file, tried, &line);
    }
}

/// Each reason of a refusal, behind a departure, word for word.
#[test]
fn the_lines_of_a_refusal() {
    let file = Captured::new("refusal.capture");
    let mut list = listed(RUN_ONLY_LIST);
    list[2 * RECORD - 1] = 0x45;
    list.extend([0x4A, 0x52, 4, 1, 0, 0, 0, 0, 0, 0, 0, 0, 0, 0, 1]);
    says(&file, &list, "refused (22) at record 2: cut short, a record has 16 bytes");
    list.push(0);
    // Each is told before the ones that are there already.
    for (byte, wrong, line) in [
        (15, 0, "the value is wider than the width"),
        (3, 3, "the width is not 1, 2 or 4"),
        (2, 3, "the kind is neither 4 (a read) nor 5 (a write)"),
        (0, 0, "the mark is not 4a 52"),
    ] {
        list[2 * RECORD + byte] = wrong;
        says(&file, &list, &format!("refused (22) at record 2: {line}"));
    }
}

#[test]
fn what_is_unusable() {
    let file = Captured::new("unusable.capture");
    let name = file.0.to_str().expect("a name in letters");
    file.put(&listed(RUN_ONLY_LIST));
    let three = "unusable: three arguments are needed: descriptor, CR, file";
    for words in [&[][..], &[RUN_ONLY], &[RUN_ONLY, "0"]] {
        assert_eq!(said(words), three);
    }
    let longer = format!("{RUN_ONLY}0");
    let hex = "unusable: the descriptor is not 64 hex digits";
    let with_g = RUN_ONLY.replace('2', "g");
    let with_sign = RUN_ONLY.replacen('8', "-", 1);
    for descriptor in ["", "80", &RUN_ONLY[1..], &longer, &with_g, &with_sign] {
        assert_eq!(said(&[descriptor, "0", name]), hex, "{descriptor}");
    }
    for cr in ["", "000000000", "123456789", "g", "0x80", "-1", " 1"] {
        let line = "unusable: CR is not 1 to 8 hex digits";
        assert_eq!(said(&[RUN_ONLY, cr, name]), line, "{cr}");
    }
    for cr in ["0", "80", "0080", "ffffffff", "FFFFFF7F", "aBcDeF"] {
        assert_eq!(said(&[RUN_ONLY, cr, name]), "allowed: 2 accesses", "{cr}");
    }
    let missing = format!("{name}.not");
    assert_eq!(said(&[RUN_ONLY, "0", &missing]), "unusable: the file cannot be opened");
    let folder = env!("CARGO_TARGET_TMPDIR");
    assert_eq!(said(&[RUN_ONLY, "0", folder]), "unusable: the file cannot be read");
}

/// Short lists of every pair of size codes, as they are and with one byte of one
/// record changed.
#[test]
fn short_lists() {
    let file = Captured::new("short.capture");
    let mut first_words = std::collections::BTreeMap::new();
    for seed in seeds() {
        let mut random = Random::new(17_000 + seed);
        for codes in 0..CODES {
            let case = Case::random(&mut random, codes, 70, anywhere);
            let mut records = capture::records(&case.list(&mut random));
            let mut check = |records: &[u8]| {
                let line = file.check(&case, records);
                let first = line.split(' ').next().unwrap_or_default().to_string();
                *first_words.entry(first).or_insert(0) += 1;
            };
            check(&records);
            if !records.is_empty() {
                let at = random.below(records.len() as u64) as usize;
                records[at] = random.pick(&[0, 1, 2, 4, 5, records[at] ^ 1, records[at] ^ 0x80]);
                let cut = random.pick(&[0, 0, 1, 15, 16]);
                check(&records[..records.len() - cut]);
            }
        }
    }
    println!("short lists, by the first word: {first_words:?}");
    assert_eq!(first_words.len(), 3);
}

/// A minor loop of more accesses than so many, that steps through memory.
fn long_case(from: u16, to: u16, accesses: u32) -> Case {
    let size = |code: u16| [1, 2, 4, 1, 16, 32, 1, 1][usize::from(code)];
    let unit = |code: u16| size(code).min(4) as u32;
    // So many quarters of an access for each byte.
    let nbytes = 4 * accesses / (4 / unit(from) + 4 / unit(to)) + 3;
    let tcd = Tcd {
        saddr: 0xFFFF_FFF1,
        attr: 13 << 11 | from << 8 | to,
        soff: size(from),
        nbytes,
        daddr: 0x4000_0003,
        citer: 0x8201,
        doff: -size(to),
        dlast: 0xFFFF_FFF0,
        csr: csr::ESG,
        ..Tcd::default()
    };
    Case { tcd, cr: 0 }
}

/// Near the ends of pieces, of the list and of its phases.
fn places(list: &[Access]) -> Vec<usize> {
    let first_write = list.iter().position(|access| access.write).unwrap_or_default();
    let last_write = list.iter().rposition(|access| access.write).unwrap_or_default();
    let pieces = [1000, 4001].into_iter().flat_map(|piece| (1..).map(move |n| n * piece).take(12));
    let mut places: Vec<usize> = pieces
        .chain([first_write, last_write, list.len() - 1])
        .flat_map(|at| [at - 1, at, at + 1])
        .filter(|at| *at < list.len())
        .collect();
    places.sort();
    places.dedup();
    places
}

/// The records with something wrong at an access: with it changed, changed and
/// with a flaw or an end behind it, and with a flaw there.
fn wrong_at(random: &mut Random, list: &[Access], sound: &[u8], at: usize) -> [Vec<u8>; 3] {
    let mut changed = sound.to_vec();
    // The value of a write; of a read, now the address and now the value, which
    // is missed where it is written, if it is.
    let byte = if list[at].write || random.once_in(2) { 15 } else { 7 };
    changed[RECORD * at + byte] ^= 1;
    let mut and_behind = changed.clone();
    let behind = at + random.below((list.len() - at) as u64) as usize;
    let byte = RECORD * behind + random.below(3) as usize;
    match random.below(4) {
        0 => and_behind[byte] ^= 0x10,
        1 => and_behind.truncate(byte + 1),
        2 => and_behind.truncate(RECORD * at),
        _ => and_behind.truncate(RECORD * behind),
    }
    let mut flawed = sound.to_vec();
    flawed[RECORD * at + random.pick(&[0, 1, 2, 3, 8, 11])] ^= 0x80;
    [changed, and_behind, flawed]
}

/// Lists of more than three of the pieces that the program reads, of every
/// pair of sizes: allowed, and with something wrong.
#[test]
fn long_lists() {
    let file = Captured::new("long.capture");
    let mut random = Random::new(18_000);
    let mut runs = 0;
    let sizes = [0, 1, 2, 4, 5];
    // An emulator takes many times as long.
    let each = if runner().is_some() { 10 } else { 1 };
    for (from, to) in sizes.into_iter().flat_map(|from| sizes.map(|to| (from, to))) {
        let case = long_case(from, to, 12_200);
        let list = case.list(&mut random);
        assert!(list.len() > 12_100, "{}", list.len());
        let sound = capture::records(&list);
        let line = file.check(&case, &sound);
        assert_eq!(line, format!("allowed: {} accesses", list.len()));
        for at in places(&list).into_iter().step_by(each) {
            let [changed, and_behind, flawed] = wrong_at(&mut random, &list, &sound, at);
            let line = file.check(&case, &changed);
            if list[at].write {
                assert!(line.starts_with(&format!("departs at access {at}: ")), "{line}");
            }
            file.check(&case, &and_behind);
            let line = file.check(&case, &flawed);
            assert!(line.starts_with(&format!("refused (22) at record {at}: ")), "{line}");
            runs += 3;
        }
    }
    println!("long lists of 25 pairs of sizes: {runs} with something wrong");
}

/// The processor time of the programs that were waited for so far, in seconds.
/// An emulator tells none.
fn children_used() -> f64 {
    let stat = fs::read_to_string("/proc/self/stat").expect("Linux tells it");
    // The name, in parentheses, may hold blanks; user and system time of the
    // children are the 14th and 15th number behind it, in hundredths.
    let behind = stat.rsplit(')').next().unwrap_or_default();
    let numbers = behind.split_whitespace().skip(13).take(2);
    numbers.filter_map(|number| number.parse::<f64>().ok()).sum::<f64>() / 100.0
}

/// The number of accesses of the longest list there is: 2^22 bytes one by one,
/// and 32 fetches.
const LONGEST: u64 = (1 << 23) + 32;

/// Its descriptor.
const LONG: Tcd = Tcd {
    saddr: 0xFFF0_0000,
    attr: 0,
    soff: 1,
    nbytes: 0,
    slast: 0,
    daddr: 0x1000_0000,
    citer: 1,
    doff: 1,
    dlast: 0x2000_0000,
    biter: 1,
    csr: csr::ESG,
};

/// What byte n is.
fn moved(n: u32) -> u32 {
    n.wrapping_mul(0x9E37_79B9) >> 24
}

/// Writes the list, and answers the file.
fn write_longest(path: &Path) -> File {
    let one = |write, first: u32, n| Access {
        write,
        address: first.wrapping_add(n),
        width: 1,
        value: moved(n),
    };
    let moves = (0..1 << 22).flat_map(|n| [one(false, LONG.saddr, n), one(true, LONG.daddr, n)]);
    let fetches = (0..32).map(|n| one(false, LONG.dlast, n));
    let mut to = BufWriter::new(File::create(path).expect("the file can be made"));
    for access in moves.chain(fetches) {
        to.write_all(&capture::records(&[access])).expect("there is room");
    }
    to.into_inner().expect("there is room")
}

#[test]
fn the_longest_list() {
    let case = Case { tcd: LONG, cr: 0 };
    let captured = Captured::new("longest.capture");
    let mut file = write_longest(&captured.0);
    let mut put = |at: SeekFrom, bytes: &[u8]| {
        file.seek(at).and_then(|_| file.write_all(bytes)).expect("there is room");
    };

    let before = children_used();
    assert_eq!(captured.judged(&case), format!("allowed: {LONGEST} accesses"));
    println!("{LONGEST} accesses judged in {:.2} s of processor time", children_used() - before);

    // The last byte written is another one.
    let (at, value) = (LONGEST - 33, moved((1 << 22) - 1));
    let place = SeekFrom::Start(16 * at + 15);
    put(place, &[value as u8 ^ 1]);
    let write = |value| format!("a write of 1 byte, {value:02x} at 103fffff");
    let (asked, has) = (write(value), write(value ^ 1));
    let line = format!("departs at access {at}: the rules ask for {asked}; the list has {has}");
    assert_eq!(captured.judged(&case), line);

    // An access too many.
    put(place, &[value as u8]);
    put(SeekFrom::End(0), &listed(RUN_ONLY_LIST)[..RECORD]);
    let line = format!(
        "departs at access {LONGEST}: the rules ask for no more accesses; \
         the list has a read of 4 bytes, 11223344 at 80000000"
    );
    assert_eq!(captured.judged(&case), line);
}

/// The fenced blocks of the page: what they are called, and their text.
fn blocks() -> Vec<(&'static str, &'static str)> {
    let mut parts = PAGE.split("\n```");
    // Text and blocks in turn.
    iter::from_fn(|| {
        parts.next()?;
        parts.next()
    })
    .filter_map(|block| block.split_once('\n'))
    .collect()
}

/// The listings of the page and the lines that it says of them.
#[test]
fn the_page() {
    let mut records = Vec::new();
    let mut commands = 0;
    for (name, block) in blocks() {
        if name == "text" && block.starts_with("4a52") {
            records = listed(block);
        }
        let Some(command) = block.strip_prefix("$ target/bin/capture ") else { continue };
        let (words, line) = command.split_once('\n').expect("a command and what it prints");
        let words: Vec<&str> = words.split_whitespace().collect();
        let file = Captured::new(&format!("page-{}", words[2]));
        file.put(&records);
        let name = file.0.to_str().expect("a name in letters");
        assert_eq!(said(&[words[0], words[1], name]), line.trim_end());
        commands += 1;
    }
    assert!(commands >= 3, "only {commands} commands on the page");
    assert!(PAGE.contains(RUN_ONLY_LIST.lines().next().unwrap_or_default()));
}

/// An empty folder for the files that the page names.
fn folder(name: &str) -> PathBuf {
    let folder = Path::new(env!("CARGO_TARGET_TMPDIR")).join(name);
    // It may be there from an earlier run.
    let _ = fs::remove_dir_all(&folder);
    fs::create_dir_all(&folder).expect("a folder can be made");
    folder
}

/// The page's Python writes the file of its listing.
#[test]
fn the_page_in_python() {
    let (_, script) =
        blocks().into_iter().find(|(name, _)| *name == "python").expect("the page has some");
    let folder = folder("page-in-python");
    let made = match Command::new("python3").args(["-c", script]).current_dir(&folder).output() {
        Ok(made) => made,
        Err(why) => {
            println!("skipped, the page's Python: python3: {why}");
            return;
        }
    };
    assert!(made.status.success(), "{}", String::from_utf8_lossy(&made.stderr));
    let path = folder.join("run_only.capture");
    assert_eq!(fs::read(&path).expect("it was written"), listed(RUN_ONLY_LIST));
    let words = [OsStr::new(RUN_ONLY), OsStr::new("0"), path.as_os_str()];
    assert_eq!(said(&words), "allowed: 2 accesses");
}

/// The page's script takes the right way for each first word.
#[test]
fn the_page_in_a_script() {
    if runner().is_some() {
        println!("skipped, the page's script: it names no emulator");
        return;
    }
    let (_, script) =
        blocks().into_iter().find(|(name, _)| *name == "sh").expect("the page has one");
    let folder = folder("page-in-a-script");
    let bin = folder.join("target/bin");
    fs::create_dir_all(&bin).expect("a folder can be made");
    // A copy: `rt ci` refuses a checkout that a link stands in, and the tests are run again in it.
    fs::copy(programs().join("capture"), bin.join("capture")).expect("the program can be copied");
    let mut list = listed(RUN_ONLY_LIST);
    for (file, change) in [("good", 0), ("wrong", 31), ("none", 16)] {
        if change > 0 {
            list[change] ^= 1;
        }
        fs::write(folder.join(file), &list).expect("it can be written");
    }
    for (file, status) in [("good", 0), ("wrong", 1), ("none", 2), ("missing", 2)] {
        let made = Command::new("sh")
            .args(["-c", script])
            .env("descriptor", RUN_ONLY)
            .env("cr", "0")
            .env("file", file)
            .current_dir(&folder)
            .output()
            .expect("a shell can be started");
        assert_eq!(made.status.code(), Some(status), "{file}: {made:?}");
    }
}
