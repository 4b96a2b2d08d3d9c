//! The proved program `list` as it is built, against the model's listing: what it prints, byte for byte, for input of every
//! size, whole, torn and too long, from a file and through a pipe. `make list` builds it.

use csorvelin_differential::{cases, random::Random};
use csorvelin_model::archive;
use csorvelin_model::case::Case;
use csorvelin_model::listing::printed;
use std::env;
use std::fs::{self, File};
use std::io::Write;
use std::path::{Path, PathBuf};
use std::process::{Command, Output, Stdio};
use std::thread;

/// Another program in its place: `CSORVELIN_LIST`.
fn program() -> PathBuf {
    let built = || Path::new(env!("CARGO_MANIFEST_DIR")).join("../../target/bin/list");
    let path = env::var_os("CSORVELIN_LIST").map_or_else(built, PathBuf::from);
    assert!(path.is_file(), "{} is not there: `make list` builds it", path.display());
    path
}

fn text(output: Output) -> String {
    assert!(output.status.success(), "{}", output.status);
    assert!(output.stderr.is_empty(), "{:?}", output.stderr);
    String::from_utf8(output.stdout).expect("a listing")
}

/// From a file with a name of its own.
fn from_file(name: &str, input: &[u8]) -> String {
    let path = Path::new(env!("CARGO_TARGET_TMPDIR")).join(name);
    fs::write(&path, input).expect("a temporary file");
    let file = File::open(&path).expect("a temporary file");
    text(Command::new(program()).stdin(file).output().expect("the program"))
}

/// Through a pipe, so many bytes at a time.
fn from_pipe(piece: usize, input: &[u8]) -> String {
    let child = Command::new(program()).stdin(Stdio::piped()).stdout(Stdio::piped()).stderr(Stdio::piped()).spawn();
    let mut child = child.expect("the program");
    let mut pipe = child.stdin.take().expect("its standard input");
    let input = input.to_vec();
    // It takes 65,537 bytes and no more; what is written behind them may find nobody to read it.
    let writer = thread::spawn(move || input.chunks(piece).try_for_each(|bytes| pipe.write_all(bytes)));
    let output = child.wait_with_output().expect("the program");
    let _ = writer.join().expect("the writer");
    text(output)
}

/// Compares what is printed, and gives whether it is a refusal.
fn compare(name: &str, what: &str, input: &[u8]) -> bool {
    let expected = printed(input);
    assert_eq!(from_file(name, input), expected, "{what}, {} bytes", input.len());
    assert_eq!(from_pipe(1 << 20, input), expected, "{what}, {} bytes through a pipe", input.len());
    expected == "refused 21\n"
}

/// An archive of `n` records of valid cases with any figures.
fn whole(n: u64, random: &mut Random) -> Vec<u8> {
    let mut bytes = Vec::new();
    for _ in 0..n {
        let case = cases::valid(random).encode();
        let figures = [0; 4].map(|_| random.word() >> random.below(64));
        bytes.extend(archive::record(&case, &figures));
    }
    bytes.extend(archive::trailer(n));
    bytes
}

/// Each size, with an archive of that size where there is one, with the longest archive that fits and bytes behind it, with
/// zeros and with anything.
#[test]
fn every_size() {
    let mut random = Random::new(301);
    let mut listed = Vec::new();
    for size in [0, 15, 16, 17, 112, 208, 304, 65_392, 65_488, 65_489, 65_536, 65_537, 65_584, 199_984, 200_000] {
        let mut refusals = Vec::new();
        if size >= 16 {
            let mut archive = whole((size - 16) as u64 / 96, &mut random);
            archive.resize(size, 0);
            refusals.push(compare("every_size", "an archive, zeros behind it", &archive));
        }
        refusals.push(compare("every_size", "zeros", &vec![0; size]));
        refusals.push(compare("every_size", "anything", &random.bytes(size)));
        if refusals.contains(&false) {
            listed.push(size);
        }
    }
    assert_eq!(listed, [16, 112, 208, 304, 65_392, 65_488]);
}

/// Archives up to the longest, with bytes behind them, up to far more than are taken.
#[test]
fn bytes_behind_an_archive() {
    let mut random = Random::new(302);
    for n in [0, 1, 2, 341, 681, 682] {
        let archive = whole(n, &mut random);
        assert!(!compare("bytes_behind", "an archive", &archive));
        for more in [1, 16, 49, 95, 112, 65_537, 134_512] {
            let mut longer = archive.clone();
            longer.extend(random.bytes(more));
            assert!(compare("bytes_behind", "bytes behind an archive", &longer));
        }
        // an archive behind an archive, and an archive of longer archives' size by its trailer
        let mut twice = archive.clone();
        twice.extend(&archive);
        assert!(compare("bytes_behind", "an archive twice", &twice));
        let mut grown = archive.clone();
        grown.extend(archive::trailer(n + 1));
        assert!(compare("bytes_behind", "a second trailer", &grown));
    }
    // only the size is wrong with these
    for n in [683, 684, 2083] {
        assert!(compare("bytes_behind", "too long an archive", &whole(n, &mut random)));
    }
}

#[test]
fn torn_archives() {
    let mut random = Random::new(303);
    for n in 0..3 {
        let sound = whole(n, &mut random);
        for cut in 0..sound.len() {
            assert!(compare("torn", "a cut archive", &sound[..cut]));
        }
        for at in 0..16 {
            let mut torn = sound.clone();
            let byte = sound.len() - 16 + at;
            torn[byte] ^= 1 << random.below(8);
            assert!(compare("torn", "a torn trailer", &torn), "byte {at} of the trailer");
        }
    }
    let sound = whole(682, &mut random);
    for cut in [1, 96, 65_472] {
        assert!(compare("torn", "a cut archive", &sound[cut..]), "{cut} bytes cut from the front");
        assert!(compare("torn", "a cut archive", &sound[..sound.len() - cut]), "{cut} bytes cut from the end");
    }
}

/// Figures around each thousand and at 2^64 − 1, the highest of every printed field, and records that no case has.
#[test]
fn figures_and_fields_at_their_ends() {
    let case = Case { kind: 4, row: 1, route: 1, user: 0, count: 0, dossier: 7, patterns: [0; 6] };
    let figures = [0, 1, 999, 1000, 1001, 1_000_000, u64::MAX / 1000 * 1000, u64::MAX - 616, u64::MAX - 615, u64::MAX];
    let mut bytes = Vec::new();
    for (k, &figure) in figures.iter().enumerate() {
        for place in 0..4 {
            let mut others = [0, 1, 2, u64::MAX];
            others[place] = figure;
            bytes.extend(archive::record(&Case { dossier: figure, row: k as u8, ..case }.encode(), &others));
        }
    }
    bytes.extend(archive::trailer(40));
    assert!(!compare("ends", "figures at their ends", &bytes));

    // the longest listing: every byte of each record at 255
    let mut longest = vec![255; 682 * 96];
    longest.extend(archive::trailer(682));
    assert!(!compare("ends", "every byte 255", &longest));
    let listing = printed(&longest);
    assert!(listing
        .contains("\n681 18446744073709551615 255 255 255 18446744073709552 18446744073709552 18446744073709552 "));
    assert!(listing.len() <= 74_384 && listing.len() > 65_537, "{}", listing.len());

    let mut random = Random::new(304);
    let mut anything = random.bytes(100 * 96);
    anything.extend(archive::trailer(100));
    assert!(!compare("ends", "records that no case has", &anything));
}

/// Input that comes in pieces is taken whole.
#[test]
fn input_in_pieces() {
    let mut random = Random::new(305);
    for n in [0, 1, 2, 100, 682, 683] {
        let input = whole(n, &mut random);
        for piece in [97, 4096, 5000] {
            assert_eq!(from_pipe(piece, &input), printed(&input), "{n} records, {piece} bytes at a time");
        }
    }
    let input = whole(2, &mut random);
    assert_eq!(from_pipe(1, &input), printed(&input));
}
