//! Archives that are damaged, cut, or called with another used length: every answer and every byte against the model.

use csorvelin_differential::{calls, cases, guarded::Guarded, random::Random};
use csorvelin_model::archive;
use csorvelin_model::case::Case;
use std::collections::BTreeMap;

/// An archive of `n` records of valid cases, used length only.
fn whole(n: u64, random: &mut Random) -> Vec<u8> {
    let mut bytes = archive::trailer(0);
    for dossier in 1..=n {
        let used = bytes.len() as u64;
        let case = Case { dossier, ..cases::valid(random) };
        bytes.resize(bytes.len() + 96, 0);
        assert_eq!(archive::file(&mut bytes, used, &case.encode()).0, 0);
    }
    bytes
}

/// Every call with this buffer and used length. Answers show's refusal for record 0.
fn compare(content: &[u8], used: u64, random: &mut Random) -> u32 {
    let mut buffer = Guarded::new(content, random);
    for number in [0, 1, 2, 3, 1 << 32, u64::MAX] {
        let answer = calls::show(buffer.buffer(), used, number);
        assert_eq!(answer, archive::show(content, used, number), "show {number}, used {used}");
        let answer = calls::export(buffer.buffer(), used, number);
        assert_eq!(answer, archive::export(content, used, number), "export {number}, used {used}");
    }
    for compartment in [0, 1, 2, 3, 4, 5, u64::MAX] {
        let answer = calls::worst(buffer.buffer(), used, compartment);
        assert_eq!(answer, archive::worst(content, used, compartment), "worst {compartment}, used {used}");
    }
    assert!(buffer.agrees(), "show, export or worst changed a byte");
    let case = cases::valid(random).encode();
    let answer = calls::file(buffer.buffer(), used, &case);
    assert_eq!(answer, archive::file(buffer.image(), used, &case), "file, used {used}");
    assert!(buffer.agrees(), "file, used {used}");
    let case = cases::damaged(random).encode();
    let used_now = answer.2;
    let answer = calls::file(buffer.buffer(), used_now, &case);
    assert_eq!(answer, archive::file(buffer.image(), used_now, &case), "file, used {used_now}");
    assert!(buffer.agrees(), "file, used {used_now}");
    archive::show(content, used, 0).0
}

#[test]
fn every_bit_of_a_small_archive_flipped() {
    let mut random = Random::new(201);
    let sound = whole(2, &mut random);
    let mut refused = 0;
    for byte in 0..sound.len() {
        for bit in 0..8 {
            let mut content = sound.clone();
            content[byte] ^= 1 << bit;
            content.extend(random.bytes(150));
            let refusal = compare(&content, sound.len() as u64, &mut random);
            // Records are not looked into; every bit of the trailer counts.
            assert_eq!(refusal == 21, byte >= 192, "byte {byte} bit {bit}");
            refused += u32::from(refusal == 21);
        }
    }
    assert_eq!(refused, 16 * 8);
}

#[test]
fn every_cut() {
    let mut random = Random::new(202);
    for n in 0..4 {
        let sound = whole(n, &mut random);
        for cut in 0..=sound.len() {
            let refusal = compare(&sound[..cut], cut as u64, &mut random);
            assert_eq!(refusal == 21, cut != sound.len());
            // The used length of the whole archive, beyond what is left of it.
            let refusal = compare(&sound[..cut], sound.len() as u64, &mut random);
            assert_eq!(refusal == 21, cut != sound.len());
        }
    }
}

#[test]
fn every_used_length() {
    let mut random = Random::new(203);
    let mut content = whole(3, &mut random);
    content.extend(random.bytes(200));
    let mut accepted = 0;
    for used in 0..=content.len() as u64 + 100 {
        accepted += u32::from(compare(&content, used, &mut random) != 21);
    }
    assert_eq!(accepted, 1);
    // Nothing stands behind the archive, and the used length reaches beyond it.
    let sound = whole(3, &mut random);
    for used in sound.len() as u64 + 1..sound.len() as u64 + 100 {
        assert_eq!(compare(&sound, used, &mut random), 21);
    }
    for used in [1 << 32, (1 << 32) + 304, u64::MAX - 96, u64::MAX - 95, u64::MAX - 15, u64::MAX - 1, u64::MAX] {
        assert_eq!(compare(&content, used, &mut random), 21);
    }
}

/// Trailers whose parts do not fit together, each at the end of the buffer and inside it.
#[test]
fn inconsistent_trailers() {
    let mut random = Random::new(204);
    let numbers = [0, 1, 2, 3, 1_000_000, 1_000_001, u64::from(u32::MAX)];
    let wrapped = (1u64 << 32) / 96;
    for n in numbers.into_iter().chain([wrapped, wrapped + 1]) {
        for distance in [0, 96, 192, 288, 96 * n, (96 * n) & 0xffff_ffff, u64::MAX, 1 << 63] {
            for edition in [0, 1, 2, 3, 256, 1 << 24, u32::MAX] {
                let mut content = random.bytes(192);
                content.extend(distance.to_le_bytes());
                content.extend((n as u32).to_le_bytes());
                content.extend(edition.to_le_bytes());
                let refusal = compare(&content, 208, &mut random);
                assert_eq!(refusal == 21, (n, distance, edition) != (2, 192, 1));
                content.extend(random.bytes(100));
                compare(&content, 208, &mut random);
            }
        }
    }
}

/// Records of any content, as a program that is not this one may have left them: figures up to 2^64 - 1 and equal ones.
#[test]
fn foreign_records() {
    let mut random = Random::new(205);
    let mut named = BTreeMap::new();
    for n in 0..60u64 {
        for _ in 0..12 {
            let mut content = random.bytes(96 * n as usize);
            for record in content.chunks_mut(96) {
                for figure in record[64..].chunks_mut(8) {
                    let value = random.pick(&[0, 1, 5, 5, 5, 1 << 63, u64::MAX, u64::MAX - 1]);
                    figure.copy_from_slice(&value.to_le_bytes());
                }
            }
            content.extend(archive::trailer(n));
            let used = content.len() as u64;
            content.extend(random.bytes(97));
            let compartment = random.between(1, 4);
            *named.entry(archive::worst(&content, used, compartment)).or_insert(0) += 1;
            compare(&content, used, &mut random);
        }
    }
    assert!(named.len() > 10, "worst named {named:?}");
}

/// The greatest archive, one below it, and one beyond.
#[test]
fn a_million_records() {
    const MOST: u64 = 1_000_000;
    let mut random = Random::new(206);
    let mut content = vec![0; 96 * (MOST as usize + 1) + 16 + 96];
    for n in [MOST - 1, MOST, MOST + 1] {
        let used = 96 * n + 16;
        content[used as usize - 16..used as usize].copy_from_slice(&archive::trailer(n));
        for number in [0, n - 1, n] {
            assert_eq!(calls::show(&content, used, number), archive::show(&content, used, number));
            assert_eq!(calls::export(&content, used, number), archive::export(&content, used, number));
        }
        for compartment in 1..=4 {
            let answer = calls::worst(&content, used, compartment);
            assert_eq!(answer, archive::worst(&content, used, compartment));
        }
        let case = cases::valid(&mut random).encode();
        let (refusal, number, after) = calls::file(&mut content, used, &case);
        let expected = match n {
            999_999 => (0, n, used + 96),
            1_000_000 => (23, 0, used),
            _ => (21, 0, used),
        };
        assert_eq!((refusal, number, after), expected);
        if refusal == 0 {
            let start = 96 * n as usize;
            let figures = calls::work_out(&case).1;
            assert_eq!(content[start..start + 96], archive::record(&case, &figures));
            assert_eq!(content[start + 96..start + 112], archive::trailer(n + 1));
            assert_eq!(calls::worst(&content, after, 1), archive::worst(&content, after, 1));
            assert_eq!(calls::export(&content, after, n), archive::export(&content, after, n));
            assert_eq!(calls::file(&mut content, after, &case), (22, 0, after));
        }
    }
}
