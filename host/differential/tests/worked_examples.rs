//! The pencil cases, cases of plastics and edges of the requirements, through the library.

use csorvelin_binding::{load, work_out, Archive, Case, Compartment, Figures, Kind, Quantity, Refusal};
use Quantity::{A, B, C, D, E};

fn figures(case: &Case) -> [u64; 4] {
    work_out(&case.to_bytes()).unwrap().into()
}

fn refusal(case: &Case) -> Option<u32> {
    work_out(&case.to_bytes()).err().map(Refusal::number)
}

fn p1() -> Case {
    Case::new(Kind::Sanitary, 1, 7).with(A, 100.).with(C, 1.)
}

fn p8() -> Case {
    let case = Case::new(Kind::Formulation, 0, 7).count(250).with(A, 16.).with(B, 0.125);
    case.with(C, 0.5).with(D, 0.25).with(E, 0.125)
}

#[test]
fn p1_to_p8() {
    let part = 1. / 64.;
    let ceiling = |upper: u64, lower: u64| [(upper * 1_000_000_000).div_ceil(lower), 0, 0, 0];
    assert_eq!(figures(&p1()), ceiling(1, 13));
    assert_eq!(figures(&Case::new(Kind::LeachingUnknown, 3, 7).with(A, part).with(C, 1.)), ceiling(875, 584));
    assert_eq!(figures(&Case::new(Kind::Application, 3, 7).user(1).with(A, part)), [61_523_438, 0, 0, 0]);
    assert_eq!(figures(&Case::new(Kind::Application, 7, 7).user(2).with(A, part)), [145_468_750, 0, 0, 0]);
    let p5 = Case::new(Kind::LeachingMeasured, 4, 7).with(A, 2f64.powi(-10)).with(B, 2f64.powi(-9)).with(C, 1.);
    assert_eq!(figures(&p5), ceiling(1671, 46_720));
    assert_eq!(figures(&Case::new(Kind::Hygiene, 1, 7).with(A, part).with(B, 0.5)), [66_562_500, 0, 0, 0]);
    let p7 = Case::new(Kind::ChemicalToilets, 1, 7).with(A, 1. / 32.).with(B, 0.25).with(C, 1.).with(E, 1.);
    assert_eq!(figures(&p7), ceiling(125, 24));
    assert_eq!(figures(&p8()), [4_000_000_000, 0, 2_000_000_000, 1_000_000_000]);
}

#[test]
fn p9_and_p10() {
    let p9 = p8().with(C, 0.75);
    assert_eq!(refusal(&p9.with(E, 2f64.powi(-52))), Some(11));
    assert_eq!(refusal(&p9.with(E, 2f64.powi(-53))), None);
    assert_eq!(refusal(&p9.with(E, 2f64.powi(-54))), None);
    assert_eq!(work_out(&p1().with(B, 1.).to_bytes()), Ok(Figures::default()));
}

/// LDPE in a partially open process.
fn ldpe() -> Case {
    Case::new(Kind::Plastics, 1, 7).user(2).count(250).with(A, 0.5).with(B, 0.25).with(C, 0.125)
}

#[test]
fn plastics() {
    // 23,100,000 kg in 250 days, half of it active: 46,200 kg a day, of which an eighth goes to water, a fourth to air.
    assert_eq!(figures(&ldpe()), [5_775_000_000_000, 0, 11_550_000_000_000, 0]);
    // In a closed one 528 t: 1056 kg a day.
    assert_eq!(figures(&ldpe().user(3)), [132_000_000_000, 0, 264_000_000_000, 0]);
    // In an open one none, whatever else is wrong behind that.
    assert_eq!(work_out(&ldpe().user(1).to_bytes()), Err(Refusal::NoUsage));
    assert_eq!(work_out(&ldpe().user(1).count(0).with(A, -1.).to_bytes()), Err(Refusal::NoUsage));
    assert_eq!(work_out(&ldpe().count(0).to_bytes()), Err(Refusal::Count));
    assert_eq!(work_out(&ldpe().user(4).to_bytes()), Err(Refusal::User));
    assert_eq!(work_out(&ldpe().route(2).user(1).to_bytes()), Err(Refusal::Route));
    assert_eq!([0, 19].map(|row| refusal(&Case { row, ..ldpe() })), [Some(3); 2]);
    assert_eq!(work_out(&ldpe().with(B, 1.).to_bytes()), Err(Refusal::SumOverOne));
    let mut archive = Archive::new();
    assert_eq!(archive.file(&ldpe().user(1).to_bytes()), Err(Refusal::NoUsage));
    assert_eq!(archive.file(&ldpe().to_bytes()), Ok(0));
    // Another process is another filing.
    assert_eq!(archive.file(&ldpe().user(3).to_bytes()), Ok(1));
    assert_eq!(archive.file(&ldpe().count(1).to_bytes()), Err(Refusal::Held));
    assert_eq!(archive.worst(Compartment::Air), Ok(0));
    assert_eq!(archive.show(1).unwrap().case(), ldpe().user(3));
    let loads = [5_775e9f64, 0., 11_550e9, 0.].map(f64::to_le_bytes);
    assert_eq!(archive.export(0).unwrap(), loads.as_flattened());
}

#[test]
fn edges() {
    let own = Case::new(Kind::LeachingMeasured, 0, 7).with(A, 1.).with(C, 1.).with(D, 1.);
    assert_eq!(refusal(&own.count(30)), Some(6));
    assert_eq!(refusal(&own.count(31)), None);
    assert_eq!(refusal(&Case::new(Kind::LeachingUnknown, 2, 7).route(2)), Some(4));
    assert_eq!(refusal(&Case::new(Kind::LeachingUnknown, 3, 7).route(2)), None);
    assert_eq!(Archive::new().show(0), Err(Refusal::NoRecord));
    assert_eq!(Archive::new().export(0), Err(Refusal::NoRecord));
}

#[test]
fn an_archive_by_the_safe_calls() {
    let mut archive = Archive::new();
    assert!(archive.is_empty());
    assert_eq!(archive.worst(Compartment::Stp), Err(Refusal::NoRecord));
    assert_eq!(archive.file(&p1().to_bytes()), Ok(0));
    assert_eq!(archive.file(&p8().to_bytes()), Ok(1));
    assert_eq!(archive.file(&p1().with(A, 5.).to_bytes()), Err(Refusal::Held));
    assert_eq!(archive.file(&p1().to_bytes()[1..]), Err(Refusal::CaseLength));
    assert_eq!((archive.len(), archive.bytes().len()), (2, 208));
    let record = archive.show(1).unwrap();
    assert_eq!((record.case(), <[u64; 4]>::from(record.figures())), (p8(), figures(&p8())));
    let worst = [Compartment::Stp, Compartment::SurfaceWater, Compartment::Air, Compartment::Soil];
    assert_eq!(worst.map(|compartment| archive.worst(compartment)), [Ok(1), Ok(0), Ok(1), Ok(1)]);
    assert_eq!([0u64, 5].map(|number| archive.worst(number)), [Err(Refusal::Compartment); 2]);
    assert_eq!(archive.records().count(), 2);
    let again = Archive::from_bytes(archive.bytes().to_vec()).unwrap();
    assert_eq!(again.bytes(), archive.bytes());
    for cut in 0..208 {
        let cut_short = archive.bytes()[..cut].to_vec();
        assert_eq!(Archive::from_bytes(cut_short).err(), Some(Refusal::NotAnArchive));
    }
}

#[test]
fn loads_by_the_safe_calls() {
    let mut archive = Archive::new();
    archive.file(&p8().to_bytes()).unwrap();
    archive.file(&p1().with(B, 1.).to_bytes()).unwrap();
    let before = archive.bytes().to_vec();
    let kilograms = [4f64, 0., 2., 1.].map(|kilograms| (kilograms * 1e9).to_le_bytes());
    assert_eq!(archive.export(0).unwrap(), kilograms.as_flattened());
    assert_eq!(figures(&p8()).map(load), kilograms);
    // Four figures of 0 have loads; a record that is not there has none.
    assert_eq!(archive.export(1), Ok([0; 32]));
    for number in [2, 1 << 32, u64::MAX] {
        assert_eq!(archive.export(number), Err(Refusal::NoRecord));
    }
    assert_eq!(archive.bytes(), before);
    assert_eq!(load(u64::MAX), (2f64.powi(64)).to_le_bytes());
}
