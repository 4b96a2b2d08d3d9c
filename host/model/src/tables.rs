//! The default tables of the requirements, in their own decimals, each number with the place it comes from: document,
//! table or section, line of the text copy.

use crate::ratio::Ratio;

/// The source documents and their titles.
pub const DOCUMENTS: [(&str, &str); 4] = [
    (
        "000",
        "Emission Scenario Document for Product Type 6, preservatives for products during storage, version 1.1, \
         European Chemicals Agency, September 2019",
    ),
    (
        "001",
        "\"Leaching from paints, plasters, and fillers applied in urban areas\" (the city scenario), proposal of the \
         Netherlands (Ctgb), version 6, 12 November 2015",
    ),
    (
        "002",
        "Emission Scenario Document for Product Type 2, Private and public health area disinfectants and other \
         biocidal products, EUR 25115 EN, JRC, 2011, ISBN 978-92-79-22399-0, doi:10.2788/29058",
    ),
    (
        "004",
        "Supplement to the methodology for risk evaluation of biocides, Environmental Emission Scenarios for Biocides \
         used as Preservatives in rubber and polymerised materials (Product type 9), EUBEES, European Commission DG ENV \
         / RIVM, January 2004",
    ),
];

/// A default: its decimal as printed and its source.
#[derive(Clone, Copy, Debug)]
pub struct DefaultValue {
    pub decimal: &'static str,
    pub source: &'static str,
}

impl DefaultValue {
    pub fn value(&self) -> Ratio {
        Ratio::from_decimal(self.decimal).expect("a decimal of the tables")
    }
}

const fn default(decimal: &'static str, source: &'static str) -> DefaultValue {
    DefaultValue { decimal, source }
}

pub const HOUSES: DefaultValue = default("4000", "001, The city scenario, l. 85");
pub const RECENT_DAYS: DefaultValue = default("30", "001, normal case, list under the missing equations, l. 123");
pub const LITRES_LEACHING: DefaultValue =
    default("1000", "in no document; from V in L/m2 (001, Table 2, l. 227) and R in kg/m3 (l. 226)");
pub const LITRES_APPLICATION: DefaultValue = default("1000", "000, Table 18, l. 1142");
const LOSSES: &str = "001, application phase, list under eq. (7), l. 286–287";
pub const LOSS_PROFESSIONAL: DefaultValue = default("0.03", LOSSES);
pub const LOSS_OTHER: DefaultValue = default("0.05", LOSSES);
pub const REGION: DefaultValue = default("0.1", "002, Table 3, l. 303");
pub const KILOGRAMS_SANITARY: DefaultValue = default("1000", "002, Table 3, l. 319");
pub const MAIN_SOURCE: DefaultValue = default("0.002", "002, Table 3, l. 306");
pub const EMISSION_DAYS: DefaultValue = default("260", "002, 2.1.4.2, l. 293");
pub const KILOGRAMS_FORMULATION: DefaultValue = default("1000", "000, 2.2.3, l. 501");
pub const INHABITANTS: DefaultValue = default("10000", "000, Table 8, l. 743");
pub const GRAMS: DefaultValue = default("1000", "000, Table 8, l. 777: 10^-6 with C in g/kg (l. 747)");
pub const PRECHARGE_LITRES: DefaultValue = default("20", "002, Table 7, l. 642");
pub const WAGON_LITRES: DefaultValue = default("2000", "002, Table 7, l. 644");
pub const TOILET_LITRES: DefaultValue = default("60", "002, Table 7, l. 643");
pub const WAGONS: DefaultValue = default("1", "002, Table 7, l. 645");
pub const KILOGRAMS_PLASTICS: DefaultValue = default(
    "1000",
    "in no document; from Q in tonnes per year (004, 3.3, Table 3.1, l. 248) and TONNAGE in kg per day (4.3.1, Table \
     4.4, l. 421)",
);

/// The defaults of the equations outside the row tables: kinds, symbol, meaning.
pub const CONSTANTS: [(&str, &str, DefaultValue); 18] = [
    ("1, 2", "houses in the city", HOUSES),
    ("1", "days counted as recent", RECENT_DAYS),
    ("2", "litres in a cubic metre (divisor)", LITRES_LEACHING),
    ("3", "litres in a cubic metre (divisor)", LITRES_APPLICATION),
    ("3", "B, share lost in application, professional user", LOSS_PROFESSIONAL),
    ("3", "B, share lost in application, other user", LOSS_OTHER),
    ("4", "fraction of the EU tonnage for the region", REGION),
    ("4", "kilograms in a tonne", KILOGRAMS_SANITARY),
    ("4", "fraction of the main source (STP)", MAIN_SOURCE),
    ("4", "D, emission days per year, row 1", EMISSION_DAYS),
    ("5", "kilograms in a tonne", KILOGRAMS_FORMULATION),
    ("6", "inhabitants feeding one STP", INHABITANTS),
    ("6", "grams in a kilogram (divisor)", GRAMS),
    ("7", "litres of pre-charge liquid in a toilet", PRECHARGE_LITRES),
    ("7", "litres in a tank wagon", WAGON_LITRES),
    ("7", "litres of sewage in a toilet (divisor)", TOILET_LITRES),
    ("7", "N, tank wagons per day, row 1", WAGONS),
    ("8", "kilograms in a tonne", KILOGRAMS_PLASTICS),
];

/// A row of the city tables of document 001: kind 1 goes by Table 1, kinds 2 and 3 by Table 2 (l. 197, 206, 277), which
/// agree in L and A but for row 4's misprint.
#[derive(Clone, Copy, Debug)]
pub struct CityRow {
    pub row: u8,
    pub name: &'static str,
    /// Service life L in days.
    pub life: DefaultValue,
    /// Treated area A of a house in m2.
    pub area: DefaultValue,
    /// Density R in kg/m3.
    pub density: DefaultValue,
    /// Volume V of product in L/m2.
    pub volume: DefaultValue,
    /// Houses treated per day, N of kind 3.
    pub houses: DefaultValue,
}

const THREE_HOUSES: DefaultValue = default("3", "001, application phase, l. 291–296");
const ONE_HOUSE: DefaultValue = default("1", "001, application phase, l. 296");

pub const CITY_ROWS: [CityRow; 7] = [
    CityRow {
        row: 1,
        name: "bathroom joint filler",
        life: default("3650", "001, Table 1, l. 154–155, and Table 2, l. 232–234"),
        area: default("0.24", "001, Table 1, l. 154–155, and Table 2, l. 232–234"),
        density: default("1900", "001, Table 2, l. 232–234"),
        volume: default("0.42", "001, Table 2, l. 232–234"),
        houses: ONE_HOUSE,
    },
    CityRow {
        row: 2,
        name: "bathroom sealant",
        life: default("3650", "001, Table 1, l. 157–158, and Table 2, l. 235"),
        area: default("0.12", "001, Table 1, l. 157–158, and Table 2, l. 235"),
        density: default("1000", "001, Table 2, l. 235"),
        volume: default("5.88", "001, Table 2, l. 235"),
        houses: ONE_HOUSE,
    },
    CityRow {
        row: 3,
        name: "facade paint",
        life: default("1825", "001, Table 1, l. 162–164, and Table 2, l. 238–239"),
        area: default("125", "001, Table 1, l. 162–164, and Table 2, l. 238–239"),
        density: default("1400", "001, Table 2, l. 238–239"),
        volume: default("0.25", "001, Table 2, l. 238–239"),
        houses: THREE_HOUSES,
    },
    CityRow {
        row: 4,
        name: "window and door paint",
        life: default("1825", "001, Table 1, l. 166–168, and Table 2, l. 240–243"),
        area: default("5.57", "001, normal case, list of advised defaults, l. 112, and Table 2, l. 240–243"),
        density: default("1400", "001, Table 2, l. 240–243"),
        volume: default("0.25", "001, Table 2, l. 240–243"),
        houses: THREE_HOUSES,
    },
    CityRow {
        row: 5,
        name: "facade plaster",
        life: default("9125", "001, Table 1, l. 170–172, and Table 2, l. 245–247"),
        area: default("125", "001, Table 1, l. 170–172, and Table 2, l. 245–247"),
        density: default("1000", "001, Table 2, l. 245–247"),
        volume: default("4.0", "001, Table 2, l. 245–247"),
        houses: ONE_HOUSE,
    },
    CityRow {
        row: 6,
        name: "outdoor joint sealant",
        life: default("1825", "001, Table 1, l. 173–175, and Table 2, l. 249–250"),
        area: default("0.31", "001, Table 1, l. 173–175, and Table 2, l. 249–250"),
        density: default("1000", "001, Table 2, l. 249–250"),
        volume: default("5.88", "001, Table 2, l. 249–250"),
        houses: THREE_HOUSES,
    },
    CityRow {
        row: 7,
        name: "outdoor joint filler",
        life: default("9125", "001, Table 1, l. 176–178, and Table 2, l. 252–255"),
        area: default("35", "001, Table 1, l. 176–178, and Table 2, l. 252–255"),
        density: default("1900", "001, Table 2, l. 252–255"),
        volume: default("2.8", "001, Table 2, l. 252–255"),
        houses: ONE_HOUSE,
    },
];

/// A row of the hygiene products (document 000, appendix 3.1, pick-list).
#[derive(Clone, Copy, Debug)]
pub struct HygieneRow {
    pub row: u8,
    pub name: &'static str,
    /// Grams per use, G.
    pub grams: DefaultValue,
    /// Uses per day, M.
    pub uses: DefaultValue,
    /// Share of the inhabitants, H.
    pub share: DefaultValue,
}

macro_rules! pick_list {
    ($line:literal) => {
        concat!("000, appendix 3.1, pick-list (ESD PT1 (2004), Table 3.5, l. 2017), l. ", $line)
    };
}

/// A row of the pick-list: one line has all three numbers, but not the unit of the first.
macro_rules! hygiene {
    ($row:literal, $name:literal, $grams:literal, $uses:literal, $share:literal, $line:literal) => {
        HygieneRow {
            row: $row,
            name: $name,
            grams: default($grams, concat!(pick_list!($line), "; grams by Table 8, l. 753")),
            uses: default($uses, pick_list!($line)),
            share: default($share, pick_list!($line)),
        }
    };
}

pub const HYGIENE_ROWS: [HygieneRow; 5] = [
    hygiene!(1, "shampoo", "12", "0.71", "0.1", 2020),
    hygiene!(2, "aerosol", "3", "2", "0.2", 2022),
    hygiene!(3, "stick", "0.5", "1", "0.8", 2023),
    hygiene!(4, "cream", "0.8", "2", "0.1", 2024),
    hygiene!(5, "mouth wash", "10", "3", "0.05", 2025),
];

/// A row of the polymers (document 004, section 3.3, Table 3.1; the document has another table of that number, in 3.4).
#[derive(Clone, Copy, Debug)]
pub struct PolymerRow {
    pub row: u8,
    pub name: &'static str,
    /// Usage on site Q in tonnes per year, in the order of [`PROCESSES`]; none where the table has none.
    pub usages: [Option<DefaultValue>; 3],
}

/// The processes, numbered from 1.
pub const PROCESSES: [&str; 3] = ["open process", "partially open process", "closed process"];

macro_rules! usage {
    (-, $line:literal) => {
        None
    };
    ($usage:literal, $line:literal) => {
        Some(default($usage, concat!("004, 3.3, Table 3.1, l. ", $line)))
    };
}

/// A polymer with its usages in an open, a partially open and a closed process, and its line.
macro_rules! polymer {
    ($row:literal, $name:literal, $open:tt, $partially_open:tt, $closed:tt, $line:literal) => {
        PolymerRow {
            row: $row,
            name: $name,
            usages: [usage!($open, $line), usage!($partially_open, $line), usage!($closed, $line)],
        }
    };
}

pub const POLYMER_ROWS: [PolymerRow; 18] = [
    polymer!(1, "LDPE", -, "23100", "528", 250),
    polymer!(2, "HDPE", -, "2070", "2130", 251),
    polymer!(3, "Polypropylene", -, "8880", "1610", 252),
    polymer!(4, "Rigid PVC", "988", -, "2010", 253),
    polymer!(5, "Flexible PVC", "744", "3990", "341", 254),
    polymer!(6, "Polystyrene", "605", "389", "623", 255),
    polymer!(7, "Expanded polystyrene", -, -, "2790", 256),
    polymer!(8, "ABS", "78", -, "428", 257),
    polymer!(9, "PET", "176", -, "814", 258),
    polymer!(10, "Polyamides", "39", -, "181", 259),
    polymer!(11, "Acrylics", "55", "207", "28", 260),
    polymer!(12, "Acetals", -, "52", "84", 261),
    polymer!(13, "Polycarbonates", -, "62", "69", 262),
    polymer!(14, "Polyurethanes", -, -, "804", 263),
    polymer!(15, "Unsaturated polyesters", "575", -, "206", 264),
    polymer!(16, "Phenolic resins", -, -, "121", 265),
    polymer!(17, "Amino resins", -, -, "469", 266),
    polymer!(18, "Epoxy resins", -, -, "80", 267),
];

pub fn city_row(row: u8) -> Option<&'static CityRow> {
    CITY_ROWS.iter().find(|city| city.row == row)
}

pub fn hygiene_row(row: u8) -> Option<&'static HygieneRow> {
    HYGIENE_ROWS.iter().find(|hygiene| hygiene.row == row)
}

pub fn polymer_row(row: u8) -> Option<&'static PolymerRow> {
    POLYMER_ROWS.iter().find(|polymer| polymer.row == row)
}

pub fn process(number: u8) -> Option<&'static str> {
    PROCESSES.get(usize::from(number).checked_sub(1)?).copied()
}

/// The usage on site of a row's polymer for a process, where it has one.
pub fn usage(row: u8, process: u8) -> Option<DefaultValue> {
    *polymer_row(row)?.usages.get(usize::from(process).checked_sub(1)?)?
}

/// What must be known of a row in kinds 2 and 3, which multiply A by V.
pub fn volume_note(row: u8) -> Option<&'static str> {
    (row == 7).then_some(
        "001's appendix (l. 320–324) derives V = 2.8 L for 1 m2 of wall; Table 2 (l. 254) pairs it with A = 35 m2 of \
         joints, as is done here. With the wall's 125 m2 the figures of kinds 2 and 3 would be 25/7 times as high.",
    )
}

/// What must be known of kind 8's numbers.
pub const PLASTICS_NOTE: &str =
    "Q is from the UK, \"probably not representative for all of the EU\" (004, l. 244). b and c are totals over \
     handling, compounding and conversion at one site (l. 432–433); where compounding and conversion are at separate \
     sites, conversion counts as 0 at the first, handling and compounding at the second (l. 449). 004 has default \
     fractions by particle size, volatility and process in 4.3.4 (l. 523–587), half of the loss to air counted as loss \
     to water (l. 555, 587); single numbers for b and c it has not.";

/// What the documents suggest for quantities that a case gives itself: kind, quantity, meaning, suggestion.
pub const SUGGESTIONS: [(u8, char, &str, DefaultValue); 8] = [
    (1, 'c', "market share", default("1.0", "001, normal case, list under the missing equations, l. 127–128")),
    (2, 'c', "market share", default("1.0", "001, worst case, list under the missing equation, l. 199–200")),
    (4, 'b', "fraction disintegrated", default("0", "002, Table 3, l. 307")),
    (4, 'c', "fraction to water", default("1", "002, Table 3, l. 308")),
    (6, 'b', "penetration", default("0.5", "000, Table 8, l. 756")),
    (7, 'a', "litres of product per litre of pre-charge", default("0.02", "002, Table 7, l. 639")),
    (7, 'd', "fraction disintegrated", default("0", "002, Table 7, l. 646")),
    (7, 'e', "fraction reaching the plant", default("1", "002, Table 7, l. 647")),
];
