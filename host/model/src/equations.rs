//! The eight equations: for each compartment the exact emission as a sum of chains of factors, each factor with its
//! value and its source, and the figure, the least whole number of micrograms not below it.

use crate::case::{Case, QUANTITIES};
use crate::natural::Natural;
use crate::ranges::{self, Violation};
use crate::ratio::Ratio;
use crate::tables::{self, CityRow, DefaultValue};

pub const COMPARTMENTS: [&str; 4] = ["the sewage treatment plant (STP)", "surface water", "air", "soil"];

const MICROGRAMS_IN_A_KILOGRAM: u64 = 1_000_000_000;

/// The source named for what the case itself gives.
pub const FROM_CASE: &str = "case";

/// One factor of a chain.
#[derive(Clone, Debug)]
pub struct Factor {
    /// As the equation writes it.
    pub symbol: String,
    pub meaning: String,
    pub value: Ratio,
    pub divides: bool,
    pub source: &'static str,
}

/// Factors multiplied, or divided by where they say so.
pub type Chain = Vec<Factor>;

/// The equation of a case and its chains: none for a compartment without an equation.
#[derive(Clone, Debug)]
pub struct Sheet {
    pub case: Case,
    pub equation: &'static str,
    pub source: &'static str,
    /// In the order of the figures; the chains of a compartment are added.
    pub emissions: [Vec<Chain>; 4],
}

impl Sheet {
    /// The sheet of a case, or its first violation.
    pub fn of(bytes: &[u8]) -> Result<Sheet, Violation> {
        if let Some(violation) = ranges::violation(bytes) {
            return Err(violation);
        }
        Ok(sheet(&Case::decode(bytes).expect("a case within the ranges")))
    }

    /// The exact emission to a compartment in kilograms per day.
    pub fn kilograms(&self, compartment: usize) -> Ratio {
        let chains = self.emissions[compartment].iter();
        chains.fold(Ratio::whole(0), |sum, chain| sum.plus(&product(chain)))
    }

    pub fn micrograms(&self, compartment: usize) -> Ratio {
        self.kilograms(compartment).times(&Ratio::whole(MICROGRAMS_IN_A_KILOGRAM))
    }

    pub fn figures(&self) -> [u64; 4] {
        [0, 1, 2, 3].map(|compartment| {
            let figure: Natural = self.micrograms(compartment).ceiling();
            figure.to_u64().expect("a figure of at most 10^18 micrograms")
        })
    }
}

/// The four figures of a case, or the number of its refusal.
pub fn work_out(bytes: &[u8]) -> Result<[u64; 4], u32> {
    Sheet::of(bytes).map(|sheet| sheet.figures()).map_err(|violation| violation.number)
}

pub fn product(chain: &Chain) -> Ratio {
    chain.iter().fold(Ratio::whole(1), |product, factor| {
        if factor.divides {
            product.over(&factor.value)
        } else {
            product.times(&factor.value)
        }
    })
}

fn sheet(case: &Case) -> Sheet {
    let (equation, source) = equation(case.kind);
    let mut emissions = [vec![], vec![], vec![], vec![]];
    let water = usize::from(case.route) - 1;
    match case.kind {
        1 => emissions[water] = measured(case),
        2 => emissions[water] = vec![unknown(case)],
        3 => emissions[water] = vec![application(case)],
        4 => emissions[water] = vec![sanitary(case)],
        5 => {
            emissions[water] = vec![formulation(case, 2)];
            emissions[2] = vec![formulation(case, 3)];
            emissions[3] = vec![formulation(case, 4)];
        }
        6 => emissions[water] = vec![consumption(case)],
        7 => emissions[water] = vec![toilets(case)],
        8 => {
            emissions[water] = vec![plastics(case, 2)];
            emissions[2] = vec![plastics(case, 1)];
        }
        kind => unreachable!("kind {kind} is not within the ranges"),
    }
    Sheet { case: *case, equation, source, emissions }
}

/// The equation as the requirements print it, and where the documents have it.
pub fn equation(kind: u8) -> (&'static str, &'static str) {
    match kind {
        1 => (
            "E = recent·a·A/30 + older·b·A/(L − 30), recent = 4000·c·30/L, older = 4000·c·(L − 30)/L",
            "000, Table 19, l. 1180–1182",
        ),
        2 => (
            "E = 4000·c·A·V·R·a/(1000·L)",
            "built from 001, worst case, l. 192–194, and the symbols listed there, l. 196–213; the printed equation is \
             missing from the copy",
        ),
        3 => ("E = A·V·R·a·B·N/1000", "001, application phase, eq. (7), l. 271"),
        4 => ("E = a·0.1·1000·0.002·(1 − b)·c/D", "002, Table 3, l. 319"),
        5 => ("E = a·1000·b·c/T to water, a·1000·b·d/T to air, a·1000·b·e/T to soil", "000, 2.2.3, l. 501"),
        6 => ("E = 10000·H·M·G·a·b/1000", "000, Table 8, l. 777, with F_water 1 (l. 744)"),
        7 => ("E = a·c·b·20·(1 − d)·e·(2000/60)·N", "002, Table 7, l. 652–653"),
        8 => (
            "E = Q·1000·a·b/T to air, Q·1000·a·c/T to water",
            "004, 4.3.1, Table 4.4, l. 442–443, with TONNAGE = Q·1000/T (notes 1, 4, l. 445, 451)",
        ),
        kind => unreachable!("there is no kind {kind}"),
    }
}

impl Factor {
    fn new(symbol: &str, meaning: &str, value: Ratio, source: &'static str) -> Factor {
        let (symbol, meaning) = (symbol.to_string(), meaning.to_string());
        Factor { symbol, meaning, value, divides: false, source }
    }

    fn dividing(mut self) -> Factor {
        self.divides = true;
        self
    }
}

/// A default of the tables, under the equation's symbol for it (its own decimal where it has none).
fn default(symbol: &str, meaning: &str, default: DefaultValue) -> Factor {
    Factor::new(symbol, meaning, default.value(), default.source)
}

/// A quantity of the case, described as the ranges list it.
fn quantity(case: &Case, index: usize) -> Factor {
    let listed = ranges::listed(case.kind, case.row);
    let listed = listed.iter().find(|listed| listed.index == index).expect("a listed quantity");
    let meaning = match listed.unit {
        "" => listed.meaning.to_string(),
        unit => format!("{}, {unit}", listed.meaning),
    };
    Factor::new(&QUANTITIES[index].to_string(), &meaning, case.exact(index), FROM_CASE)
}

/// 1 less a quantity of the case.
fn remains(case: &Case, index: usize) -> Factor {
    let taken = quantity(case, index);
    let symbol = format!("1 − {}", taken.symbol);
    let meaning = format!("{} is the {}", taken.symbol, taken.meaning);
    Factor::new(&symbol, &meaning, taken.value.remains(), FROM_CASE)
}

/// The count T of the case, under the equation's symbol for it.
fn count(case: &Case, symbol: &str) -> Factor {
    let meaning = format!("T, {}", ranges::count_meaning(case.kind));
    Factor::new(symbol, &meaning, Ratio::whole(u64::from(case.count)), FROM_CASE)
}

/// A factor that the row gives, or in row 0 the case.
fn by_row<R>(row: Option<&R>, tabled: impl Fn(&R) -> Factor, own: impl Fn() -> Factor) -> Factor {
    row.map_or_else(own, tabled)
}

fn area(case: &Case) -> Factor {
    let tabled = |city: &CityRow| default("A", "treated area of a house, m2", city.area);
    by_row(tables::city_row(case.row), tabled, || quantity(case, 3))
}

fn volume(case: &Case) -> Factor {
    let tabled = |city: &CityRow| default("V", "volume of product, L/m2", city.volume);
    by_row(tables::city_row(case.row), tabled, || quantity(case, 4))
}

fn density(case: &Case) -> Factor {
    let tabled = |city: &CityRow| default("R", "density, kg/m3", city.density);
    by_row(tables::city_row(case.row), tabled, || quantity(case, 5))
}

fn life(case: &Case) -> Factor {
    let tabled = |city: &CityRow| default("L", "service life, days", city.life);
    by_row(tables::city_row(case.row), tabled, || count(case, "L"))
}

/// Kind 1: the houses treated in the last 30 days and the older ones.
fn measured(case: &Case) -> Vec<Chain> {
    let houses = || default("4000", "houses in the city", tables::HOUSES);
    let recent_days = || default("30", "days counted as recent", tables::RECENT_DAYS);
    let life = || life(case);
    let later_days = || {
        let days = life().value.lowest_terms().upper().minus(&Natural::from(30));
        let value = Ratio::new(days, Natural::one());
        Factor::new("L − 30", "days of the rest of the service life", value, life().source)
    };
    let recent = vec![
        houses(),
        quantity(case, 2),
        recent_days(),
        life().dividing(),
        quantity(case, 0),
        area(case),
        recent_days().dividing(),
    ];
    let older = vec![
        houses(),
        quantity(case, 2),
        later_days(),
        life().dividing(),
        quantity(case, 1),
        area(case),
        later_days().dividing(),
    ];
    vec![recent, older]
}

/// Kind 2: all of the active substance leaches within the service life.
fn unknown(case: &Case) -> Chain {
    vec![
        default("4000", "houses in the city", tables::HOUSES),
        quantity(case, 2),
        area(case),
        volume(case),
        density(case),
        quantity(case, 0),
        default("1000", "litres in a cubic metre", tables::LITRES_LEACHING).dividing(),
        life(case).dividing(),
    ]
}

/// Kind 3: losses while the product is applied.
fn application(case: &Case) -> Chain {
    let loss = if case.user == 1 {
        default("B", "share lost, professional user", tables::LOSS_PROFESSIONAL)
    } else {
        default("B", "share lost, user not professional", tables::LOSS_OTHER)
    };
    let tabled = |city: &CityRow| default("N", "houses treated per day", city.houses);
    let houses = by_row(tables::city_row(case.row), tabled, || count(case, "N"));
    vec![
        area(case),
        volume(case),
        density(case),
        quantity(case, 0),
        loss,
        houses,
        default("1000", "litres in a cubic metre", tables::LITRES_APPLICATION).dividing(),
    ]
}

/// Kind 4.
fn sanitary(case: &Case) -> Chain {
    let days =
        if case.row == 1 { default("D", "emission days per year", tables::EMISSION_DAYS) } else { count(case, "D") };
    vec![
        quantity(case, 0),
        default("0.1", "fraction for the region", tables::REGION),
        default("1000", "kilograms in a tonne", tables::KILOGRAMS_SANITARY),
        default("0.002", "fraction of the main source", tables::MAIN_SOURCE),
        remains(case, 1),
        quantity(case, 2),
        days.dividing(),
    ]
}

/// Kind 5, for the compartment whose release fraction is quantity `release`.
fn formulation(case: &Case, release: usize) -> Chain {
    vec![
        quantity(case, 0),
        default("1000", "kilograms in a tonne", tables::KILOGRAMS_FORMULATION),
        quantity(case, 1),
        quantity(case, release),
        count(case, "T").dividing(),
    ]
}

/// Kind 6.
fn consumption(case: &Case) -> Chain {
    let row = tables::hygiene_row(case.row);
    vec![
        default("10000", "inhabitants feeding one STP", tables::INHABITANTS),
        by_row(row, |r| default("H", "share of the inhabitants", r.share), || quantity(case, 5)),
        by_row(row, |r| default("M", "uses per day", r.uses), || quantity(case, 4)),
        by_row(row, |r| default("G", "amount per use, g", r.grams), || quantity(case, 3)),
        quantity(case, 0),
        quantity(case, 1),
        default("1000", "grams in a kilogram", tables::GRAMS).dividing(),
    ]
}

/// Kind 7.
fn toilets(case: &Case) -> Chain {
    let wagons = if case.row == 1 { default("N", "tank wagons per day", tables::WAGONS) } else { count(case, "N") };
    vec![
        quantity(case, 0),
        quantity(case, 2),
        quantity(case, 1),
        default("20", "litres of pre-charge liquid in a toilet", tables::PRECHARGE_LITRES),
        remains(case, 3),
        quantity(case, 4),
        default("2000", "litres in a tank wagon", tables::WAGON_LITRES),
        default("60", "litres of sewage in a toilet", tables::TOILET_LITRES).dividing(),
        wagons,
    ]
}

/// Kind 8, for the compartment whose fraction is quantity `release`.
fn plastics(case: &Case, release: usize) -> Chain {
    let usage = tables::usage(case.row, case.user).expect("a usage, within the ranges");
    let meaning = format!("usage on site, {}, t per year", ranges::user_meaning(case.kind, case.user));
    vec![
        default("Q", &meaning, usage),
        default("1000", "kilograms in a tonne", tables::KILOGRAMS_PLASTICS),
        quantity(case, 0),
        quantity(case, release),
        count(case, "T").dividing(),
    ]
}
