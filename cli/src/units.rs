//! Names of units: what a mark's numbers are called in the manual's Appendix A.
//!
//! These are words to print beside a value, and nothing is decided by them: a mark that reading
//! accepts has its name here, which the tests hold against the library. The names stand in the
//! order of their display codes. The symbols that the manual has beside them are left out, since
//! several of its text are wrong: a gram is there a kg, a nanogram an mg.

use sim0mq::Mark;

/// The unit types 0 to 28, each with the names of its displays; the first is that of the unit in
/// which values are sent.
const UNITS: [(&str, &str); 29] = [
    ("Dimensionless", ""),
    (
        "Acceleration",
        "METER_PER_SECOND_2 KM_PER_HOUR_2 INCH_PER_SECOND_2 FOOT_PER_SECOND_2 MILE_PER_HOUR_2 \
         MILE_PER_HOUR_PER_SECOND KNOT_PER_SECOND GAL STANDARD_GRAVITY",
    ),
    ("AngleSolid", "STERADIAN SQUARE_DEGREE"),
    ("Angle", "RADIAN ARCMINUTE ARCSECOND CENTESIMAL_ARCMINUTE CENTESIMAL_ARCSECOND DEGREE GRAD"),
    ("Direction", "NORTH_RADIAN NORTH_DEGREE EAST_RADIAN EAST_DEGREE"),
    (
        "Area",
        "SQUARE_METER SQUARE_ATTOMETER SQUARE_FEMTOMETER SQUARE_PICOMETER SQUARE_NANOMETER \
         SQUARE_MICROMETER SQUARE_MILLIMETER SQUARE_CENTIMETER SQUARE_DECIMETER SQUARE_DEKAMETER \
         SQUARE_HECTOMETER SQUARE_KILOMETER SQUARE_MEGAMETER SQUARE_INCH SQUARE_FOOT SQUARE_YARD \
         SQUARE_MILE SQUARE_NAUTICAL_MILE ACRE ARE CENTIARE HECTARE",
    ),
    ("Density", "KG_PER_METER_3 GRAM_PER_CENTIMETER_3"),
    (
        "ElectricalCharge",
        "COULOMB PICOCOULOMB NANOCOULOMB MICROCOULOMB MILLICOULOMB ABCOULOMB ATOMIC_UNIT EMU ESU \
         FARADAY FRANKLIN STATCOULOMB MILLIAMPERE_HOUR AMPERE_HOUR KILOAMPERE_HOUR MEGAAMPERE_HOUR \
         MILLIAMPERE_SECOND",
    ),
    (
        "ElectricalCurrent",
        "AMPERE NANOAMPERE MICROAMPERE MILLIAMPERE KILOAMPERE MEGAAMPERE ABAMPERE STATAMPERE",
    ),
    (
        "ElectricalPotential",
        "VOLT NANOVOLT MICROVOLT MILLIVOLT KILOVOLT MEGAVOLT GIGAVOLT ABVOLT STATVOLT",
    ),
    ("ElectricalResistance", "OHM NANOOHM MICROOHM MILLIOHM KILOOHM MEGAOHM GIGAOHM ABOHM STATOHM"),
    (
        "Energy",
        "JOULE PICOJOULE NANOJOULE MICROJOULE MILLIJOULE KILOJOULE MEGAJOULE GIGAJOULE TERAJOULE \
         PETAJOULE ELECTRONVOLT MICROELECTRONVOLT MILLIELECTRONVOLT KILOELECTRONVOLT \
         MEGAELECTRONVOLT GIGAELECTRONVOLT TERAELECTRONVOLT PETAELECTRONVOLT EXAELECTRONVOLT \
         WATT_HOUR FEMTOWATT_HOUR PICOWATT_HOUR NANOWATT_HOUR MICROWATT_HOUR MILLIWATT_HOUR \
         KILOWATT_HOUR MEGAWATT_HOUR GIGAWATT_HOUR TERAWATT_HOUR PETAWATT_HOUR CALORIE KILOCALORIE \
         CALORIE_IT INCH_POUND_FORCE FOOT_POUND_FORCE ERG BTU_ISO BTU_IT STHENE_METER",
    ),
    ("FlowMass", "KG_PER_SECOND POUND_PER_SECOND"),
    (
        "FlowVolume",
        "CUBIC_METER_PER_SECOND CUBIC_METER_PER_MINUTE CUBIC_METER_PER_HOUR CUBIC_METER_PER_DAY \
         CUBIC_INCH_PER_SECOND CUBIC_INCH_PER_MINUTE CUBIC_FEET_PER_SECOND CUBIC_FEET_PER_MINUTE \
         GALLON_PER_SECOND GALLON_PER_MINUTE GALLON_PER_HOUR GALLON_PER_DAY LITER_PER_SECOND \
         LITER_PER_MINUTE LITER_PER_HOUR LITER_PER_DAY",
    ),
    ("Force", "NEWTON KILOGRAM_FORCE OUNCE_FORCE POUND_FORCE TON_FORCE DYNE STHENE"),
    (
        "Frequency",
        "HERTZ KILOHERTZ MEGAHERTZ GIGAHERTZ TERAHERTZ PER_SECOND PER_ATTOSECOND PER_FEMTOSECOND \
         PER_PICOSECOND PER_NANOSECOND PER_MICROSECOND PER_MILLISECOND PER_MINUTE PER_HOUR PER_DAY \
         PER_WEEK RPM",
    ),
    (
        "Length",
        "METER ATTOMETER FEMTOMETER PICOMETER NANOMETER MICROMETER MILLIMETER CENTIMETER DECIMETER \
         DEKAMETER HECTOMETER KILOMETER MEGAMETER INCH FOOT YARD MILE NAUTICAL_MILE \
         ASTRONOMICAL_UNIT PARSEC LIGHTYEAR ANGSTROM",
    ),
    (
        "Position",
        "METER ATTOMETER FEMTOMETER PICOMETER NANOMETER MICROMETER MILLIMETER CENTIMETER DECIMETER \
         DEKAMETER HECTOMETER KILOMETER MEGAMETER INCH FOOT YARD MILE NAUTICAL_MILE \
         ASTRONOMICAL_UNIT PARSEC LIGHT_YEAR ANGSTROM",
    ),
    (
        "LinearDensity",
        "PER_METER PER_ATTOMETER PER_FEMTOMETER PER_PICOMETER PER_NANOMETER PER_MICROMETER \
         PER_MILLIMETER PER_CENTIMETER PER_DECIMETER PER_DEKAMETER PER_HECTOMETER PER_KILOMETER \
         PER_MEGAMETER PER_INCH PER_FOOT PER_YARD PER_MILE PER_NAUTICAL_MILE PER_ASTRONOMICAL_UNIT \
         PER_PARSEC PER_LIGHT_YEAR PER_ANGSTROM",
    ),
    (
        "Mass",
        "KILOGRAM FEMTOGRAM PICOGRAM NANOGRAM MICROGRAM MILLIGRAM GRAM MEGAGRAM GIGAGRAM TERAGRAM \
         PETAGRAM MICROELECTRONVOLT MILLIELECTRONVOLT KILOELECTRONVOLT MEGAELECTRONVOLT \
         GIGAELECTRONVOLT TERAELECTRONVOLT PETAELECTRONVOLT EXAELECTRONVOLT OUNCE POUND DALTON \
         TON_LONG TON_SHORT TONNE",
    ),
    (
        "Power",
        "WATT FEMTOWATT PICOWATT NANOWATT MICROWATT MILLIWATT KILOWATT MEGAWATT GIGAWATT TERAWATT \
         PETAWATT ERG_PER_SECOND FOOT_POUND_FORCE_PER_SECOND FOOT_POUND_FORCE_PER_MINUTE \
         FOOT_POUND_FORCE_PER_HOUR HORSEPOWER_METRIC",
    ),
    (
        "Pressure",
        "PASCAL HECTOPASCAL KILOPASCAL ATMOSPHERE_STANDARD ATMOSPHERE_TECHNICAL MILLIBAR BAR BARYE \
         MILLIMETER_MERCURY CENTIMETER_MERCURY INCH_MERCURY FOOT_MERCURY KGF_PER_SQUARE_MM PIEZE \
         POUND_PER_SQUARE_INCH POUND_PER_SQUARE_FOOT TORR",
    ),
    (
        "Speed",
        "METER_PER_SECOND METER_PER_HOUR KM_PER_SECOND KM_PER_HOUR INCH_PER_SECOND INCH_PER_MINUTE \
         INCH_PER_HOUR FOOT_PER_SECOND FOOT_PER_MINUTE FOOT_PER_HOUR MILE_PER_SECOND \
         MILE_PER_MINUTE MILE_PER_HOUR KNOT",
    ),
    ("Temperature", "KELVIN DEGREE_CELSIUS DEGREE_FAHRENHEIT DEGREE_RANKINE DEGREE_REAUMUR"),
    (
        "AbsoluteTemperature",
        "KELVIN DEGREE_CELSIUS DEGREE_FAHRENHEIT DEGREE_RANKINE DEGREE_REAUMUR",
    ),
    (
        "Duration",
        "SECOND ATTOSECOND FEMTOSECOND PICOSECOND NANOSECOND MICROSECOND MILLISECOND MINUTE HOUR \
         DAY WEEK",
    ),
    (
        "Time",
        "BASE_SECOND BASE_MICROSECOND BASE_MILLISECOND BASE_MINUTE BASE_HOUR BASE_DAY BASE_WEEK \
         EPOCH_SECOND EPOCH_MICROSECOND EPOCH_MILLISECOND EPOCH_MINUTE EPOCH_HOUR EPOCH_DAY \
         EPOCH_WEEK YEAR1_SECOND J2000_SECOND",
    ),
    ("Torque", "NEWTON_METER POUND_FOOT POUND_INCH METER_KILOGRAM_FORCE"),
    (
        "Volume",
        "CUBIC_METER CUBIC_ATTOMETER CUBIC_FEMTOMETER CUBIC_PICOMETER CUBIC_NANOMETER \
         CUBIC_MICROMETER CUBIC_MILLIMETER CUBIC_CENTIMETER CUBIC_DECIMETER CUBIC_DEKAMETER \
         CUBIC_HECTOMETER CUBIC_KILOMETER CUBIC_MEGAMETER CUBIC_INCH CUBIC_FOOT CUBIC_YARD \
         CUBIC_MILE LITER GALLON_IMP GALLON_US_FLUID OUNCE_IMP_FLUID OUNCE_US_FLUID PINT_IMP \
         PINT_US_FLUID QUART_IMP QUART_US_FLUID CUBIC_PARSEC CUBIC_LIGHT_YEAR",
    ),
];

/// The first unit type with a currency: money alone, and then by the unit types of [`PER`].
const MONEY: u8 = 100;

/// The unit types 101 to 106, each with the unit type by which its money is counted.
const PER: [(&str, u8); 6] = [
    ("MoneyPerArea", 5),
    ("MoneyPerEnergy", 11),
    ("MoneyPerLength", 16),
    ("MoneyPerMass", 19),
    ("MoneyPerDuration", 25),
    ("MoneyPerVolume", 28),
];

/// The currencies: abbreviation and code, in the manual's order.
const CURRENCIES: &str =
    "AED 784 AFN 971 ALL 8 AMD 51 ANG 532 AOA 973 ARS 32 AUD 36 AWG 533 AZN 944 BAM 977 BBD 52 \
     BDT 50 BGN 975 BHD 48 BIF 108 BMD 60 BND 96 BOB 68 BOV 984 BRL 986 BSD 44 BTN 64 BWP 72 \
     BYN 933 BYR 974 BZD 84 CAD 124 CDF 976 CHE 947 CHF 756 CHW 948 CLF 990 CLP 152 CNY 156 \
     COP 170 COU 970 CRC 188 CUC 931 CUP 192 CVE 132 CZK 203 DJF 262 DKK 208 DOP 214 DZD 12 \
     EGP 818 ERN 232 ETB 230 EUR 978 FJD 242 FKP 238 GBP 826 GEL 981 GHS 936 GIP 292 GMD 270 \
     GNF 324 GTQ 320 GYD 328 HKD 344 HNL 340 HRK 191 HTG 332 HUF 348 IDR 360 ILS 376 INR 356 \
     IQD 368 IRR 364 ISK 352 JMD 388 JOD 400 JPY 392 KES 404 KGS 417 KHR 116 KMF 174 KPW 408 \
     KRW 410 KWD 414 KYD 136 KZT 398 LAK 418 LBP 422 LKR 144 LRD 430 LSL 426 LYD 434 MAD 504 \
     MDL 498 MGA 969 MKD 807 MMK 104 MNT 496 MOP 446 MRO 478 MUR 480 MVR 462 MWK 454 MXN 484 \
     MXV 979 MYR 458 MZN 943 NAD 516 NGN 566 NIO 558 NOK 578 NPR 524 NZD 554 OMR 512 PAB 590 \
     PEN 604 PGK 598 PHP 608 PKR 586 PLN 985 PYG 600 QAR 634 RON 946 RSD 941 RUB 643 RWF 646 \
     SAR 682 SBD 90 SCR 690 SDG 938 SEK 752 SGD 702 SHP 654 SLL 694 SOS 706 SRD 968 SSP 728 \
     STD 678 SVC 222 SYP 760 SZL 748 THB 764 TJS 972 TMT 934 TND 788 TOP 776 TRY 949 TTD 780 \
     TWD 901 TZS 834 UAH 980 UGX 800 USD 840 USN 997 UYI 940 UYU 858 UZS 860 VEF 937 VND 704 \
     VUV 548 WST 882 XAF 950 XAG 961 XAU 959 XBA 955 XBB 956 XBC 957 XBD 958 XCD 951 XDR 960 \
     XOF 952 XPD 964 XPF 953 XPT 962 XSU 994 XTS 963 XUA 965 XXX 999 YER 886 ZAR 710 ZMW 967 \
     ZWL 932 XBT 1000";

/// What a mark is called.
#[derive(Clone, Copy, Debug, PartialEq, Eq)]
pub struct Unit {
    /// The name of the unit type.
    pub name: &'static str,
    /// What the value is counted in.
    pub sent: Sent,
    /// The unit in which it is to be shown, where that is another matter than what it is sent in.
    pub display: Option<&'static str>,
}

/// What a value with a unit is counted in.
#[derive(Clone, Copy, Debug, PartialEq, Eq)]
pub enum Sent {
    /// A pure number.
    Number,
    /// The first unit of its type.
    Unit(&'static str),
    /// A currency.
    Money(&'static str),
    /// A currency for each of a unit.
    MoneyPer(&'static str, &'static str),
}

/// What a mark is called, or `None` where the manual has no name for it.
pub fn unit(mark: Mark) -> Option<Unit> {
    match mark.unit.checked_sub(MONEY) {
        None => plain(mark),
        Some(kind) => money(mark, kind),
    }
}

/// What a mark without a currency is called.
fn plain(mark: Mark) -> Option<Unit> {
    let (name, _) = *UNITS.get(usize::from(mark.unit)).filter(|_| mark.currency == 0)?;
    if mark.unit == 0 {
        return (mark.display == 0).then_some(Unit { name, sent: Sent::Number, display: None });
    }
    let display = Some(shown(mark.unit, mark.display)?);
    Some(Unit { name, sent: Sent::Unit(shown(mark.unit, 0)?), display })
}

/// What a mark of money is called: money alone where `kind` is 0, else by a unit.
fn money(mark: Mark, kind: u8) -> Option<Unit> {
    let currency = currency(mark.currency)?;
    let Some(kind) = kind.checked_sub(1) else {
        let money = Unit { name: "Money", sent: Sent::Money(currency), display: None };
        return (mark.display == 0).then_some(money);
    };
    let (name, by) = *PER.get(usize::from(kind))?;
    let sent = Sent::MoneyPer(currency, shown(by, mark.display)?);
    Some(Unit { name, sent, display: None })
}

/// The name of a display of a unit type.
fn shown(unit: u8, code: u8) -> Option<&'static str> {
    UNITS[usize::from(unit)].1.split_whitespace().nth(code.into())
}

/// The abbreviation of a currency.
fn currency(code: u16) -> Option<&'static str> {
    let mut words = CURRENCIES.split_whitespace();
    while let (Some(name), Some(number)) = (words.next(), words.next()) {
        if number.parse() == Ok(code) {
            return Some(name);
        }
    }
    None
}

#[cfg(test)]
mod tests;
