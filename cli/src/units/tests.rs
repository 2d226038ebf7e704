//! The names are held to what the library accepts, and to what stands in the manual's Appendix A.

use sim0mq::{Header, Mark, Value, Writer};

use super::{unit, Sent, Unit, CURRENCIES, UNITS};

/// Whether the library writes a double with this mark, as it does with those that reading accepts.
fn taken(mark: Mark) -> bool {
    let header = Header {
        ids: b"\x01\0\0\x01\0\0\x01\0\0\x01\0\0",
        number: 0,
        status: 1,
        fields: 1,
        count_type: None,
    };
    let mut out = [0; 64];
    let mut writer = Writer::open(&mut out, &header).expect("a header");
    writer.add_value(Value::DoubleUnit(1.0, mark)).is_ok()
}

/// What a mark of these numbers is called.
fn called(unit: u8, currency: u16, display: u8) -> Option<Unit> {
    super::unit(Mark { unit, currency, display })
}

#[test]
fn a_mark_has_a_name_exactly_where_the_library_takes_it() {
    let mut named = 0;
    for unit_type in 0..=255 {
        for display in 0..=255 {
            for currency in [0, 3, 978, 1000] {
                let mark = Mark { unit: unit_type, currency, display };
                assert_eq!(unit(mark).is_some(), taken(mark), "{unit_type} {currency} {display}");
                named += usize::from(unit(mark).is_some());
            }
        }
    }
    // 378 displays of 29 unit types; money, and its displays by six of them, in two currencies
    assert_eq!(named, 378 + 2 * (1 + 22 + 39 + 22 + 25 + 11 + 28));
}

#[test]
fn a_currency_has_a_name_exactly_where_the_library_takes_it() {
    for currency in 0..=u16::MAX {
        let mark = Mark { unit: 100, currency, display: 0 };
        assert_eq!(unit(mark).is_some(), taken(mark), "{currency}");
    }
    assert_eq!(CURRENCIES.split_whitespace().count(), 2 * 180);
}

#[test]
fn the_last_display_of_each_unit_type_is_the_manuals() {
    let last = [
        "",
        "STANDARD_GRAVITY",
        "SQUARE_DEGREE",
        "GRAD",
        "EAST_DEGREE",
        "HECTARE",
        "GRAM_PER_CENTIMETER_3",
        "MILLIAMPERE_SECOND",
        "STATAMPERE",
        "STATVOLT",
        "STATOHM",
        "STHENE_METER",
        "POUND_PER_SECOND",
        "LITER_PER_DAY",
        "STHENE",
        "RPM",
        "ANGSTROM",
        "ANGSTROM",
        "PER_ANGSTROM",
        "TONNE",
        "HORSEPOWER_METRIC",
        "TORR",
        "KNOT",
        "DEGREE_REAUMUR",
        "DEGREE_REAUMUR",
        "WEEK",
        "J2000_SECOND",
        "METER_KILOGRAM_FORCE",
        "CUBIC_LIGHT_YEAR",
    ];
    for ((name, displays), last) in UNITS.into_iter().zip(last) {
        assert_eq!(displays.split_whitespace().last().unwrap_or(""), last, "{name}");
    }
}

#[test]
fn names_are_those_of_the_manual() {
    let rows = [
        (1, 8, "Acceleration", "METER_PER_SECOND_2", "STANDARD_GRAVITY"),
        (3, 5, "Angle", "RADIAN", "DEGREE"),
        (4, 1, "Direction", "NORTH_RADIAN", "NORTH_DEGREE"),
        (5, 21, "Area", "SQUARE_METER", "HECTARE"),
        (7, 12, "ElectricalCharge", "COULOMB", "MILLIAMPERE_HOUR"),
        (10, 7, "ElectricalResistance", "OHM", "ABOHM"),
        (11, 25, "Energy", "JOULE", "KILOWATT_HOUR"),
        (13, 12, "FlowVolume", "CUBIC_METER_PER_SECOND", "LITER_PER_SECOND"),
        (15, 16, "Frequency", "HERTZ", "RPM"),
        (16, 11, "Length", "METER", "KILOMETER"),
        (16, 20, "Length", "METER", "LIGHTYEAR"),
        (17, 17, "Position", "METER", "NAUTICAL_MILE"),
        (17, 20, "Position", "METER", "LIGHT_YEAR"),
        (19, 6, "Mass", "KILOGRAM", "GRAM"),
        (19, 24, "Mass", "KILOGRAM", "TONNE"),
        (20, 15, "Power", "WATT", "HORSEPOWER_METRIC"),
        (21, 6, "Pressure", "PASCAL", "BAR"),
        (22, 13, "Speed", "METER_PER_SECOND", "KNOT"),
        (24, 1, "AbsoluteTemperature", "KELVIN", "DEGREE_CELSIUS"),
        (25, 7, "Duration", "SECOND", "MINUTE"),
        (26, 7, "Time", "BASE_SECOND", "EPOCH_SECOND"),
        (28, 17, "Volume", "CUBIC_METER", "LITER"),
    ];
    for (code, display, name, sent, shown) in rows {
        let wanted = Unit { name, sent: Sent::Unit(sent), display: Some(shown) };
        assert_eq!(called(code, 0, display), Some(wanted));
    }
    assert_eq!(
        called(0, 0, 0),
        Some(Unit { name: "Dimensionless", sent: Sent::Number, display: None })
    );
}

#[test]
fn money_is_counted_in_its_currency() {
    let money = |name, sent| Some(Unit { name, sent, display: None });
    assert_eq!(called(100, 978, 0), money("Money", Sent::Money("EUR")));
    assert_eq!(called(100, 776, 0), money("Money", Sent::Money("TOP")));
    assert_eq!(called(100, 1000, 0), money("Money", Sent::Money("XBT")));
    // the manual's example: 2500 euro for each hectare
    assert_eq!(called(101, 978, 21), money("MoneyPerArea", Sent::MoneyPer("EUR", "HECTARE")));
    let energy = Sent::MoneyPer("USD", "KILOWATT_HOUR");
    assert_eq!(called(102, 840, 25), money("MoneyPerEnergy", energy));
    assert_eq!(called(103, 578, 11), money("MoneyPerLength", Sent::MoneyPer("NOK", "KILOMETER")));
    assert_eq!(called(104, 756, 24), money("MoneyPerMass", Sent::MoneyPer("CHF", "TONNE")));
    assert_eq!(called(105, 392, 8), money("MoneyPerDuration", Sent::MoneyPer("JPY", "HOUR")));
    assert_eq!(called(106, 826, 17), money("MoneyPerVolume", Sent::MoneyPer("GBP", "LITER")));
}
