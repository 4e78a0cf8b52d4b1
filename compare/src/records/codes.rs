//! What a VIF means: the table of codes in "Records in a body" of
//! docs/PROTOCOL.md.

use super::chains::MORE;

/// The numbers are those of the table.
#[derive(Debug, Clone, Copy, PartialEq, Eq)]
#[repr(u8)]
pub enum Quantity {
    EnergyInWattHours = 1,
    EnergyInJoules = 2,
    Volume = 3,
    Mass = 4,
    OnTime = 5,
    OperatingTime = 6,
    PowerInWatts = 7,
    PowerInJoulesPerHour = 8,
    VolumeFlowPerHour = 9,
    VolumeFlowPerMinute = 10,
    VolumeFlowPerSecond = 11,
    MassFlow = 12,
    FlowTemperature = 13,
    ReturnTemperature = 14,
    TemperatureDifference = 15,
    OutsideTemperature = 16,
    Pressure = 17,
    Date = 18,
    DateAndTime = 19,
    HeatCostUnits = 20,
    AveragingTime = 21,
    ActualityTime = 22,
    FabricationNumber = 23,
    Identification = 24,
    BusAddress = 25,
    Extended = 26,
    MakersUnit = 27,
}

impl Quantity {
    pub fn number(self) -> u8 {
        self as u8
    }
}

#[derive(Debug, Clone, Copy, PartialEq, Eq)]
#[repr(u8)]
pub enum Unit {
    WattHour,
    Joule,
    CubicMetre,
    Kilogram,
    Second,
    Minute,
    Hour,
    Day,
    Watt,
    JoulePerHour,
    CubicMetrePerHour,
    CubicMetrePerMinute,
    CubicMetrePerSecond,
    KilogramPerHour,
    Celsius,
    Kelvin,
    Bar,
}

impl Unit {
    pub fn name(self) -> &'static str {
        match self {
            Unit::WattHour => "Wh",
            Unit::Joule => "J",
            Unit::CubicMetre => "m3",
            Unit::Kilogram => "kg",
            Unit::Second => "s",
            Unit::Minute => "min",
            Unit::Hour => "h",
            Unit::Day => "d",
            Unit::Watt => "W",
            Unit::JoulePerHour => "J/h",
            Unit::CubicMetrePerHour => "m3/h",
            Unit::CubicMetrePerMinute => "m3/min",
            Unit::CubicMetrePerSecond => "m3/s",
            Unit::KilogramPerHour => "kg/h",
            Unit::Celsius => "C",
            Unit::Kelvin => "K",
            Unit::Bar => "bar",
        }
    }
}

/// What the figure of a reading counts.
#[derive(Debug, Clone, Copy, PartialEq, Eq)]
pub struct Meaning {
    pub quantity: Quantity,
    pub unit: Option<Unit>,
    /// The figure counts ten to this power of the unit.
    pub power: i8,
}

/// What a VIF means, if anything.
#[inline]
pub fn meaning(vif: u8) -> Option<Meaning> {
    MEANINGS[usize::from(vif)]
}

/// How the codes of a row differ.
enum Scale {
    /// The first code has this power, each further code one more.
    Powers(Unit, i8),
    /// Seconds, minutes, hours, days.
    Times,
    /// Not at all, and there is no unit.
    Plain,
}

struct Row {
    quantity: Quantity,
    first_code: u8,
    last_code: u8,
    scale: Scale,
    needs_extension: bool,
}

const fn powers(quantity: Quantity, codes: [u8; 2], unit: Unit, lowest: i8) -> Row {
    row(quantity, codes, Scale::Powers(unit, lowest), false)
}

const fn times(quantity: Quantity, codes: [u8; 2]) -> Row {
    row(quantity, codes, Scale::Times, false)
}

const fn plain(quantity: Quantity, code: u8) -> Row {
    row(quantity, [code, code], Scale::Plain, false)
}

const fn extended(code: u8) -> Row {
    row(Quantity::Extended, [code, code], Scale::Plain, true)
}

const fn row(quantity: Quantity, codes: [u8; 2], scale: Scale, needs_extension: bool) -> Row {
    Row {
        quantity,
        first_code: codes[0],
        last_code: codes[1],
        scale,
        needs_extension,
    }
}

// Kept as a table: one row to a line.
#[rustfmt::skip]
const ROWS: [Row; 28] = [
    powers(Quantity::EnergyInWattHours, [0x00, 0x07], Unit::WattHour, -3),
    powers(Quantity::EnergyInJoules, [0x08, 0x0F], Unit::Joule, 0),
    powers(Quantity::Volume, [0x10, 0x17], Unit::CubicMetre, -6),
    powers(Quantity::Mass, [0x18, 0x1F], Unit::Kilogram, -3),
    times(Quantity::OnTime, [0x20, 0x23]),
    times(Quantity::OperatingTime, [0x24, 0x27]),
    powers(Quantity::PowerInWatts, [0x28, 0x2F], Unit::Watt, -3),
    powers(Quantity::PowerInJoulesPerHour, [0x30, 0x37], Unit::JoulePerHour, 0),
    powers(Quantity::VolumeFlowPerHour, [0x38, 0x3F], Unit::CubicMetrePerHour, -6),
    powers(Quantity::VolumeFlowPerMinute, [0x40, 0x47], Unit::CubicMetrePerMinute, -7),
    powers(Quantity::VolumeFlowPerSecond, [0x48, 0x4F], Unit::CubicMetrePerSecond, -9),
    powers(Quantity::MassFlow, [0x50, 0x57], Unit::KilogramPerHour, -3),
    powers(Quantity::FlowTemperature, [0x58, 0x5B], Unit::Celsius, -3),
    powers(Quantity::ReturnTemperature, [0x5C, 0x5F], Unit::Celsius, -3),
    powers(Quantity::TemperatureDifference, [0x60, 0x63], Unit::Kelvin, -3),
    powers(Quantity::OutsideTemperature, [0x64, 0x67], Unit::Celsius, -3),
    powers(Quantity::Pressure, [0x68, 0x6B], Unit::Bar, -3),
    plain(Quantity::Date, 0x6C),
    plain(Quantity::DateAndTime, 0x6D),
    plain(Quantity::HeatCostUnits, 0x6E),
    times(Quantity::AveragingTime, [0x70, 0x73]),
    times(Quantity::ActualityTime, [0x74, 0x77]),
    plain(Quantity::FabricationNumber, 0x78),
    plain(Quantity::Identification, 0x79),
    plain(Quantity::BusAddress, 0x7A),
    extended(0x7B),
    extended(0x7D),
    plain(Quantity::MakersUnit, 0x7F),
];

/// The rows, spread out over all values of a VIF once and for all.
static MEANINGS: [Option<Meaning>; 256] = spread();

const fn spread() -> [Option<Meaning>; 256] {
    let mut meanings = [None; 256];
    let mut index = 0;
    while index < ROWS.len() {
        let row = &ROWS[index];
        let mut code = row.first_code;
        while code <= row.last_code {
            let meaning = Some(row.meaning(code - row.first_code));
            if !row.needs_extension {
                meanings[code as usize] = meaning;
            }
            meanings[(code | MORE) as usize] = meaning;
            code += 1;
        }
        index += 1;
    }
    meanings
}

impl Row {
    const fn meaning(&self, n: u8) -> Meaning {
        let (unit, power) = match self.scale {
            Scale::Powers(unit, lowest) => (Some(unit), lowest + n as i8),
            Scale::Times => (Some(time_unit(n)), 0),
            Scale::Plain => (None, 0),
        };
        Meaning {
            quantity: self.quantity,
            unit,
            power,
        }
    }
}

const fn time_unit(n: u8) -> Unit {
    match n {
        0 => Unit::Second,
        1 => Unit::Minute,
        2 => Unit::Hour,
        _ => Unit::Day,
    }
}

#[cfg(test)]
mod tests {
    use super::*;

    fn shown(vif: u8) -> Option<(u8, &'static str, i8)> {
        meaning(vif).map(|meaning| {
            let unit = meaning.unit.map_or("-", Unit::name);
            (meaning.quantity.number(), unit, meaning.power)
        })
    }

    #[test]
    fn groups_of_eight_and_of_four_start_and_end_where_the_table_says() {
        assert_eq!(shown(0x00), Some((1, "Wh", -3)));
        assert_eq!(shown(0x07), Some((1, "Wh", 4)));
        assert_eq!(shown(0x08), Some((2, "J", 0)));
        assert_eq!(shown(0x13), Some((3, "m3", -3)));
        assert_eq!(shown(0x3F), Some((9, "m3/h", 1)));
        assert_eq!(shown(0x47), Some((10, "m3/min", 0)));
        assert_eq!(shown(0x48), Some((11, "m3/s", -9)));
        assert_eq!(shown(0x57), Some((12, "kg/h", 4)));
        assert_eq!(shown(0x5A), Some((13, "C", -1)));
        assert_eq!(shown(0x5C), Some((14, "C", -3)));
        assert_eq!(shown(0x63), Some((15, "K", 0)));
        assert_eq!(shown(0x6B), Some((17, "bar", 0)));
    }

    #[test]
    fn times_have_units_by_n() {
        assert_eq!(shown(0x20), Some((5, "s", 0)));
        assert_eq!(shown(0x25), Some((6, "min", 0)));
        assert_eq!(shown(0x72), Some((21, "h", 0)));
        assert_eq!(shown(0x77), Some((22, "d", 0)));
    }

    #[test]
    fn some_codes_have_no_meaning_and_two_need_bit_7() {
        let refused: Vec<u8> = (0x00..=0xFF)
            .filter(|&vif| meaning(vif).is_none())
            .collect();
        assert_eq!(refused, [0x6F, 0x7B, 0x7C, 0x7D, 0x7E, 0xEF, 0xFC, 0xFE]);
        assert_eq!(shown(0xFB), Some((26, "-", 0)));
        assert_eq!(shown(0xFD), Some((26, "-", 0)));
        assert_eq!(shown(0x7F), Some((27, "-", 0)));
    }

    #[test]
    fn bit_7_changes_no_other_meaning() {
        for code in (0x00..=0x7A).chain([0x7C, 0x7E, 0x7F]) {
            assert_eq!(meaning(code), meaning(code | 0x80), "{code:02X}");
        }
    }
}
