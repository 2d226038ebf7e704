use super::super::{value, view, Refusal, Value};
use super::{with_fields, with_payload, S};

/// A value without a mark.
fn bare(kind: u8, bits: u64) -> Value {
    Value { kind, bits, ..Value::default() }
}

#[test]
fn the_example() {
    assert_eq!(value(&S, 0), Ok(bare(5, 0x3FC9_9999_9999_999A)));
    assert_eq!(view(&S, 0), Ok((69, 8)));
    assert_eq!(value(&S, 1), Err(Refusal::new(16, 0)));
    assert_eq!(view(&S, 1), Err(Refusal::new(16, 0)));
    assert_eq!(value(&S, 1 << 32), Err(Refusal::new(16, 0)));
    assert_eq!(view(&S, u64::MAX), Err(Refusal::new(16, 0)));
    assert_eq!(value(&S[..76], 9), Err(Refusal::new(1, 76)));
    assert_eq!(view(&S[..76], 9), Err(Refusal::new(1, 76)));
}

#[test]
fn every_kind_in_its_own_width() {
    let fields: [(&[u8], Value); 9] = [
        (&[0, 0xFF], bare(0, 0xFF)),
        (&[1, 0x80, 0], bare(1, 0x8000)),
        (&[2, 0, 0, 3, 56], bare(2, 824)),
        (&[3, 0xFF, 0xFF, 0xFF, 0xFF, 0xFF, 0xFF, 0xFF, 0xFE], bare(3, u64::MAX - 1)),
        (&[4, 0x47, 0x6A, 0x60, 0], bare(4, 60000f32.to_bits().into())),
        (&[5, 0x40, 0xED, 0x4C, 0, 0, 0, 0, 0], bare(5, 60000f64.to_bits())),
        (&[6, 1], bare(6, 1)),
        (&[7, b'x'], bare(7, 120)),
        (&[8, 0x20, 0xAC], bare(8, 0x20AC)),
    ];
    let payload: Vec<u8> = fields.iter().flat_map(|(field, _)| field.to_vec()).collect();
    let message = with_fields(9, &payload);
    for (k, (_, expected)) in fields.into_iter().enumerate() {
        assert_eq!(value(&message, k as u64), Ok(expected));
    }
}

#[test]
fn values_with_marks() {
    let length = with_payload(&[25, 16, 11, 0x47, 0x6A, 0x60, 0]);
    let expected = Value { unit: 16, display: 11, ..bare(9, 60000f32.to_bits().into()) };
    assert_eq!(value(&length, 0), Ok(expected));
    let land = with_payload(&[26, 101, 3, 0xD2, 21, 0x40, 0xA3, 0x88, 0, 0, 0, 0, 0]);
    let expected = Value { unit: 101, currency: 978, display: 21, ..bare(10, 2500f64.to_bits()) };
    assert_eq!(value(&land, 0), Ok(expected));
    assert_eq!(view(&land, 0), Ok((73, 8)));
    let money = with_payload(&[26, 100, 3, 0x48, 0xC0, 0, 0, 0, 0, 0, 0, 0]);
    let expected = Value { unit: 100, currency: 840, ..bare(10, (-2f64).to_bits()) };
    assert_eq!(value(&money, 0), Ok(expected));
}

#[test]
fn not_a_number() {
    let float = |bits: u32| with_payload(&[&[4], &bits.to_be_bytes()[..]].concat());
    let double = |bits: u64| with_payload(&[&[26, 16, 0], &bits.to_be_bytes()[..]].concat());
    assert_eq!(value(&float(0x7F80_0001), 0), Ok(bare(11, 4)));
    assert_eq!(value(&float(0xFFC0_0000), 0), Ok(bare(11, 4)));
    assert_eq!(value(&float(0x7F80_0000), 0), Ok(bare(4, 0x7F80_0000)));
    assert_eq!(value(&double(0xFFF0_0000_0000_0001), 0), Ok(bare(11, 26)));
    let infinite = Value { unit: 16, ..bare(10, 0xFFF0_0000_0000_0000) };
    assert_eq!(value(&double(0xFFF0_0000_0000_0000), 0), Ok(infinite));
}

#[test]
fn only_scalars_have_a_value() {
    let text = with_payload(b"\x09\0\0\0\x02Hi");
    assert_eq!(value(&text, 0), Err(Refusal::new(17, 0)));
    assert_eq!(value(&text, 1), Err(Refusal::new(16, 0)));
    assert_eq!(view(&text, 0), Ok((73, 2)));
    let empty = with_payload(&[27, 0, 0, 0, 0, 100, 0, 8]);
    assert_eq!(value(&empty, 0), Err(Refusal::new(17, 0)));
    assert_eq!(view(&empty, 0), Ok((76, 0)));
}
