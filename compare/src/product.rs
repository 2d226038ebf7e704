//! The implementation behind the C boundary, by the raw calls of `bindings/rust`.

mod parts;

use crate::peer::{State, Value};
use crate::subject::{Opening, Subject};
use sim0mq::raw;

/// The implementation that is linked in.
#[derive(Clone, Copy, Debug)]
pub struct Product;

/// A writer's state, as the boundary takes it.
fn taken(state: State) -> raw::State {
    let State { written, declared, added, closed } = state;
    raw::State { written, declared, added, closed: u8::from(closed) }
}

/// A scalar, as the boundary takes it.
fn scalar(value: Value) -> raw::Scalar {
    let Value { kind, bits, unit, currency, display } = value;
    raw::Scalar { kind, bits, unit, currency, display }
}

impl Subject for Product {
    fn name(&self) -> &'static str {
        "product"
    }

    fn read(&self, message: &[u8], table: &mut [u32], answer: &mut [u64]) -> u32 {
        raw::read(message, table, answer)
    }

    fn judge(&self, message: &[u8], answer: &mut [u64]) -> u32 {
        raw::judge(message, answer)
    }

    fn value(&self, message: &[u8], k: u64, answer: &mut [u64]) -> u32 {
        raw::value(message, k, answer)
    }

    fn view(&self, message: &[u8], k: u64, answer: &mut [u64]) -> u32 {
        raw::view(message, k, answer)
    }

    fn blank(&self, message: &[u8], out: &mut [u8], answer: &mut [u64]) -> u32 {
        raw::blank(message, out, answer)
    }

    fn open(&self, opening: &Opening, out: &mut [u8], answer: &mut [u64]) -> u32 {
        let Opening { ids, number, status, fields, kind } = *opening;
        let asked = raw::Opening { ids, number, status, fields, count_type: kind };
        raw::open(&asked, out, answer)
    }

    fn add(&self, state: State, field: &[u8], out: &mut [u8], answer: &mut [u64]) -> u32 {
        raw::add(taken(state), field, out, answer)
    }

    fn add_scalar(&self, state: State, value: Value, out: &mut [u8], answer: &mut [u64]) -> u32 {
        raw::add_scalar(taken(state), scalar(value), out, answer)
    }

    fn close(&self, state: State, answer: &mut [u64]) -> u32 {
        raw::close(taken(state), answer)
    }
}
