//! The four calls of both sides under one type.

use model::{Granted, Loaded, Parameters, Written};

type Start = fn(Parameters, &[u32], &mut [i32], &mut [i32], &mut [i64]) -> u32;
type Grant = fn(&mut [i64], u64, &[u32], &[u8], &mut [i32], &mut [i32], &mut [i32]) -> Granted;

pub struct Calls {
    pub load: fn(Parameters, &[u8], &mut [u32]) -> Loaded,
    pub start: Start,
    pub grant: Grant,
    pub decimal: fn(i32, &mut [u8]) -> Written,
}

pub const MODEL: Calls = Calls {
    load: model::load,
    start: model::start,
    grant: model::grant,
    decimal: model::decimal,
};

pub const LIBRARY: Calls = Calls {
    load: |parameters, text, image| {
        let tak::raw::Loaded {
            refusal,
            lines,
            line,
        } = tak::raw::load(parameters_of(parameters), text, image);
        Loaded {
            refusal,
            lines,
            line,
        }
    },
    start: |parameters, image, registers, cells, record| {
        tak::raw::start(parameters_of(parameters), image, registers, cells, record)
    },
    grant: |record, cycles, image, input, registers, cells, output| {
        let tak::raw::Granted {
            refusal,
            ending,
            values,
            spent,
        } = tak::raw::grant(record, cycles, image, input, registers, cells, output);
        Granted {
            refusal,
            ending,
            values,
            spent,
        }
    },
    decimal: |value, bytes| {
        let tak::raw::Written { refusal, count } = tak::raw::decimal(value, bytes);
        Written { refusal, count }
    },
};

fn parameters_of(parameters: Parameters) -> tak::Parameters {
    let Parameters { k, n, s, b, t } = parameters;
    tak::Parameters { k, n, s, b, t }
}
