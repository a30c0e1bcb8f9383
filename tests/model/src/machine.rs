//! The four calls as a trait, so that the comparison runs on the library, the model and its wrong variants alike.

use model::{Granted, Loaded, Parameters, Written};

#[allow(clippy::too_many_arguments)]
pub trait Machine {
    fn load(&self, parameters: Parameters, text: &[u8], image: &mut [u32]) -> Loaded;

    fn start(
        &self,
        parameters: Parameters,
        image: &[u32],
        registers: &mut [i32],
        cells: &mut [i32],
        record: &mut [i64],
    ) -> u32;

    fn grant(
        &self,
        record: &mut [i64],
        cycles: u64,
        image: &[u32],
        input: &[u8],
        registers: &mut [i32],
        cells: &mut [i32],
        output: &mut [i32],
    ) -> Granted;

    fn decimal(&self, value: i32, bytes: &mut [u8]) -> Written;
}

/// The proved library.
pub struct Library;

fn parameters_of(parameters: Parameters) -> tak::Parameters {
    let Parameters { k, n, s, b, t } = parameters;
    tak::Parameters { k, n, s, b, t }
}

impl Machine for Library {
    fn load(&self, parameters: Parameters, text: &[u8], image: &mut [u32]) -> Loaded {
        let tak::raw::Loaded {
            refusal,
            lines,
            line,
        } = tak::raw::load(parameters_of(parameters), text, image);
        Loaded {
            refusal,
            lines,
            line,
        }
    }

    fn start(
        &self,
        parameters: Parameters,
        image: &[u32],
        registers: &mut [i32],
        cells: &mut [i32],
        record: &mut [i64],
    ) -> u32 {
        tak::raw::start(parameters_of(parameters), image, registers, cells, record)
    }

    fn grant(
        &self,
        record: &mut [i64],
        cycles: u64,
        image: &[u32],
        input: &[u8],
        registers: &mut [i32],
        cells: &mut [i32],
        output: &mut [i32],
    ) -> Granted {
        let tak::raw::Granted {
            refusal,
            ending,
            values,
            spent,
        } = tak::raw::grant(record, cycles, image, input, registers, cells, output);
        Granted {
            refusal,
            ending,
            values,
            spent,
        }
    }

    fn decimal(&self, value: i32, bytes: &mut [u8]) -> Written {
        let tak::raw::Written { refusal, count } = tak::raw::decimal(value, bytes);
        Written { refusal, count }
    }
}

/// The model.
pub struct Model;

impl Machine for Model {
    fn load(&self, parameters: Parameters, text: &[u8], image: &mut [u32]) -> Loaded {
        model::load(parameters, text, image)
    }

    fn start(
        &self,
        parameters: Parameters,
        image: &[u32],
        registers: &mut [i32],
        cells: &mut [i32],
        record: &mut [i64],
    ) -> u32 {
        model::start(parameters, image, registers, cells, record)
    }

    fn grant(
        &self,
        record: &mut [i64],
        cycles: u64,
        image: &[u32],
        input: &[u8],
        registers: &mut [i32],
        cells: &mut [i32],
        output: &mut [i32],
    ) -> Granted {
        model::grant(record, cycles, image, input, registers, cells, output)
    }

    fn decimal(&self, value: i32, bytes: &mut [u8]) -> Written {
        model::decimal(value, bytes)
    }
}
