//! What the tests share: what the wrapper says of a case in slices.
#![allow(dead_code)]

use caydubeesh::{Record, Refusal};
use comparison::slices::Slices;

/// A case in slices as the wrapper takes it, and the wrapper's answers as plain numbers.
pub trait Wrapped {
    fn record(&self) -> Record;
    fn check(&self) -> Result<(), Refusal>;
    fn verdict(&self) -> Result<[i64; 4], Refusal>;
    /// The lines of fresh water and of salt water.
    fn table(&self, marks: &[i64]) -> Result<[[i64; 9]; 2], Refusal>;
    fn report(&self, number: usize) -> Result<[f64; 5], Refusal>;
}

impl Wrapped for Slices {
    fn record(&self) -> Record {
        let number = |place: usize| self.record[place];
        Record {
            columns: number(0),
            rows: number(1),
            layers: number(2),
            delta: number(3),
            fresh_weight: number(4),
            salt_weight: number(5),
            flag: number(6),
            step: number(7),
            tolerance: number(8),
        }
    }

    fn check(&self) -> Result<(), Refusal> {
        caydubeesh::check(&self.record(), &self.columns, &self.rows, &self.slots)
    }

    fn verdict(&self) -> Result<[i64; 4], Refusal> {
        let told = caydubeesh::verdict(&self.record(), &self.columns, &self.rows, &self.slots)?;
        Ok([told.code, told.block as i64, told.count as i64, told.largest])
    }

    fn table(&self, marks: &[i64]) -> Result<[[i64; 9]; 2], Refusal> {
        let table = caydubeesh::zone_table(&self.record(), &self.columns, &self.rows, &self.slots, marks)?;
        Ok([table.fresh, table.salt]
            .map(|x| [x.storage, x.edge_in, x.edge_out, x.converted, x.wells, x.recharge, x.boundary, x.supply, x.error]))
    }

    fn report(&self, number: usize) -> Result<[f64; 5], Refusal> {
        let told = caydubeesh::report(&self.record(), &self.columns, &self.rows, &self.slots, number)?;
        Ok([told.fresh_head, told.salt_head, told.interface, told.fresh_thickness, told.salt_thickness])
    }
}

/// A refusal as `Err` of the wrapper has it.
pub fn refused<T>(number: u64, block: usize) -> Result<T, Refusal> {
    Err(Refusal { number, block })
}
