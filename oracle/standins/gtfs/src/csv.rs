//! Stands in for gtfs/src/csv.rs, which parses CSV and needs crates that are not at hand; 01 leaves csv out. `Column`
//! and `Filter` are the published text. `Record` holds the fields of one row as text; the published
//! `Record::stop` of gtfs.rs reads them through `get` and `required`, which answer as the published ones do.
use crate::{Error, Table};

include!("../../../published/excerpts/filter.rs");
include!("../../../published/excerpts/columns.rs");

#[derive(Clone, Copy)]
pub struct Record<'a> {
    pub(crate) table: Table,
    fields: &'a [(Column, &'a str)],
}
impl<'a> Record<'a> {
    pub fn new(table: Table, fields: &'a [(Column, &'a str)]) -> Self {
        Self { table, fields }
    }
    pub fn table(self) -> Table {
        self.table
    }
    pub fn get(self, column: Column) -> Option<&'a str> {
        let field = self.fields.iter().find(|f| f.0 == column)?.1;
        (!field.is_empty()).then_some(field)
    }
    pub fn required(self, column: Column) -> Result<&'a str, Error> {
        self.get(column).ok_or(Error::InvalidField(column.name()))
    }
}
