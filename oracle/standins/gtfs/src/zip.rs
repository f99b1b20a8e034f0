//! Stands in for gtfs/src/zip.rs, which is not published here. The functions compared hand `Manifest` and `Workspace`
//! to the scan and never look into them.
use crate::Table;

#[derive(Clone, Copy, Debug, PartialEq, Eq, Default)]
pub struct Manifest;
impl Manifest {
    pub fn get(&self, _: Table) -> Option<()> {
        unimplemented!()
    }
}
#[derive(Default)]
pub struct Workspace;
