/// A validated snapshot scanner: full forward ZIP or selective immutable ranges.
#[allow(async_fn_in_trait)]
pub trait Tables {
    async fn scan(
        &mut self,
        tables: &[Table],
        expected: Option<&zip::Manifest>,
        workspace: &mut zip::Workspace,
        visit: impl FnMut(gtfs::csv::Record<'_>) -> Result<(), Error>,
    ) -> Result<zip::Manifest, Error>;

    /// Scan only rows matching an identity field. Sources may reject plain rows
    /// before materializing them; returned rows and the ZIP remain validated.
    async fn scan_matching(
        &mut self,
        tables: &[Table],
        expected: Option<&zip::Manifest>,
        workspace: &mut zip::Workspace,
        column: Column,
        mut keep: impl gtfs::csv::Filter,
        mut visit: impl FnMut(gtfs::csv::Record<'_>) -> Result<(), Error>,
    ) -> Result<zip::Manifest, Error> {
        self.scan(tables, expected, workspace, |row| {
            if row
                .get(column)
                .is_some_and(|value| keep.matches(value.as_bytes()))
            {
                visit(row)?;
            }
            Ok(())
        })
        .await
    }
}
