//! Stands in for display/src/clock.rs, which is not published here. The driver `query` asks it for service days; the
//! functions compared get the start and the three epochs from the load instead. None of these is called.
use gtfs::Date;

pub struct Zone<'a>(core::marker::PhantomData<&'a ()>);
impl Zone<'_> {
    pub fn service_date(&self, _: i64) -> Option<Date> {
        unimplemented!()
    }
    pub fn service_epoch(&self, _: Date) -> Option<i64> {
        unimplemented!()
    }
}
pub fn valid_utc(_: i64) -> bool {
    unimplemented!()
}
pub fn previous(_: Date) -> Option<Date> {
    unimplemented!()
}
pub fn next(_: Date) -> Option<Date> {
    unimplemented!()
}
