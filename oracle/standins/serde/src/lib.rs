//! Stands in for the crate serde: the names that the published config.rs needs to compile. None is called.
pub use serde_derive::{Deserialize, Serialize};

pub trait Serialize {}
pub trait Deserializer<'de> {
    type Error;
}
pub trait Deserialize<'de>: Sized {
    fn deserialize<D: Deserializer<'de>>(deserializer: D) -> Result<Self, D::Error>;
}
pub mod de {
    pub struct IgnoredAny;
    pub trait DeserializeSeed<'de>: Sized {
        type Value;
        fn deserialize<D: crate::Deserializer<'de>>(self, deserializer: D) -> Result<Self::Value, D::Error>;
    }
}
