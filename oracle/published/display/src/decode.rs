//! Stands in for display/src/config/decode.rs, which is not published here. It sits in this folder because the
//! published config.rs says `mod decode;`. It decodes stored settings, which is never called.
pub struct ConfigSeed<'a>(pub &'a mut super::Config);
impl<'de> serde::de::DeserializeSeed<'de> for ConfigSeed<'_> {
    type Value = ();
    fn deserialize<D: serde::Deserializer<'de>>(self, _: D) -> Result<(), D::Error> {
        let _ = self.0;
        unimplemented!()
    }
}
