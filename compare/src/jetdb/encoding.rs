
/// Stands for the registry crates `codepage` and `encoding_rs`: it knows no code page, so that encoding.rs itself
/// falls back to Latin-1, where each byte is the character of the same number. The bytes of a name can then be had back.
mod codepage {
    pub struct Encoding;

    impl Encoding {
        pub fn decode_without_bom_handling(&self, _: &[u8]) -> (std::borrow::Cow<'static, str>, bool) {
            unreachable!("no code page is known here")
        }
    }

    pub fn to_encoding(_: u16) -> Option<Encoding> {
        None
    }
}
