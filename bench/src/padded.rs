//! A text with zero bytes behind it, which simdjson and rapidjson ask for.

extern "C" {
    /// How many bytes behind a text simdjson may read.
    fn peer_simdjson_padding() -> usize;
}

pub struct Padded {
    bytes: Vec<u8>,
    length: usize,
}

impl Padded {
    pub fn new(text: String) -> Padded {
        let length = text.len();
        let mut bytes = text.into_bytes();
        bytes.resize(length + 1 + unsafe { peer_simdjson_padding() }, 0);
        Padded { bytes, length }
    }

    pub fn text(&self) -> &[u8] {
        &self.bytes[..self.length]
    }

    pub fn len(&self) -> usize {
        self.length
    }

    /// The first byte, with leave to read into the padding.
    pub fn start(&self) -> *const u8 {
        self.bytes.as_ptr()
    }
}
