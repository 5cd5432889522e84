//! Stand-in for the base64 crate: the standard alphabet, padded.

pub mod prelude {
    pub trait Engine {
        fn encode(&self, data: impl AsRef<[u8]>) -> String;
    }

    pub struct Standard;

    pub const BASE64_STANDARD: Standard = Standard;

    impl Engine for Standard {
        fn encode(&self, data: impl AsRef<[u8]>) -> String {
            const LETTERS: &[u8; 64] =
                b"ABCDEFGHIJKLMNOPQRSTUVWXYZabcdefghijklmnopqrstuvwxyz0123456789+/";
            let mut out = String::new();
            for part in data.as_ref().chunks(3) {
                let b = [part[0], *part.get(1).unwrap_or(&0), *part.get(2).unwrap_or(&0)];
                let bits = u32::from(b[0]) << 16 | u32::from(b[1]) << 8 | u32::from(b[2]);
                for i in 0..4 {
                    if i <= part.len() {
                        out.push(LETTERS[(bits >> (18 - 6 * i) & 63) as usize] as char);
                    } else {
                        out.push('=');
                    }
                }
            }
            out
        }
    }
}

#[cfg(test)]
mod tests {
    use super::prelude::*;

    #[test]
    fn known_answers() {
        assert_eq!(BASE64_STANDARD.encode("f"), "Zg==");
        assert_eq!(BASE64_STANDARD.encode("fo"), "Zm8=");
        assert_eq!(BASE64_STANDARD.encode("foobar"), "Zm9vYmFy");
    }
}
