// Stands in for the crate fixed: the two fixed-point numbers in use, each over its bits.

extern crate az;

pub mod types {
    use az::Cast;
    use std::ops::Add;

    /// Signed, 48 bits before the point and 16 behind it.
    #[derive(Debug, Clone, Copy, PartialEq, Eq, PartialOrd, Ord, Default)]
    pub struct I48F16(i64);

    impl I48F16 {
        pub const fn from_bits(bits: i64) -> Self {
            Self(bits)
        }

        pub const fn to_bits(self) -> i64 {
            self.0
        }
    }

    impl Add for I48F16 {
        type Output = Self;

        fn add(self, other: Self) -> Self {
            Self(self.0 + other.0)
        }
    }

    impl Cast<f64> for I48F16 {
        fn cast(self) -> f64 {
            self.0 as f64 / 65536.0
        }
    }

    /// Signed, 96 bits before the point and 32 behind it.
    #[derive(Debug, Clone, Copy, PartialEq, Eq, PartialOrd, Ord, Default)]
    pub struct I96F32(i128);

    impl I96F32 {
        pub const fn from_bits(bits: i128) -> Self {
            Self(bits)
        }

        pub const fn to_bits(self) -> i128 {
            self.0
        }
    }
}
