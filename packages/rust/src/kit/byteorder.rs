//! Integers in bytes, in an order of bytes that is a type.

macro_rules! orders {
    ($($order:ident: $write_u32:ident $read_u32:ident $read_u64:ident;)*) => {$(
        pub struct $order;

        impl ByteOrder for $order {
            #[inline(always)]
            fn read_u32(bytes: &[u8]) -> u32 {
                u32::$read_u32(*bytes.first_chunk().expect("4 bytes"))
            }

            #[inline(always)]
            fn read_u64(bytes: &[u8]) -> u64 {
                u64::$read_u64(*bytes.first_chunk().expect("8 bytes"))
            }

            #[inline(always)]
            fn write_u32(bytes: &mut [u8], number: u32) {
                *bytes.first_chunk_mut().expect("4 bytes") = number.$write_u32();
            }
        }
    )*};
}

/// Reads from the first bytes of a slice, or writes there.
pub trait ByteOrder {
    fn read_u32(bytes: &[u8]) -> u32;
    fn read_u64(bytes: &[u8]) -> u64;
    fn write_u32(bytes: &mut [u8], number: u32);
}

orders! {
    LittleEndian: to_le_bytes from_le_bytes from_le_bytes;
    BigEndian: to_be_bytes from_be_bytes from_be_bytes;
}
