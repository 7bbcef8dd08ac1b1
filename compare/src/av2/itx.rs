//! The decoder's 8-point ADST numbers, sample by sample down and frequency by frequency across. The
//! Rust's own file isn't at hand: these are the numbers that Mizdrek has decided on.

#[rustfmt::skip]
pub static ADST8_KERNEL: [i8; 64] = [
    11,  34,  54,  71,  84,  88,  79,  50,
    28,  74,  89,  68,  17, -44, -83, -69,
    44,  89,  48, -41, -89, -44,  50,  81,
    58,  76, -34, -86,  10,  88,   6, -84,
    70,  39, -87,   1,  86, -44, -59,  78,
    79, -12, -66,  87, -35, -44,  86, -62,
    86, -58,  12,  38, -75,  88, -74,  40,
    89, -86,  79, -70,  58, -44,  29, -14,
];
