//! Each operation beside a plain definition on lanes: on all bytes or pairs of bytes, and on random lanes.

use super::*;
use std::fmt::Debug;
use std::vec::Vec;

// The next of a list of random numbers (SplitMix64), by the one before.
const fn next(seed: u64) -> u64 {
    seed.wrapping_add(0x9e37_79b9_7f4a_7c15)
}

const fn mixed(number: u64) -> u64 {
    let x = (number ^ (number >> 30)).wrapping_mul(0xbf58_476d_1ce4_e5b9);
    let x = (x ^ (x >> 27)).wrapping_mul(0x94d0_49bb_1331_11eb);
    x ^ (x >> 31)
}

trait Cut: Lane + Debug + Eq {
    /// The lowest bits of a number.
    fn cut(number: u64) -> Self;
}

macro_rules! cut {
    ($($lane:ident)*) => {$(
        impl Cut for $lane {
            fn cut(number: u64) -> $lane {
                number as $lane
            }
        }
    )*};
}
cut! { u8 u32 u64 }

// Vectors whose lanes are random, or at an end of their range.
fn some_vectors<T: Cut, const N: usize>(mut seed: u64) -> Vec<[T; N]> {
    let ends = [0, 1, 0x7f, 0x80, 0xff, 0x7fff_ffff, 0x8000_0000, 0xffff_ffff, 1 << 63, !0];
    let mut lane = |i: u64| {
        seed = next(seed);
        let random = mixed(seed);
        T::cut(if i < 10 {
            ends[i as usize]
        } else if i < 30 {
            ends[(random % 10) as usize]
        } else {
            random
        })
    };
    (0..100).map(|i| [(); N].map(|()| lane(i))).collect()
}

// Vectors of two lanes for each pair of bytes: the pair stands in one of the lanes.
fn all_pairs<const N: usize>() -> impl Iterator<Item = ([u8; N], [u8; N])> {
    (0..65536).step_by(N).map(|first| {
        let lanes = core::array::from_fn(|i| first + i);
        (lanes.map(|pair: usize| (pair / 256) as u8), lanes.map(|pair| pair as u8))
    })
}

// An operation on two vectors, and what it does to two lanes.
fn on_pairs<T: Cut, const N: usize>(
    pairs: impl Iterator<Item = ([T; N], [T; N])>,
    operation: impl Fn(Simd<T, N>, Simd<T, N>) -> Simd<T, N>,
    on_lanes: impl Fn(T, T) -> T,
) {
    for (x, y) in pairs {
        let found = operation(Simd::from_array(x), Simd::from_array(y)).to_array();
        assert_eq!(found, core::array::from_fn(|i| on_lanes(x[i], y[i])), "{x:?} {y:?}");
    }
}

fn some_pairs<T: Cut, const N: usize>() -> impl Iterator<Item = ([T; N], [T; N])> {
    some_vectors(1).into_iter().zip(some_vectors(2).into_iter().rev())
}

// An operation by each of the counts, and what it does to a lane.
fn by_counts<T: Cut, const N: usize>(
    counts: core::ops::Range<u32>,
    vectors: &[[T; N]],
    operation: impl Fn(Simd<T, N>, u32) -> Simd<T, N>,
    on_lane: impl Fn(T, u32) -> T,
) {
    for (count, lanes) in counts.flat_map(|count| vectors.iter().map(move |lanes| (count, *lanes))) {
        let found = operation(Simd::from_array(lanes), count).to_array();
        assert_eq!(found, lanes.map(|lane| on_lane(lane, count)), "{count} {lanes:?}");
    }
}

fn copies<T: Cut, const N: usize>() {
    for lanes in some_vectors::<T, N>(3) {
        assert_eq!(Simd::<T, N>::splat(lanes[0]).to_array(), [lanes[0]; N]);
        let mut list = [lanes, lanes].concat();
        list.rotate_left(1);
        let vector = Simd::<T, N>::from_slice(&list);
        assert_eq!(vector.to_array(), list[..N]);
        let mut written = std::vec![T::cut(5); N + 1];
        vector.copy_to_slice(&mut written);
        assert_eq!(written, [&list[..N], &[T::cut(5)]].concat());
    }
}

fn bytes<const N: usize>() {
    copies::<u8, N>();
    on_pairs(all_pairs::<N>().chain(some_pairs()), |x, y| x + y, u8::wrapping_add);
    on_pairs(all_pairs::<N>().chain(some_pairs()), |x, y| x - y, u8::wrapping_sub);
    on_pairs(all_pairs::<N>().chain(some_pairs()), |x, y| x & y, |x, y| x & y);
    on_pairs(all_pairs::<N>().chain(some_pairs()), |x, y| x ^ y, |x, y| x ^ y);
    let all: Vec<[u8; N]> = all_pairs().map(|(_, bytes)| bytes).take(256).collect();
    by_counts(0..8, &all, |x, count| x << Simd::splat(count as u8), |x, count| x << count);
    by_counts(0..8, &all, |x, count| x >> Simd::splat(count as u8), |x, count| x >> count);
}

fn words<const N: usize>() {
    copies::<u32, N>();
    on_pairs(some_pairs::<u32, N>(), |x, y| x + y, u32::wrapping_add);
    on_pairs(some_pairs::<u32, N>(), |x, y| x | y, |x, y| x | y);
    on_pairs(some_pairs::<u32, N>(), |x, y| x ^ y, |x, y| x ^ y);
    let some = some_vectors::<u32, N>(4);
    by_counts(0..32, &some, |x, count| x << Simd::splat(count), |x, count| x << count);
    by_counts(0..32, &some, |x, count| x >> Simd::splat(count), |x, count| x >> count);
    by_counts(1..32, &some, Simd::rotate_left, u32::rotate_left);
}

fn long_words<const N: usize>() {
    copies::<u64, N>();
    let some = some_vectors::<u64, N>(5);
    by_counts(0..64, &some, |x, count| x << Simd::splat(count.into()), |x, count| x << count);
    by_counts(0..64, &some, |x, count| x >> Simd::splat(count.into()), |x, count| x >> count);
}

#[test]
fn operations_on_lanes() {
    bytes::<4>();
    bytes::<8>();
    bytes::<16>();
    bytes::<32>();
    bytes::<64>();
    words::<4>();
    words::<8>();
    long_words::<2>();
    long_words::<4>();
}

fn look_ups<const N: usize>() {
    for (number, tables) in some_vectors::<u8, N>(6).into_iter().enumerate() {
        // The places below 16 and from 128 on, of which each comes to each lane.
        let places = |i: usize| [i % 16, 128 + i % 128][(i / 128 + number) % 2] as u8;
        for first in 0..256 {
            let at: [u8; N] = core::array::from_fn(|i| places((first + i) % 256));
            let found = Simd::from_array(tables).swizzle_dyn_within::<16>(Simd::from_array(at)).to_array();
            let expected = |i: usize| if at[i] < 16 { tables[i / 16 * 16 + usize::from(at[i])] } else { 0 };
            assert_eq!(found, core::array::from_fn(expected), "{tables:?} {at:?}");
        }
    }
}

#[test]
fn look_ups_in_sixteen_bytes() {
    look_ups::<16>();
    look_ups::<32>();
    look_ups::<64>();
}

// Random places among two vectors of `n` lanes: of any lanes, of lanes by fours, of lanes of the first vector, or of lanes that stay
// in their own sixteen of it.
const fn random_places<const M: usize>(n: usize, kind: usize, seed: u64) -> [usize; M] {
    let mut places = [0; M];
    let mut number = seed;
    let mut i = 0;
    while i < M {
        number = next(number);
        let random = mixed(number) as usize;
        places[i] = match kind {
            1 if i % 4 == 0 => random % (n / 2) * 4,
            1 => places[i - 1] + 1,
            2 => random % n,
            3 => (i / 16 * 16 + random % 16) % n,
            _ => random % (2 * n),
        };
        i += 1;
    }
    places
}

fn moves_of<T: Cut, const N: usize, const M: usize, const KIND: usize, const SEED: u64>() {
    let places = const { random_places::<M>(N, KIND, SEED) };
    for (x, y) in some_pairs::<T, N>() {
        let (one, other) = (Simd::from_array(x), Simd::from_array(y));
        let found = one.shuffle(other, const { Places::new(random_places::<M>(N, KIND, SEED)) });
        let lane = |from: usize| if from < N { x[from] } else { y[from - N] };
        assert_eq!(found.to_array(), places.map(lane), "{places:?}");
        if KIND >= 2 {
            let found = one.swizzle(const { Places::new(random_places::<M>(N, KIND, SEED)) });
            assert_eq!(found.to_array(), places.map(lane), "{places:?}");
        }
    }
}

fn moves<T: Cut, const N: usize, const M: usize>() {
    macro_rules! each_seed {
        ($($seed:literal)*) => {$(
            moves_of::<T, N, M, 0, $seed>();
            moves_of::<T, N, M, 1, $seed>();
            moves_of::<T, N, M, 2, $seed>();
            moves_of::<T, N, M, 3, $seed>();
        )*};
    }
    each_seed!(1 2 3 4 5);
}

#[test]
fn moves_to_constant_places() {
    moves::<u8, 8, 8>();
    moves::<u8, 8, 16>();
    moves::<u8, 8, 32>();
    moves::<u8, 16, 8>();
    moves::<u8, 16, 16>();
    moves::<u8, 16, 32>();
    moves::<u8, 16, 64>();
    moves::<u8, 32, 16>();
    moves::<u8, 32, 32>();
    moves::<u8, 32, 64>();
    moves::<u8, 64, 16>();
    moves::<u8, 64, 64>();
    moves::<u32, 4, 4>();
    moves::<u32, 8, 8>();
    moves::<u64, 2, 2>();
    moves::<u64, 4, 4>();
}

fn orders<T: Cut, const N: usize>() {
    for (x, y) in some_pairs::<T, N>() {
        let (one, other) = (Simd::from_array(x), Simd::from_array(y));
        let (first, second) = one.interleave(other);
        let in_turn: Vec<T> = x.into_iter().zip(y).flat_map(|(x, y)| [x, y]).collect();
        assert_eq!([first.to_array(), second.to_array()].concat(), in_turn);
        assert_eq!(one.reverse().to_array(), core::array::from_fn(|i| x[N - 1 - i]));
    }
}

#[test]
fn lanes_in_other_orders() {
    orders::<u8, 8>();
    orders::<u8, 16>();
    orders::<u8, 32>();
    orders::<u8, 64>();
    orders::<u32, 4>();
    orders::<u32, 8>();
    orders::<u64, 2>();
    orders::<u64, 4>();
}

#[test]
fn bytes_of_lanes() {
    macro_rules! there_and_back {
        ($($lane:ident, $count:literal, $bytes:literal;)*) => {$(
            for lanes in some_vectors::<$lane, $count>(7) {
                let bytes = Simd::from_array(lanes).to_le_bytes();
                assert_eq!(bytes.to_array()[..], lanes.map($lane::to_le_bytes).concat());
                assert_eq!(Simd::<$lane, $count>::from_le_bytes(bytes).to_array(), lanes);
            }
        )*};
    }
    there_and_back! { u32, 4, 16; u64, 2, 16; u64, 4, 32; }
    for lanes in some_vectors::<u32, 8>(7) {
        assert_eq!(Simd::from_array(lanes).to_le_bytes().to_array()[..], lanes.map(u32::to_le_bytes).concat());
    }
}
