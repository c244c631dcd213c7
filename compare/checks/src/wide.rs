//! The calls on Paulis of up to 256 qubits and on their text, a second time, from the scope.

use model::rows::lowest;
use naribhush::{Answer, PauliString, Refusal};

pub const MOST_QUBITS: usize = 256;

/// The value, or the row where it is not 0.
pub fn unless<T>(row: u8, value: impl FnOnce() -> T) -> Answer<T> {
    match row {
        0 => Ok(value()),
        number => Err(Refusal {
            number,
            place: None,
        }),
    }
}

pub fn bit(words: &[u64; 4], q: usize) -> bool {
    q < MOST_QUBITS && words[q / 64] >> (q % 64) & 1 == 1
}

pub fn set_bit(words: &mut [u64; 4], q: usize, value: bool) {
    if q < MOST_QUBITS {
        words[q / 64] &= !(1 << (q % 64));
        words[q / 64] |= u64::from(value) << (q % 64);
    }
}

fn shared(a: &[u64; 4], b: &[u64; 4]) -> u32 {
    let words = a.iter().zip(b);
    words.map(|(a, b)| (a & b).count_ones()).sum()
}

pub fn is_pauli(p: PauliString) -> bool {
    let fits = |mask: &[u64; 4]| (p.nqubits..MOST_QUBITS).all(|q| !bit(mask, q));
    p.phase <= 3 && p.nqubits <= MOST_QUBITS && fits(&p.x) && fits(&p.z)
}

pub fn coefficient(p: PauliString) -> usize {
    let ys = shared(&p.x, &p.z) as usize;
    (p.phase as usize + 3 * ys) % 4
}

pub fn is_hermitian(p: PauliString) -> bool {
    coefficient(p).is_multiple_of(2)
}

// ------------------------------------------------------------- what is answered

pub fn of_pauli<T>(p: PauliString, value: impl FnOnce() -> T) -> Answer<T> {
    unless(lowest(&[(!is_pauli(p), 3)]), value)
}

pub fn of_qubit<T>(p: PauliString, q: usize, value: impl FnOnce() -> T) -> Answer<T> {
    let row = lowest(&[(!is_pauli(p), 3), (q >= p.nqubits, 5)]);
    unless(row, value)
}

pub fn of_two<T>(a: PauliString, b: PauliString, value: impl FnOnce() -> T) -> Answer<T> {
    let none = !is_pauli(a) || !is_pauli(b);
    let row = lowest(&[(none, 3), (a.nqubits != b.nqubits, 4)]);
    unless(row, value)
}

/// The letter by its X and its Z part, each 0 or 1.
pub fn set(p: PauliString, q: usize, x: u8, z: u8) -> Answer<PauliString> {
    let row = lowest(&[(!is_pauli(p), 3), (q >= p.nqubits, 5), (x > 1 || z > 1, 14)]);
    unless(row, || {
        let was_y = bit(&p.x, q) && bit(&p.z, q);
        let mut new = p;
        set_bit(&mut new.x, q, x == 1);
        set_bit(&mut new.z, q, z == 1);
        let gained = x * z + 3 * u8::from(was_y);
        new.phase = (p.phase + gained) % 4;
        new
    })
}

pub fn product(a: PauliString, b: PauliString) -> Answer<PauliString> {
    of_two(a, b, || {
        let xor = |a: [u64; 4], b: [u64; 4]| std::array::from_fn(|word| a[word] ^ b[word]);
        let turned = 2 * (shared(&a.z, &b.x) % 2) as u8;
        PauliString {
            nqubits: a.nqubits,
            x: xor(a.x, b.x),
            z: xor(a.z, b.z),
            phase: (a.phase + b.phase + turned) % 4,
        }
    })
}

pub fn anticommutes(a: PauliString, b: PauliString) -> Answer<bool> {
    of_two(a, b, || shared(&a.x, &b.z) % 2 != shared(&a.z, &b.x) % 2)
}

pub fn max_support(p: PauliString) -> Answer<Option<usize>> {
    let supported = |&q: &usize| bit(&p.x, q) || bit(&p.z, q);
    of_pauli(p, || (0..MOST_QUBITS).rev().find(supported))
}

pub fn measurement_sign(p: PauliString) -> Answer<bool> {
    let row = lowest(&[(!is_pauli(p), 3), (!is_hermitian(p), 7)]);
    unless(row, || coefficient(p) == 2)
}

// ----------------------------------------------------------------------- text

fn letter(p: PauliString, q: usize) -> u8 {
    match (bit(&p.x, q), bit(&p.z, q)) {
        (false, false) => b'I',
        (true, false) => b'X',
        (false, true) => b'Z',
        (true, true) => b'Y',
    }
}

/// A Pauli as it is shown.
pub fn text(p: PauliString) -> Vec<u8> {
    let prefix = ["", "i*", "-", "-i*"][coefficient(p)];
    let mut text = prefix.as_bytes().to_vec();
    text.extend((0..p.nqubits).map(|q| letter(p, q)));
    if p.nqubits == 0 {
        text.push(b'I');
    }
    text
}

/// The length of the text, with room for `room` bytes.
pub fn display(p: PauliString, room: usize) -> Answer<usize> {
    let row = lowest(&[(!is_pauli(p), 3)]);
    let length = unless(row, || text(p).len())?;
    unless(lowest(&[(room < length, 16)]), || length)
}

pub fn read_text(ops: &[u8]) -> Answer<PauliString> {
    let mut read = unless(lowest(&[(ops.len() > 256, 1)]), PauliString::default)?;
    read.nqubits = ops.len();
    for (q, byte) in ops.iter().enumerate() {
        let (x, z) = match byte.to_ascii_uppercase() {
            b'I' | b'_' => (false, false),
            b'X' => (true, false),
            b'Z' => (false, true),
            b'Y' => (true, true),
            _ => {
                return Err(Refusal {
                    number: 2,
                    place: Some(q),
                });
            }
        };
        set_bit(&mut read.x, q, x);
        set_bit(&mut read.z, q, z);
        read.phase = (read.phase + u8::from(x && z)) % 4;
    }
    Ok(read)
}
