//! The letters on one qubit, for tests.

use model::pauli::Pauli;

pub const X: Pauli = letter(0, 1, 0);
pub const Y: Pauli = letter(1, 1, 1);
pub const Z: Pauli = letter(0, 0, 1);

const fn letter(k: u8, x: u64, z: u64) -> Pauli {
    Pauli { n: 1, k, x, z }
}
