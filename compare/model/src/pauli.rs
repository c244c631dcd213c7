//! A Pauli with one word a mask: i^k X^x Z^z on n qubits.

#[derive(Clone, Copy, Debug, PartialEq, Eq)]
pub struct Pauli {
    pub n: usize,
    pub k: u8,
    pub x: u64,
    pub z: u64,
}

/// The parity of what two words share.
pub fn parity(a: u64, b: u64) -> u8 {
    ((a & b).count_ones() % 2) as u8
}

/// All Paulis on n qubits.
pub fn paulis(n: usize) -> impl Iterator<Item = Pauli> {
    let masks = 1u64 << n;
    let one = move |at: u64| Pauli {
        n,
        k: (at % 4) as u8,
        x: at / 4 % masks,
        z: at / 4 / masks,
    };
    (0..4 * masks * masks).map(one)
}

impl Pauli {
    pub fn identity(n: usize) -> Self {
        Self {
            n,
            k: 0,
            x: 0,
            z: 0,
        }
    }

    pub fn is_pauli(self) -> bool {
        let fits = |mask: u64| self.n >= 64 || mask >> self.n == 0;
        self.k <= 3 && self.n <= 256 && fits(self.x) && fits(self.z)
    }

    /// k minus the number of Ys is even.
    pub fn is_hermitian(self) -> bool {
        (self.k % 2) == parity(self.x, self.z)
    }

    pub fn is_identity(self) -> bool {
        self.x == 0 && self.z == 0
    }

    /// self times other, other acting first.
    pub fn times(self, other: Self) -> Self {
        Self {
            n: self.n,
            k: (self.k + other.k + 2 * parity(self.z, other.x)) % 4,
            x: self.x ^ other.x,
            z: self.z ^ other.z,
        }
    }

    /// The phase raised, modulo 4.
    pub fn raised(self, exponent: u8) -> Self {
        let k = (self.k + exponent) % 4;
        Self { k, ..self }
    }

    pub fn anticommutes(self, other: Self) -> bool {
        parity(self.x, other.z) != parity(self.z, other.x)
    }

    /// The pivot's bit dropped from both masks, those above it moving down one; none stands from bit 64 on.
    pub fn dropped(self, pivot: usize) -> Self {
        let drop = |mask: u64| {
            if pivot >= 64 {
                return mask;
            }
            let low = (1u64 << pivot) - 1;
            (mask & low) | (mask >> 1 & !low)
        };
        Self {
            n: self.n - 1,
            k: self.k,
            x: drop(self.x),
            z: drop(self.z),
        }
    }

    /// The correction: the amplitude (r, i) of b moves to b xor x, times i^(k + 2 parity(b and z)).
    pub fn correct(self, re: &mut [f64], im: &mut [f64]) {
        let (old_re, old_im) = (re.to_vec(), im.to_vec());
        for b in 0..1usize << self.n {
            let (r, i) = (old_re[b], old_im[b]);
            let (new_r, new_i) = match (self.k + 2 * parity(b as u64, self.z)) % 4 {
                0 => (r, i),
                1 => (-i, r),
                2 => (-r, -i),
                _ => (i, -r),
            };
            let to = b ^ self.x as usize;
            (re[to], im[to]) = (new_r, new_i);
        }
    }
}

#[cfg(test)]
mod tests {
    use super::*;

    /// 4 phases and 4^n pairs of masks, no Pauli twice.
    #[test]
    fn all_paulis() {
        for n in 0..=2 {
            let all: Vec<Pauli> = paulis(n).collect();
            assert_eq!(all.len(), 4 << (2 * n));
            for (at, p) in all.iter().enumerate() {
                assert!(p.is_pauli() && p.n == n && !all[..at].contains(p));
            }
        }
    }
}
