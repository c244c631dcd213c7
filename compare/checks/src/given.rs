//! What a call is given that carries a Pauli through a run. Neither has to be accepted.

use crate::mutate::damage_bytes;
use crate::patterns::hex;
use crate::seeking::{no_pauli, on_others};
use model::dice::Dice;
use model::pauli::Pauli;
use model::run::Run;

pub struct Given {
    pub bytes: Vec<u8>,
    pub q: Pauli,
}

impl Given {
    /// A run and a Pauli on its start qubits.
    pub fn of(run: &Run, q: Pauli) -> Self {
        let bytes = run.bytes();
        Self { bytes, q }
    }

    /// Mostly these; now and then the run is damaged, or the Pauli none of the run's start qubits.
    pub fn draw(dice: &mut Dice, run: &Run, q: Pauli) -> Self {
        let mut given = Self::of(run, q);
        if dice.once_in(16) {
            damage_bytes(dice, &mut given.bytes);
        }
        let n = run.width;
        match dice.below(16) {
            0 => {
                let n = dice.pick(&[n, n, n + 1, 257]);
                given.q = no_pauli(dice, n);
            }
            1 => given.q = on_others(dice, n),
            _ => {}
        }
        given
    }

    /// Whether the Pauli is on other qubits than the run starts on. The run is one that is accepted.
    pub fn on_others(&self) -> bool {
        usize::from(self.bytes[3]) != self.q.n
    }

    pub fn description(&self) -> String {
        format!("{:?}, run {}", self.q, hex(&self.bytes))
    }
}
