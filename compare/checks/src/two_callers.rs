//! One run for both callers: the service in buffers of some length, the emulator on its board. Their start states agree in the
//! first 2^n entries, n from the start field; what lies past them, the scratch and the lengths are each caller's own.

use crate::callers::{BOTH, Who};
use crate::convert::{active, answer, ending, survey};
use crate::lent::Lender;
use crate::patterns::{filling_bytes, same_but_nan};
use crate::state::{Buffers, with_state};
use crate::two_ways::{Check, Trial, ensure};
use model::dice::Dice;
use model::run::{EMULATOR, LIMIT, Survey, check};

/// The amplitudes that the emulator has.
const BOARD: usize = 1 << EMULATOR.widest;

/// What was seen where nothing was wrong.
pub enum Agreement {
    /// Run and carried by both alike: how many parts of amplitudes were compared, how many of them are an infinity or a NaN.
    Both { compared: usize, not_finite: usize },
    /// Wider on the way than the board.
    ServiceAlone,
}

pub fn compare(lender: &Lender, dice: &mut Dice, trial: &Trial) -> Check<Agreement> {
    let bytes = trial.run.bytes();
    let lent_run = lender.lend(dice, &bytes);
    let seen = trial.run.survey();
    let [service, emulator] = BOTH.map(|who| who.check(&lent_run));
    ensure(service == Ok(survey(seen)), "the service's check")?;
    let expected = answer(check(&bytes, EMULATOR), survey);
    ensure(emulator == expected, "the emulator's check")?;
    if seen.greatest > EMULATOR.widest {
        let refused = emulator.is_err_and(|refusal| refusal.number == 21);
        ensure(refused, "too wide for the board, and not refused by 21")?;
        return Ok(Agreement::ServiceAlone);
    }
    ensure(emulator == service, "narrow enough, and taken by one only")?;
    let agreement = run_by_both(lender, dice, trial, &lent_run, seen)?;
    carried_by_both(lender, dice, trial, &lent_run)?;
    ensure(lent_run[..] == bytes, "the lent run was written")?;
    Ok(agreement)
}

/// The service's buffers: what the run needs or more, now and then all 12 qubits. The emulator's: its board's 64, and a scratch of what the run needs or more.
fn lengths(dice: &mut Dice, who: Who, seen: Survey) -> [usize; 4] {
    let full = dice.once_in(64);
    let mut more = |needed: usize| match (who, full) {
        (Who::Emulator, _) => needed + dice.pick(&[0, 0, 1, 32]),
        (Who::Service, true) => 1 << LIMIT,
        (Who::Service, false) => needed + dice.below(2 * BOARD),
    };
    let scratch = [more(seen.scratch), more(seen.scratch)];
    let state = match who {
        Who::Service => [more(1 << seen.greatest), more(1 << seen.greatest)],
        Who::Emulator => [BOARD, BOARD],
    };
    [state[0], state[1], scratch[0], scratch[1]]
}

fn run_by_both(
    lender: &Lender,
    dice: &mut Dice,
    trial: &Trial,
    lent_run: &[u8],
    seen: Survey,
) -> Check<Agreement> {
    let [service, board] = BOTH.map(|who| {
        let lengths = lengths(dice, who, seen);
        let contents = with_state(dice, &trial.state, lengths);
        let mut buffers = Buffers::lend(lender, dice, &contents);
        let answered = who.run(lent_run, &mut buffers);
        (answered, buffers)
    });
    let right = service.0 == board.0 && board.0 == Ok(ending(seen));
    ensure(right, "the two callers' endings")?;
    let (mut compared, mut not_finite) = (0, 0);
    for part in 0..2 {
        let [service, board] = [&service, &board].map(|side| &side.1.0[part][..1 << seen.width]);
        ensure(
            same_but_nan(service, board),
            "the two callers end in different states",
        )?;
        compared += board.len();
        not_finite += board.iter().filter(|entry| !entry.is_finite()).count();
    }
    Ok(Agreement::Both {
        compared,
        not_finite,
    })
}

fn carried_by_both(lender: &Lender, dice: &mut Dice, trial: &Trial, lent_run: &[u8]) -> Check<()> {
    let length = lent_run.len();
    let [service, emulator] = BOTH.map(|who| {
        let room = length + dice.below(4);
        let before = filling_bytes(dice, room);
        let mut out = lender.lend(dice, &before);
        let answered = who.carry(lent_run, active(trial.q), &mut out);
        (answered, out[..length].to_vec())
    });
    ensure(emulator.0.is_ok(), "the emulator carries what it takes")?;
    ensure(service == emulator, "the two callers carry otherwise")
}
