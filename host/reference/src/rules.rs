//! Rules across fields, 1 to 9 ("Values", second part).

use crate::lists::HalfBands;
use crate::record::*;
use crate::words::*;

/// The lowest broken rule of a record whose fields are each good.
pub fn broken(body: &Body) -> Option<u32> {
    let rules: [(u32, bool); 4] = match body {
        Body::Market(order) => [
            (1, order.span.is_forward()),
            (2, order.updated.is_some() == (order.origin == Origin::Scweb)),
            (3, profiles_reach_down(order)),
            (4, gradients_climb(order)),
        ],
        Body::Mfrr(order) => only(1, mfrr_in_order(order)),
        Body::Revocation { span, .. } | Body::Generic { span, .. } | Body::Refused { span, .. } => {
            only(1, span.is_forward())
        }
        Body::Exclusion { span, reason, readmitted, .. } => {
            both(span.is_forward(), 5, reason.is_blank() == (*readmitted == YesNo::Yes))
        }
        Body::Limitation(limits) => both(limits.span.is_forward(), 6, limits_hold(limits)),
        Body::Secondary { span, operation, half_bands, .. } => {
            both(span.is_forward(), 7, half_bands_hold(*operation, *half_bands))
        }
        Body::Voltage(voltage) => {
            let forward = voltage.end.is_none_or(|end| voltage.start.instant() < end.instant());
            both(forward, 8, is_table_row(voltage))
        }
        Body::Reserved { span, quantity, up_to, .. } => {
            both(span.is_forward(), 9, quantity.is_some() != up_to.is_some())
        }
    };
    rules.into_iter().find(|&(_, holds)| !holds).map(|(rule, _)| rule)
}

fn only(rule: u32, holds: bool) -> [(u32, bool); 4] {
    [(rule, holds), (0, true), (0, true), (0, true)]
}

fn both(forward: bool, rule: u32, holds: bool) -> [(u32, bool); 4] {
    [(1, forward), (rule, holds), (0, true), (0, true)]
}

fn mfrr_in_order(order: &Mfrr) -> bool {
    order.first.is_forward() && order.first.end.instant() <= order.second.start.instant() && order.second.is_forward()
}

/// Rule 3, by field number: fewer than 24 values start from h6 going backwards, so
/// only the first filled h line may have fewer than four, and all below it have four.
fn profiles_reach_down(order: &Market) -> bool {
    let mut below_the_first = order.profiles.iter().skip_while(|profile| profile.is_none()).skip(1);
    below_the_first.all(|profile| profile.is_some_and(|profile| profile.is_full()))
}

/// Rule 4, within each band; neighbours are not compared.
fn gradients_climb(order: &Market) -> bool {
    order.gradients.get().iter().all(|band| band.low <= band.high && band.gradient > 0)
}

fn limits_hold(limits: &Limitation) -> bool {
    match (limits.restored, limits.minimum, limits.maximum) {
        (YesNo::Yes, minimum, maximum) => minimum.is_none() && maximum.is_none() && limits.reason.is_blank(),
        (YesNo::No, None, None) => false,
        (YesNo::No, Some(minimum), Some(maximum)) if minimum > maximum => false,
        (YesNo::No, ..) => !limits.reason.is_blank(),
    }
}

/// Rule 7: SOSPENSIONE may carry half-bands too; only their lack is tied to it.
fn half_bands_hold(operation: Operation, half_bands: Option<HalfBands>) -> bool {
    match half_bands {
        Some(bands) => bands.up >= 0 && bands.down >= 0,
        None => operation == Operation::Suspension,
    }
}

/// Rule 8: the eleven rows of 2.9's table. A cell with alternatives is filled by
/// one of them, an empty one is blank.
fn is_table_row(voltage: &Voltage) -> bool {
    use Mode::*;
    use Regulation::*;
    use SartState::*;
    let Voltage { state, mode, regulation, sart, rat, change, reactive, .. } = *voltage;
    match (state, mode, regulation) {
        // Rows 1 and 2.
        (Some(Included), Rrt, None) | (Some(Included), Rts, Some(StoredProfile)) => {
            matches!((sart, rat, change, reactive), (None, None, None, None))
        }
        // Rows 3 and 5: any setting alone, or an extreme with a change.
        (Some(Included), Rts, Some(Vsrif)) => matches!(
            (sart, rat, change, reactive),
            (Some(_), None, None, None) | (Some(Setting::To(_)), None, Some(_), None)
        ),
        // Row 4: a number only.
        (None, Rts, Some(Vsrif)) => {
            matches!((sart, rat, change, reactive), (Some(Setting::At(_)), None, None, None))
        }
        // Rows 6 to 9.
        (Some(Excluded) | None, Rat, Some(MediumVoltage)) => matches!(
            (sart, rat, change, reactive),
            (None, Some(_), None, None) | (None, Some(Setting::To(_)), Some(_), None)
        ),
        // Rows 10 and 11.
        (Some(Excluded) | None, Man, Some(ReactivePower)) => {
            matches!((sart, rat, change, reactive), (None, None, None, Some(_)))
        }
        _ => false,
    }
}
