//! Details and closing records where they do not belong.

use super::draft::CompanyDraft;
use super::faults::{any_fault, any_place};
use super::good::with_details;
use crate::generate::random::Random;

pub fn out_of_order(random: &mut Random) -> CompanyDraft {
    let mut draft = with_details(random);
    let place = any_place(random, &draft);
    match random.below(7) {
        0 => t_amid(draft, place),
        1 => no_t(draft),
        2 => two_t(draft),
        3 => {
            // The closing record first, a detail last.
            let last = draft.details.len() - 1;
            std::mem::swap(&mut draft.details[0], &mut draft.closing);
            draft.details.swap(0, last);
            draft.faults.push((last, 17));
            draft.closing_is_bad = true;
            draft.named("T and D exchanged")
        }
        4 => {
            let kind = *random.pick(b"ACRBdt T");
            draft.details.iter_mut().for_each(|detail| detail[0] = kind);
            draft.faults.push((0, 17));
            draft.named("all of another kind")
        }
        5 => {
            any_fault(random, &mut draft);
            two_t(draft)
        }
        _ => detail_lost(random, draft, place),
    }
}

/// A good closing record amid the details, for those before it and for all.
fn t_amid(mut draft: CompanyDraft, place: usize) -> CompanyDraft {
    let rest = draft.details.split_off(place);
    draft.settle();
    draft.details.push(draft.closing);
    draft.details.extend(rest);
    draft.settle();
    draft.faults.push((place, 17));
    draft.named("T amid the details")
}

/// The file ends with its last detail.
fn no_t(mut draft: CompanyDraft) -> CompanyDraft {
    if let Some(detail) = draft.details.pop() {
        draft.closing = detail;
        draft.closing_is_bad = true;
    }
    draft.named("no T")
}

fn two_t(mut draft: CompanyDraft) -> CompanyDraft {
    draft.faults.push((draft.details.len(), 17));
    draft.details.push(draft.closing);
    draft.named("two T")
}

/// One detail more or fewer than the closing record says; it may be there twice.
fn detail_lost(random: &mut Random, mut draft: CompanyDraft, place: usize) -> CompanyDraft {
    let detail = draft.details.remove(place);
    if random.once_in(2) {
        draft.details.insert(place, detail);
        draft.details.insert(place, detail);
    }
    draft.closing_is_bad = true;
    draft.named("detail lost or doubled")
}
