//! Claims that are granted or refused, as the tests expect.

use loop_pages::{PageFault, PageHold, PageLedger, PageSeat};
use std::alloc::Allocator;
use std::process::Abort;
use std::sync::Arc;

/// This many free pages of the ledger.
pub(crate) fn claimed<A: Allocator + Copy>(
    rt: &impl Abort,
    alloc: A,
    ledger: &Arc<PageLedger<A>, A>,
    seat: PageSeat,
    count: u32,
) -> PageHold<A> {
    match PageLedger::claim(alloc, ledger, seat, count) {
        Ok(hold) => hold,
        Err((fault, _)) => panic!(rt; "{count} pages: {fault}"),
    }
}

/// Checks that a claim of this many pages is refused by this name, and hands its seat back.
pub(crate) fn refused<A: Allocator + Copy>(
    rt: &impl Abort,
    alloc: A,
    ledger: &Arc<PageLedger<A>, A>,
    seat: PageSeat,
    count: u32,
    name: PageFault,
) -> PageSeat {
    match PageLedger::claim(alloc, ledger, seat, count) {
        Ok(_) => panic!(rt; "{count} pages are granted"),
        Err((fault, seat)) => {
            assert_eq!(rt; fault, name, "{count:?}");
            seat
        }
    }
}
