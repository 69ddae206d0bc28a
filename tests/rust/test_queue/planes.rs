//! Planes of each kind, and the table of their fds.

use crate::claimed::{claimed, refused};
use loop_pages::{PageFault, PageHold, PageLedger, PageSeat};
use loop_plane::{
    DmabufPlane, DmabufTable, FdFault, FdTable, HeapPlane, Memory, MmapPlane, PlaneMemory,
    UserPlane,
};
use std::alloc::Global;
use std::process::Abort;
use std::sync::Arc;
use std::test::Fail;
use test_alloc::Budget;

// A plane of any kind.
type Plane = Box<dyn PlaneMemory + Send>;

// A plane of one page, in a box.
fn mapped(
    rt: &impl Abort,
    alloc: Global,
    ledger: &Arc<PageLedger>,
    seat: PageSeat,
) -> Result<Plane, Fail> {
    let Ok(plane) = MmapPlane::new(alloc, claimed(rt, alloc, ledger, seat, 1)) else {
        return Err("a plane of one page".into());
    };
    Ok(Box::new(alloc, plane)?)
}

// A window of 5,000 bytes over two pages, in a box.
fn window(
    rt: &impl Abort,
    alloc: Global,
    ledger: &Arc<PageLedger>,
    seat: PageSeat,
) -> Result<Plane, Fail> {
    let Ok(plane) = UserPlane::new(alloc, claimed(rt, alloc, ledger, seat, 2), 0, 5000) else {
        return Err("a window of two pages".into());
    };
    Ok(Box::new(alloc, plane)?)
}

// A scatter list of one page, in a box.
fn scattered(
    rt: &impl Abort,
    alloc: Global,
    ledger: &Arc<PageLedger>,
    seat: PageSeat,
) -> Result<Plane, Fail> {
    let Ok(plane) = DmabufPlane::new(alloc, claimed(rt, alloc, ledger, seat, 1)) else {
        return Err("a scatter list of one page".into());
    };
    Ok(Box::new(alloc, plane)?)
}

// Fills a plane of any kind with three bytes, and checks the last two of them.
fn reads_back<P: PlaneMemory>(plane: &mut P) -> bool {
    plane.fill(&[1, 2, 3]);
    let mut out = [0; 2];
    plane.copy_out(1, &mut out);
    plane.used() == 3 && out == [2, 3]
}

// Fills each of the planes, and reads it back.
fn read_back(rt: &impl Abort, planes: &mut [Plane]) {
    for plane in planes {
        assert!(rt; plane.length() >= 3);
        assert!(rt; reads_back(plane));
    }
}

// A plane of each kind, over four pages.
fn three_planes(
    rt: &impl Abort,
    alloc: Global,
    ledger: &Arc<PageLedger>,
    seat: PageSeat,
) -> Result<Vec<Plane>, Fail> {
    let (one, seat) = ledger.split(seat);
    let (two, three) = ledger.split(seat);
    let mapped = mapped(rt, alloc, ledger, one)?;
    let window = window(rt, alloc, ledger, two)?;
    let scattered = scattered(rt, alloc, ledger, three)?;
    Ok(vec![in alloc; mapped, window, scattered]?)
}

#[test]
fn three_kinds_of_plane_are_used_in_one_list(rt: HostRuntime) -> Result<(), Fail> {
    let alloc = rt.alloc();
    let (ledger, seat) = PageLedger::new(alloc, 4)?;
    let (last, seat) = ledger.split(seat);
    let mut planes = three_planes(&rt, alloc, &ledger, seat)?;
    read_back(&rt, &mut planes);
    let last = refused(&rt, alloc, &ledger, last, 1, PageFault::NoPages);
    drop(planes);
    assert_eq!(rt; claimed(&rt, alloc, &ledger, last, 4).count(), 4);
    Ok(())
}

// Fills a window that crosses the edge of two pages, and reads those bytes back.
fn window_reads_back(rt: &impl Abort, alloc: Global, hold: PageHold) -> Result<(), Fail> {
    let Ok(mut window) = UserPlane::new(alloc, hold, 4090, 12) else {
        return Err("a window of two pages".into());
    };
    window.fill(&[0, 1, 2, 3, 4, 5, 6, 7, 8, 9, 10, 11]);
    let mut out = [0; 4];
    window.copy_out(4, &mut out);
    assert_eq!(rt; out, [4, 5, 6, 7]);
    Ok(())
}

// The same with a scatter list.
fn list_reads_back(rt: &impl Abort, alloc: Global, hold: PageHold) -> Result<(), Fail> {
    let Ok(mut plane) = DmabufPlane::new(alloc, hold) else {
        return Err("a scatter list of two pages".into());
    };
    let mut bytes = vec![in alloc; 7u8; 5000]?;
    bytes[4095] = 1;
    bytes[4096] = 2;
    plane.fill(bytes.as_slice());
    let mut out = [0; 4];
    plane.copy_out(4094, &mut out);
    assert_eq!(rt; out, [7, 1, 2, 7]);
    Ok(())
}

#[test]
fn a_window_and_a_scatter_list_cross_the_edge_of_a_page(rt: HostRuntime) -> Result<(), Fail> {
    let alloc = rt.alloc();
    let (ledger, seat) = PageLedger::new(alloc, 4)?;
    let (one, two) = ledger.split(seat);
    window_reads_back(&rt, alloc, claimed(&rt, alloc, &ledger, one, 2))?;
    list_reads_back(&rt, alloc, claimed(&rt, alloc, &ledger, two, 2))
}

// What a plane has after it is filled from a row, and the row then. It has three bytes in use before, all 1.
fn filled_from(alloc: Global, plane: &mut Plane, bytes: &[u8]) -> Result<(Vec<u8>, Vec<u8>), Fail> {
    plane.fill(&[1, 1, 1]);
    let mut row = Vec::new(alloc);
    row.extend_from_slice(bytes)?;
    plane.fill_from(&mut row);
    let mut out = vec![in alloc; 0u8; plane.used() as usize]?;
    plane.copy_out(0, out.as_mut_slice());
    Ok((out, row))
}

#[test]
fn a_plane_on_the_heap_takes_a_row_of_its_length_for_its_own(rt: HostRuntime) -> Result<(), Fail> {
    let alloc = rt.alloc();
    let mut plane: Plane = Box::new(alloc, HeapPlane::new(alloc, 3)?)?;
    let (out, row) = filled_from(alloc, &mut plane, &[7, 8, 9])?;
    assert!(rt; out.as_slice() == [7, 8, 9].as_slice());
    assert!(rt; row.as_slice() == [1, 1, 1].as_slice());
    // A shorter row is copied.
    let (out, row) = filled_from(alloc, &mut plane, &[7, 8])?;
    assert!(rt; out.as_slice() == [7, 8].as_slice() && row.as_slice() == [7, 8].as_slice());
    assert_eq!(rt; plane.length(), 3);
    Ok(())
}

#[test]
fn planes_of_pages_copy_a_row(rt: HostRuntime) -> Result<(), Fail> {
    let alloc = rt.alloc();
    let (ledger, seat) = PageLedger::new(alloc, 4)?;
    let mut planes = three_planes(&rt, alloc, &ledger, seat)?;
    for plane in planes.iter_mut() {
        let (out, row) = filled_from(alloc, plane, &[7, 8, 9])?;
        assert!(rt;
            out.as_slice() == [7, 8, 9].as_slice() && row.as_slice() == [7, 8, 9].as_slice()
        );
    }
    Ok(())
}

// Attaches the one plane of a table, brings it back and closes its fd. Another plane isn't accepted in its place.
fn attaches(rt: &impl Abort, table: &mut DmabufTable, fd: u32, other: Plane) -> Result<(), Fail> {
    let Ok(plane) = table.attach(fd) else {
        return Err("the plane".into());
    };
    assert!(rt; matches!(table.attach(fd), Err(FdFault::Attached)));
    assert!(rt; matches!(table.close(fd), Err(FdFault::Attached)));
    assert!(rt; table.detach(fd, plane).is_ok());
    let Err((fault, other)) = table.detach(fd, other) else {
        return Err("the plane is back".into());
    };
    assert_eq!(rt; (fault, other.kind()), (FdFault::NotAttached, Memory::Mmap));
    let Ok(plane) = table.close(fd) else {
        return Err("the plane".into());
    };
    assert_eq!(rt; plane.kind(), Memory::DmaBuf);
    assert!(rt; matches!(table.attach(fd), Err(FdFault::NoSuchFd)));
    Ok(())
}

#[test]
fn an_fd_is_attached_brought_back_and_closed(rt: HostRuntime) -> Result<(), Fail> {
    let alloc = rt.alloc();
    let (ledger, seat) = PageLedger::new(alloc, 2)?;
    let (one, two) = ledger.split(seat);
    let plane = scattered(&rt, alloc, &ledger, one)?;
    let other = mapped(&rt, alloc, &ledger, two)?;
    let mut table: DmabufTable = DmabufTable::new(alloc);
    let Ok(fd) = table.add(plane) else {
        return Err("an fd".into());
    };
    attaches(&rt, &mut table, fd, other)
}

// A plane takes one block for its bytes. Without it, it hands its pages back.
fn plane_grows<'a>(
    rt: &impl Abort,
    budget: &'a Budget,
    hold: PageHold<&'a Budget>,
) -> Result<(), Fail> {
    budget.allow(0);
    let Err(hold) = MmapPlane::new(budget, hold) else {
        return Err("no block is left for the bytes".into());
    };
    budget.allow(1);
    assert!(rt; MmapPlane::new(budget, hold).is_ok());
    Ok(())
}

// A window does the same.
fn window_grows<'a>(
    rt: &impl Abort,
    budget: &'a Budget,
    hold: PageHold<&'a Budget>,
) -> Result<(), Fail> {
    let Err(hold) = UserPlane::new(budget, hold, 4090, 12) else {
        return Err("no block is left for the bytes".into());
    };
    budget.allow(1);
    assert!(rt; UserPlane::new(budget, hold, 4090, 12).is_ok());
    Ok(())
}

// A scatter list of two pages takes three blocks.
fn list_grows<'a>(
    rt: &impl Abort,
    budget: &'a Budget,
    mut hold: PageHold<&'a Budget>,
) -> Result<(), Fail> {
    for blocks in 0..3 {
        budget.allow(blocks);
        let Err(same) = DmabufPlane::new(budget, hold) else {
            return Err("a list and two blocks are three".into());
        };
        hold = same;
        assert_eq!(rt; hold.count(), 2, "{blocks:?}");
    }
    budget.allow(3);
    assert!(rt; DmabufPlane::new(budget, hold).is_ok());
    Ok(())
}

// An fd takes one block. Without it, its value comes back.
fn fd_grows(rt: &impl Abort, budget: &Budget) -> Result<(), Fail> {
    let mut table = FdTable::new(budget);
    assert_eq!(rt; table.add(7), Err((FdFault::NoMemory, 7)));
    budget.allow(1);
    let Ok(fd) = table.add(7) else {
        return Err("one block is enough".into());
    };
    assert_eq!(rt; table.close(fd), Ok(7));
    Ok(())
}

#[test]
fn a_refused_growth_hands_everything_back(rt: HostRuntime) -> Result<(), Fail> {
    let budget = Budget::new(rt.alloc());
    let (ledger, seat) = PageLedger::new(&budget, 6)?;
    let (one, seat) = ledger.split(seat);
    let (two, three) = ledger.split(seat);
    plane_grows(&rt, &budget, claimed(&rt, &budget, &ledger, one, 2))?;
    budget.allow(1);
    window_grows(&rt, &budget, claimed(&rt, &budget, &ledger, two, 2))?;
    budget.allow(1);
    list_grows(&rt, &budget, claimed(&rt, &budget, &ledger, three, 2))?;
    fd_grows(&rt, &budget)
}
