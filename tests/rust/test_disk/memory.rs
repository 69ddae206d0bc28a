// The memory disk, and stores over it.

use crate::calls::{Call, plays, write_at};
use loop_disk::{Disk, DiskFault, FuseDisk, MemDisk, store, store_in_turn};
use std::alloc::{AllocError, Allocator};
use std::process::Abort;
use std::test::Fail;
use test_alloc::Budget;

// A caller like those in the layers above: it knows nothing of the disk but the trait.
fn store_three<D: Disk>(disk: &mut D, at: u64, x: u8, y: u8, z: u8) -> Result<(), DiskFault> {
    store_in_turn(disk, at, &[x], at + 1, &[y])?;
    store(disk, at + 2, &[z])
}

#[test]
fn three_bytes_are_stored_in_turn(rt: HostRuntime) -> Result<(), Fail> {
    let mut disk = MemDisk::new(rt.alloc(), 5)?;
    assert_eq!(rt; store_three(&mut disk, 2, 7, 8, 9), Ok(()));
    assert_eq!(rt; disk.bytes(), [0, 0, 7, 8, 9].as_slice());
    let mut fuse = FuseDisk::new(disk, 4);
    assert_eq!(rt; store_three(&mut fuse, 0, 1, 2, 3), Err(DiskFault::Write));
    assert_eq!(rt; fuse.into_inner().bytes(), [1, 2, 7, 8, 9].as_slice());
    Ok(())
}

// Writes a hundred times at one place.
fn is_written_often<D: Disk>(rt: &impl Abort, disk: &mut D) {
    for attempt in 0..100u8 {
        assert_eq!(*rt; disk.size(), 6);
        assert_eq!(*rt; write_at(disk, 1, &[attempt, 98, 99]), Ok(()));
        assert_eq!(*rt; disk.sync(), Ok(()));
    }
}

// A disk takes one block, and no more when it is written. There is none for a second disk.
fn is_kept<A: Allocator + Copy>(
    rt: &impl Abort,
    memory: &Budget,
    alloc: A,
) -> Result<(), AllocError> {
    memory.allow(1);
    let mut disk = MemDisk::new(alloc, 6)?;
    assert_eq!(*rt; memory.left(), 0);
    is_written_often(rt, &mut disk);
    plays(
        rt,
        &mut disk,
        &[
            Call::Size(6),
            Call::Rows(3, b"x", b"", b"yz", Ok(())),
            Call::Read(3, b"xyz", Ok(())),
        ],
    );
    assert_eq!(*rt; disk.bytes(), b"\0cbxyz".as_slice());
    assert!(*rt; MemDisk::new(alloc, 1).is_err());
    Ok(())
}

#[test]
fn a_memory_disk_keeps_what_is_written_and_takes_no_memory(rt: HostRuntime) -> Result<(), Fail> {
    let memory = Budget::new(rt.alloc());
    is_kept(&rt, &memory, &memory)?;
    let mut image = MemDisk::of(b"image".to_vec(rt.alloc())?);
    plays(&rt, &mut image, &[Call::Read(1, b"mag", Ok(()))]);
    assert!(rt; MemDisk::new(rt.alloc(), u64::MAX).is_err());
    Ok(())
}
