//! Directories that are left.
use crate::stood::{is_ignored, stand, tree};
use ignore_guide::{Guide, GuideError, Place};

/// How leaving a place ends.
fn left(guide: &mut Guide, place: Place) -> Option<GuideError> {
    guide.leave(place).err()
}

#[test]
fn a_directory_is_left_after_those_in_it(rt: HostRuntime) -> anyhow::Result<()> {
    let tree = tree(rt.alloc())?;
    let mut stood = stand(rt.alloc(), &tree)?;
    assert_eq!(rt;
        left(&mut stood.guide, stood.root),
        Some(GuideError::HasChildren)
    );
    assert_eq!(rt; left(&mut stood.guide, stood.src), None);
    assert_eq!(rt;
        is_ignored(&stood.guide, stood.root, "a.o", false),
        Some(true)
    );
    assert_eq!(rt; left(&mut stood.guide, stood.root), None);
    Ok(())
}

#[test]
fn a_place_that_was_left_is_none(rt: HostRuntime) -> anyhow::Result<()> {
    let tree = tree(rt.alloc())?;
    let mut stood = stand(rt.alloc(), &tree)?;
    assert_eq!(rt; left(&mut stood.guide, stood.src), None);
    assert_eq!(rt;
        left(&mut stood.guide, stood.src),
        Some(GuideError::NoPlace)
    );
    assert_eq!(rt; is_ignored(&stood.guide, stood.src, "a.c", false), None);
    Ok(())
}

#[test]
fn its_number_serves_another_place(rt: HostRuntime) -> anyhow::Result<()> {
    let tree = tree(rt.alloc())?;
    let mut stood = stand(rt.alloc(), &tree)?;
    assert_eq!(rt; left(&mut stood.guide, stood.src), None);
    let again = stood.guide.enter(&tree, stood.root, "src")?.place;
    assert_eq!(rt; again.index, stood.src.index);
    assert_eq!(rt; is_ignored(&stood.guide, stood.src, "a.o", false), None);
    assert_eq!(rt; is_ignored(&stood.guide, again, "a.o", false), Some(true));
    Ok(())
}
