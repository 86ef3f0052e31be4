//! A matcher of single paths, with ample memory.
use ignore_dir::{Outside, Settings};
use ignore_query::IncrementalIgnore;
use std::alloc::Global;

fn matcher(alloc: Global) -> anyhow::Result<IncrementalIgnore> {
    let root = String::from_str(alloc, "/t")?;
    let settings = Settings::standard(alloc);
    Ok(IncrementalIgnore::new(settings, Outside::empty(alloc), root, None))
}

fn cloned(alloc: Global) -> anyhow::Result<IncrementalIgnore> {
    let matcher = matcher(alloc)?;
    Ok(matcher.clone()?)
}

#[test]
fn the_root_of_a_clone(rt: HostRuntime) -> anyhow::Result<()> {
    let clone = cloned(rt.alloc())?;
    assert_eq!(rt; clone.root(), "/t");
    Ok(())
}
