//! All default types of the original.
use ignore::Error;
use ignore::types::TypesBuilder;
use std::alloc::Global;
use std::test::Fail;

/// How many names the default types have.
fn names(alloc: Global) -> Result<usize, Error> {
    let mut types = TypesBuilder::new(alloc);
    types.push_all_defaults()?;
    Ok(types.definitions()?.len())
}

#[test]
fn all_default_types_have_as_many_names_as_the_original(rt: HostRuntime) -> Result<(), Fail> {
    assert_eq!(rt; names(rt.alloc())?, 224);
    Ok(())
}

/// Whether a file is of a default type.
fn is_of_type(alloc: Global, name: &str, path: &str) -> Result<bool, Error> {
    let mut types = TypesBuilder::new(alloc);
    types.add_all_defaults()?;
    types.push_selection(name, false)?;
    Ok(types.build()?.matched(path, false)?.is_whitelist())
}

#[test]
fn the_first_and_the_last_row_and_common_ones_are_there(rt: HostRuntime) -> Result<(), Fail> {
    for (name, path) in [
        ("ada", "a.adb"),
        ("markdown", "README.md"),
        ("py", "a.py"),
        ("zstd", "a.zst"),
    ] {
        assert!(rt; is_of_type(rt.alloc(), name, path)?);
    }
    Ok(())
}
