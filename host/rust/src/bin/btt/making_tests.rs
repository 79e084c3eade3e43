//! How a new file gets its name, and what stays beside it.
use super::*;
use folder::Folder;
use std::env;

#[path = "../../../tests/support/folder.rs"]
mod folder;

fn folder(name: &str) -> Folder {
    Folder::new(&env::temp_dir(), &format!("btt-making-{name}"))
}

#[test]
fn a_name_that_is_taken_at_the_last_moment_is_left() {
    let folder = folder("taken");
    let (new, path) = (folder.path("new"), folder.path("arena"));
    fs::write(&new, "new").unwrap();
    fs::write(&path, "old").unwrap();
    assert_eq!(named(&new, &path, false).unwrap_err().kind(), ErrorKind::AlreadyExists);
    assert_eq!(fs::read(&path).unwrap(), b"old");
    named(&new, &path, true).unwrap();
    assert_eq!(fs::read(&path).unwrap(), b"new");
}

#[test]
fn a_file_named_as_a_new_one_would_be_is_left() {
    let folder = folder("beside");
    let path = folder.path("arena");
    let (first, _) = new_file(&path).unwrap();
    fs::write(&first, "not mine").unwrap();
    for force in [false, true] {
        assert!(matches!(placed(path.as_os_str(), b"new", force, sync_folder), Ok(Placed::Synced)));
        assert_eq!(fs::read(&path).unwrap(), b"new");
        assert_eq!(fs::read(&first).unwrap(), b"not mine");
    }
    assert!(placed(path.as_os_str(), b"newer", false, sync_folder).is_err());
    assert_eq!(fs::read(&first).unwrap(), b"not mine");
    assert_eq!(folder.names().len(), 2, "nothing else is left beside");
}

#[test]
fn a_folder_that_cannot_be_synchronised_does_not_undo_the_file() {
    let folder = folder("unsynced");
    let path = folder.path("arena");
    for force in [false, true] {
        let found = placed(path.as_os_str(), b"new", force, |_| Err(io::Error::other("no power to tell")));
        assert!(matches!(found, Ok(Placed::Unsynced(error)) if error.to_string() == "no power to tell"));
        assert_eq!(fs::read(&path).unwrap(), b"new");
        assert_eq!(folder.names(), ["arena"]);
    }
}
