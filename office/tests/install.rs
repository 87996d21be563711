//! tools/install puts every file where it says.

mod program;

use program::Folder;
use std::fs;
use std::os::unix::fs::PermissionsExt;
use std::process::Command;

const SCRIPT: &str = concat!(env!("CARGO_MANIFEST_DIR"), "/../tools/install");

/// A folder with what the script installs, in its folder "built".
fn with_built(name: &str) -> Folder {
    let folder = Folder::new(name);
    let built = folder.0.join("built");
    fs::create_dir_all(&built).unwrap();
    for name in ["saw", "fold", "libengine.a"] {
        fs::write(built.join(name), name).unwrap();
    }
    fs::copy(env!("CARGO_BIN_EXE_office"), built.join("office")).unwrap();
    folder
}

/// Runs the script, which succeeds.
fn installed(script: &mut Command) {
    let output = script.output().unwrap();
    let said = String::from_utf8_lossy(&output.stderr);
    assert!(output.status.success(), "{said}");
}

#[test]
fn files_are_installed() {
    let Folder(folder) = &with_built("install");
    let mut script = Command::new(SCRIPT);
    script.arg("/opt/saw").env("DESTDIR", folder);
    installed(script.env("BUILT", folder.join("built")));
    let there = |name: &str| folder.join("opt/saw").join(name);
    for (name, content) in [
        ("bin/saw", "saw"),
        ("bin/fold", "fold"),
        ("lib/libsaw_engine.a", "libengine.a"),
    ] {
        assert_eq!(fs::read_to_string(there(name)).unwrap(), content);
    }
    for name in ["bin/saw", "bin/fold", "bin/office"] {
        let mode = fs::metadata(there(name)).unwrap().permissions().mode();
        assert_eq!(mode & 0o777, 0o755, "{name}");
    }
    assert!(there("include/saw_engine.h").is_file());
    for name in ["FORMAT.md", "panel.html", "panel.pdf"] {
        assert!(there("share/doc/saw_engine").join(name).is_file(), "{name}");
    }
    let version = Command::new(there("bin/office"))
        .arg("--version")
        .output()
        .unwrap();
    let version = String::from_utf8(version.stdout).unwrap();
    assert_eq!(version, concat!("office ", env!("CARGO_PKG_VERSION"), "\n"));
}

/// Paths are meant in the folder in which the script is called, wherever the repository is.
#[test]
fn a_path_is_meant_where_the_script_is_called() {
    let Folder(folder) = &with_built("install-here");
    let mut script = Command::new(SCRIPT);
    script.arg("my saw").env("BUILT", "built");
    installed(script.env_remove("DESTDIR").current_dir(folder));
    assert!(folder.join("my saw/bin/office").is_file());
}

/// What the script prints of itself names every file that it installs.
#[test]
fn the_use_is_printed() {
    let run = |words: &[&str]| Command::new(SCRIPT).args(words).output().unwrap();
    for word in ["--help", "-h"] {
        let output = run(&[word]);
        assert!(output.status.success());
        let told = String::from_utf8(output.stdout).unwrap();
        for part in [
            "usage: tools/install [PREFIX]",
            "PREFIX/bin/saw, fold, office",
            "panel.html, .pdf",
        ] {
            assert!(told.contains(part), "{told}");
        }
    }
    for wrong in [&["one", "two"][..], &["--prefix=/opt/saw"], &[""]] {
        let output = run(wrong);
        assert_eq!((output.status.code(), output.stdout.len()), (Some(1), 0));
        assert!(String::from_utf8_lossy(&output.stderr).contains("usage: tools/install"));
    }
}
