//! Links the archive of share_sheet_c. It is proved and built first, by Rattle's command `rt`, if
//! it is missing or older than a source.
use std::fs::{self, File};
use std::io;
use std::path::{Path, PathBuf};
use std::process::{exit, Command, Stdio};
use std::time::SystemTime;

fn main() {
    let package = PathBuf::from(std::env::var_os("CARGO_MANIFEST_DIR").expect("cargo sets it"));
    let Some(root) = package.ancestors().nth(2) else {
        fail("the package must stand in the folder interface/rust of its repository");
    };
    let (crates, list) = (root.join("crates"), root.join("crates.txt"));
    let library = crates.join("share_sheet_c");
    let folder = library.join("out");
    let archive = folder.join("libshare_sheet_c.a");

    let sources = source_folders(&crates).unwrap_or_else(|why| {
        fail(&format!("cannot look at the crates in {}: {why}", root.display()));
    });
    for path in sources.iter().chain([&list, &archive]) {
        println!("cargo:rerun-if-changed={}", path.display());
    }
    println!("cargo:rustc-link-search=native={}", folder.display());
    println!("cargo:rustc-link-lib=static=share_sheet_c");

    let target = |part| std::env::var(format!("CARGO_CFG_TARGET_{part}")).unwrap_or_default();
    if target("ARCH") != "x86_64" || target("OS") != "linux" {
        fail("share_sheet_c is built for Linux on x86-64 only");
    }

    let changed = newest_source(sources, &list).unwrap_or_else(|why| {
        fail(&format!("cannot look at the sources in {}: {why}", root.display()));
    });
    let built = fs::metadata(&archive).and_then(|found| found.modified());
    if built.map_or(true, |built| built < changed) {
        build(&library, &archive);
        // The archive gets the date of its newest source. A source that changes during the build
        // is newer, and cargo does not take the archive for a file that changed after it looked.
        let dated = File::options().append(true).open(&archive);
        if let Err(why) = dated.and_then(|file| file.set_modified(changed)) {
            fail(&format!("cannot date {}: {why}", archive.display()));
        }
    }
}

/// The folders of all crates but `out`, where rt keeps what it makes.
fn source_folders(crates: &Path) -> io::Result<Vec<PathBuf>> {
    let mut folders = vec![];
    for entry in fs::read_dir(crates)? {
        let path = entry?.path();
        if path.is_dir() {
            for entry in fs::read_dir(path)? {
                let part = entry?;
                if part.path().is_dir() && part.file_name() != "out" {
                    folders.push(part.path());
                }
            }
        }
    }
    Ok(folders)
}

/// When the list of crates or a source in these folders was last changed.
fn newest_source(mut folders: Vec<PathBuf>, list: &Path) -> io::Result<SystemTime> {
    let mut newest = fs::metadata(list)?.modified()?;
    while let Some(folder) = folders.pop() {
        for entry in fs::read_dir(folder)? {
            let path = entry?.path();
            if path.is_dir() {
                folders.push(path);
            } else if path.extension().is_some_and(|end| end == "rt" || end == "antt") {
                newest = newest.max(fs::metadata(&path)?.modified()?);
            }
        }
    }
    Ok(newest)
}

/// Proves the library and writes its archive. The output of rt is shown only if it fails.
fn build(library: &Path, archive: &Path) {
    let mut rt = Command::new("rt");
    rt.arg("lib").current_dir(library).stdin(Stdio::null());
    let output = rt.output().unwrap_or_else(|why| match why.kind() {
        io::ErrorKind::NotFound => fail(&format!(
            "{} is missing or older than its sources, and Rattle's command 'rt', which builds it, \
             is not on the PATH. Put rt on the PATH, or bring an archive that was built from \
             these sources",
            archive.display()
        )),
        _ => fail(&format!("cannot run Rattle's command 'rt': {why}")),
    });
    if !output.status.success() {
        // a failed proof leaves no archive behind
        let _ = fs::remove_file(archive);
        for part in [&output.stdout, &output.stderr] {
            eprint!("{}", String::from_utf8_lossy(part));
        }
        fail("the library share_sheet_c was not built; rt says why above");
    }
    if !archive.is_file() {
        fail(&format!("rt built no archive {}", archive.display()));
    }
}

fn fail(why: &str) -> ! {
    eprintln!("share_sheet: {why}");
    exit(1);
}
