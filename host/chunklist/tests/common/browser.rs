//! A real browser, where one is installed.

use std::{
    env, fs,
    io::{self, Write},
    path::{Path, PathBuf},
    process::{Command, Stdio},
};

/// The programs that are looked for.
const NAMES: [&str; 4] = ["chromium", "chromium-browser", "google-chrome", "google-chrome-stable"];

/// The first browser on the path. Without one, or where the caller's shell wants none, a word is printed, and the caller skips its test.
pub fn browser() -> Option<PathBuf> {
    if env::var_os("GENTROPI_NO_BROWSER").is_some() {
        let _ = writeln!(io::stderr(), "SKIPPED: GENTROPI_NO_BROWSER is set");
        return None;
    }
    let folders: Vec<PathBuf> = env::split_paths(&env::var_os("PATH")?).collect();
    let paths = NAMES.iter().flat_map(|name| folders.iter().map(move |folder| folder.join(name)));
    let found = paths.into_iter().find(|path| path.is_file());
    if found.is_none() {
        // Not `eprintln!`, which the test runner would keep to itself.
        let _ = writeln!(io::stderr(), "SKIPPED: no browser is installed, one of {NAMES:?}");
    }
    found
}

/// A folder of its own for a test, empty at first.
pub fn folder(name: &str) -> PathBuf {
    let folder = PathBuf::from(env!("CARGO_TARGET_TMPDIR")).join(name);
    let _ = fs::remove_dir_all(&folder);
    fs::create_dir_all(&folder).expect("a folder for the test");
    folder
}

/// The page as it is after its script has run. The fragment is what stands behind `#`.
pub fn opened(browser: &Path, page: &Path, fragment: &str) -> String {
    let profile = page.with_extension("profile");
    let output = Command::new(browser)
        .args(["--headless", "--no-sandbox", "--disable-gpu", "--no-first-run", "--dump-dom"])
        .args(["--virtual-time-budget=5000", "--disable-dev-shm-usage"])
        .arg(format!("--user-data-dir={}", profile.display()))
        .arg(format!("file://{}#{fragment}", page.display()))
        .stderr(Stdio::null())
        .output()
        .expect("the browser can be run");
    assert!(output.status.success(), "{}", output.status);
    String::from_utf8(output.stdout).expect("the page is UTF-8")
}
