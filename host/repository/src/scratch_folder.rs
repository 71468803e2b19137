//! A folder outside the repository in which scripts are tried.

use std::{
    fs,
    os::unix::fs::PermissionsExt,
    path::{Path, PathBuf},
    process::Command,
    sync::atomic::{AtomicUsize, Ordering},
};

/// A folder of its own, removed with all that is in it when it is dropped.
pub struct ScratchFolder(PathBuf);

impl ScratchFolder {
    /// An empty folder.
    pub fn new(label: &str) -> Self {
        static COUNT: AtomicUsize = AtomicUsize::new(0);
        let number = COUNT.fetch_add(1, Ordering::Relaxed);
        let name = format!("gentropi-{label}-{}-{number}", std::process::id());
        let folder = std::env::temp_dir().join(name);
        fs::create_dir_all(&folder).expect("a folder can be made");
        Self(folder)
    }

    /// Where it is.
    pub fn path(&self) -> &Path {
        &self.0
    }

    /// Writes a file, and the folders that it stands in.
    pub fn write(&self, path: &str, text: &str) {
        let path = self.0.join(path);
        fs::create_dir_all(path.parent().expect("a file stands in a folder")).expect("a folder");
        fs::write(path, text).expect("the file can be written");
    }

    /// Writes a file that can be run.
    pub fn write_script(&self, path: &str, text: &str) {
        self.write(path, text);
        let may_run = fs::Permissions::from_mode(0o755);
        fs::set_permissions(self.0.join(path), may_run).expect("the mode can be set");
    }

    /// A file's text, empty if it isn't there.
    pub fn read(&self, path: &str) -> String {
        fs::read_to_string(self.0.join(path)).unwrap_or_default()
    }

    /// Puts links to the system's commands into the folder `bin`, and no others.
    pub fn link_commands(&self, names: &[&str]) {
        fs::create_dir_all(self.0.join("bin")).expect("a folder");
        for name in names {
            let path = command(name).unwrap_or_else(|| panic!("there is no command {name}"));
            std::os::unix::fs::symlink(path, self.0.join("bin").join(name)).expect("a link");
        }
    }

    /// A command of this folder that finds other commands in `bin` alone.
    pub fn command(&self, path: &str) -> Command {
        let mut command = Command::new(self.0.join(path));
        command.env("PATH", self.0.join("bin")).current_dir(&self.0);
        command
    }
}

impl Drop for ScratchFolder {
    fn drop(&mut self) {
        let _ = fs::remove_dir_all(&self.0);
    }
}

/// Where a command of the system is, if there is one of that name.
pub fn command(name: &str) -> Option<PathBuf> {
    let path = std::env::var_os("PATH")?;
    std::env::split_paths(&path).map(|folder| folder.join(name)).find(|file| file.is_file())
}
