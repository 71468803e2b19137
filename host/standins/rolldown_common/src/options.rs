//! Options of manual code splitting, and the callbacks in them.

use std::{
    borrow::Cow,
    fmt,
    future::{Ready as StdReady, ready},
    sync::Arc,
};

/// What a callback hands back: an answer that is there at once.
pub type Ready<T> = StdReady<anyhow::Result<T>>;

/// A test of modules: asked once with all ids, it answers for each.
pub type TestFn = Arc<dyn Fn(Vec<String>) -> Ready<Vec<bool>> + Send + Sync>;

/// A naming of modules: asked once with all ids, it answers for each.
pub type NameFn = Arc<dyn Fn(Vec<String>) -> Ready<Vec<Option<String>>> + Send + Sync>;

/// A test of one id, in the place of a regular expression.
pub struct TestRegex(pub Box<dyn Fn(&str) -> bool + Send + Sync>);

impl TestRegex {
    /// Whether the id matches.
    #[inline]
    pub fn matches(&self, id: &str) -> bool {
        (self.0)(id)
    }
}

/// Which modules a group is for.
pub enum MatchGroupTest {
    Regex(TestRegex),
    Function(TestFn),
}

/// How a group names the chunk of a module.
pub enum MatchGroupName {
    Static(String),
    Dynamic(NameFn),
}

impl MatchGroupName {
    /// The names of modules, `None` where there is none.
    pub async fn values(
        &self,
        _ctx: &ChunkingContext,
        ids: Vec<String>,
    ) -> anyhow::Result<Vec<Option<Cow<'_, str>>>> {
        match self {
            Self::Static(name) => Ok(vec![Some(Cow::Borrowed(name.as_str())); ids.len()]),
            Self::Dynamic(names) => {
                let names = names(ids).await?;
                Ok(names.into_iter().map(|name| name.map(Cow::Owned)).collect())
            }
        }
    }
}

/// What is known of modules elsewhere; empty here.
#[derive(Debug, Default)]
pub struct ModuleInfos;

/// What a naming callback may ask about; here it asks nothing.
pub struct ChunkingContext;

impl ChunkingContext {
    /// A context over module infos.
    pub fn new(_module_infos: Arc<ModuleInfos>) -> Self {
        Self
    }
}

/// One group.
pub struct MatchGroup {
    pub name: MatchGroupName,
    pub test: Option<MatchGroupTest>,
    pub tags: Option<Vec<String>>,
    pub priority: Option<u32>,
    pub min_size: Option<f64>,
    pub max_size: Option<f64>,
    pub min_module_size: Option<f64>,
    pub max_module_size: Option<f64>,
    pub min_share_count: Option<u32>,
    pub include_dependencies_recursively: Option<bool>,
    pub entries_aware: Option<bool>,
    pub entries_aware_merge_threshold: Option<f64>,
}

/// The global options and the groups.
pub struct ManualCodeSplittingOptions {
    pub min_size: Option<f64>,
    pub max_size: Option<f64>,
    pub min_module_size: Option<f64>,
    pub max_module_size: Option<f64>,
    pub min_share_count: Option<u32>,
    pub include_dependencies_recursively: Option<bool>,
    pub groups: Option<Vec<MatchGroup>>,
    pub internal_invalidate_module_info_cache: Option<InvalidateModuleInfoCache>,
}

/// A call at the end of code splitting, which does nothing here.
pub struct InvalidateModuleInfoCache;

impl InvalidateModuleInfoCache {
    /// The call.
    pub fn call(&self) -> Ready<()> {
        ready(Ok(()))
    }
}

/// In which order the modules of a chunk stand.
#[derive(Debug, Clone, Copy, Default)]
pub enum ChunkModulesOrderBy {
    /// The other order, which document 01 leaves out.
    ModuleId,
    #[default]
    ExecOrder,
}

/// The experimental options that the crate's text reads.
#[derive(Debug, Default)]
pub struct ExperimentalOptions {
    pub chunk_modules_order: Option<ChunkModulesOrderBy>,
}

impl ExperimentalOptions {
    /// Whether chunks carry notes on why they were made.
    pub fn is_attach_debug_info_full(&self) -> bool {
        false
    }
}

/// The options that the crate's text reads.
#[derive(Default)]
pub struct NormalizedBundlerOptions {
    pub manual_code_splitting: Option<ManualCodeSplittingOptions>,
    pub experimental: ExperimentalOptions,
    pub devtools: bool,
}

impl fmt::Debug for NormalizedBundlerOptions {
    fn fmt(&self, f: &mut fmt::Formatter<'_>) -> fmt::Result {
        f.debug_struct("NormalizedBundlerOptions").finish_non_exhaustive()
    }
}
