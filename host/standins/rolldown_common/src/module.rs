//! Modules.

use std::ops::{Index, IndexMut};

use arcstr::ArcStr;
use oxc_index::IndexVec;
use rustc_hash::order::{Kind, Numbered};

oxc_index::define_index_type! {
    /// The number of a module.
    pub struct ModuleIdx = u32;
}

impl Numbered for ModuleIdx {
    const KIND: Kind = Kind::Module;
    #[inline]
    fn number(&self) -> u32 {
        self.raw()
    }
}

/// A module of the build's own.
#[derive(Debug)]
pub struct NormalModule {
    pub idx: ModuleIdx,
    pub id: ArcStr,
    pub stable_id: ArcStr,
    pub exec_order: u32,
    pub size: u64,
    /// Read only by the order of chunk modules that document 01 leaves out.
    pub import_records: Vec<()>,
    /// Read only by the order of chunk modules that document 01 leaves out.
    pub meta: EcmaViewMeta,
}

impl NormalModule {
    /// The size, as it is compared with a module size limit.
    #[inline]
    pub fn size(&self) -> f64 {
        self.size as f64
    }
}

/// Flags of a module's text.
#[derive(Debug, Clone, Copy, Default)]
pub struct EcmaViewMeta(u8);

impl EcmaViewMeta {
    #[allow(non_upper_case_globals)]
    pub const ExecutionOrderSensitive: Self = Self(1);

    /// Whether all flags of `other` are set.
    pub fn contains(self, other: Self) -> bool {
        self.0 & other.0 == other.0
    }
}

/// A module that isn't the build's own.
#[derive(Debug)]
pub struct ExternalModule {
    pub idx: ModuleIdx,
    pub id: ArcStr,
    pub stable_id: ArcStr,
    pub exec_order: u32,
}

/// A module of either kind.
#[derive(Debug)]
pub enum Module {
    Normal(Box<NormalModule>),
    External(Box<ExternalModule>),
}

impl Module {
    /// The module, if it is the build's own.
    #[inline]
    pub fn as_normal(&self) -> Option<&NormalModule> {
        match self {
            Self::Normal(module) => Some(module),
            Self::External(_) => None,
        }
    }

    /// Whether it is the build's own.
    #[inline]
    pub fn is_normal(&self) -> bool {
        self.as_normal().is_some()
    }

    /// The size in bytes; 0 of an external module.
    #[inline]
    pub fn size(&self) -> u64 {
        self.as_normal().map_or(0, |module| module.size)
    }

    /// The id that callbacks are asked about.
    #[inline]
    pub fn id(&self) -> &ArcStr {
        match self {
            Self::Normal(module) => &module.id,
            Self::External(module) => &module.id,
        }
    }

    /// The stable id.
    #[inline]
    pub fn stable_id(&self) -> &ArcStr {
        match self {
            Self::Normal(module) => &module.stable_id,
            Self::External(module) => &module.stable_id,
        }
    }

    /// The execution order.
    #[inline]
    pub fn exec_order(&self) -> u32 {
        match self {
            Self::Normal(module) => module.exec_order,
            Self::External(module) => module.exec_order,
        }
    }
}

/// All modules.
#[derive(Debug, Default)]
pub struct ModuleTable {
    pub modules: IndexVec<ModuleIdx, Module>,
}

impl Index<ModuleIdx> for ModuleTable {
    type Output = Module;
    #[inline]
    fn index(&self, index: ModuleIdx) -> &Module {
        &self.modules[index]
    }
}

impl IndexMut<ModuleIdx> for ModuleTable {
    #[inline]
    fn index_mut(&mut self, index: ModuleIdx) -> &mut Module {
        &mut self.modules[index]
    }
}

/// An entry of the build. Only names of chunks read it.
#[derive(Debug)]
pub struct EntryPoint {
    pub name: Option<ArcStr>,
    pub idx: ModuleIdx,
}
