//! What the published files name and no reading asks for; a lookup asks for a version's index and for
//! the demangler. One more stands in a crate of its own, because it derives: `derive_more::Debug`.

/// Stands in for the linker's errors: one without its text.
pub(crate) mod error {
    pub(crate) struct Error;

    pub(crate) type Result<T = (), E = Error> = std::result::Result<T, E>;

    impl From<winnow::error::ContextError> for Error {
        fn from(_: winnow::error::ContextError) -> Self {
            Self
        }
    }
}

pub(crate) mod macros {
    /// Stands in for the macro that makes an error: its words are checked and not written.
    macro_rules! error {
        ($($words:tt)*) => {{
            let _ = format_args!($($words)*);
            crate::error::Error
        }};
    }

    /// Stands in for the macro that returns an error.
    macro_rules! bail {
        ($($words:tt)*) => {
            return Err(crate::error!($($words)*))
        };
    }

    /// Stands in for the macro that times a phase of the linker.
    macro_rules! timing_phase {
        ($name:literal) => {};
    }

    pub(crate) use {bail, error, timing_phase};
}

pub(crate) mod input_data {
    /// Stands in for a script with its file: the bytes alone.
    pub(crate) struct ScriptData<'data> {
        pub(crate) raw: &'data [u8],
    }
}

pub(crate) mod platform {
    /// Stands in for a symbol's name in an object file, of which symbol.rs makes its own.
    pub(crate) trait RawSymbolName<'data> {
        fn name(&self) -> &'data [u8];
        fn version_name(&self) -> Option<&'data [u8]>;
    }
}

/// Stands in for the crate `object`: a version's index, which lookups answer.
pub(crate) mod object {
    pub(crate) mod elf {
        pub(crate) struct VersionIndex(pub(crate) u16);

        pub(crate) const VER_NDX_GLOBAL: VersionIndex = VersionIndex(1);

        impl std::ops::Add<u16> for VersionIndex {
            type Output = VersionIndex;

            fn add(self, number: u16) -> VersionIndex {
                VersionIndex(self.0 + number)
            }
        }
    }
}

/// Stands in for the crate `symbolic_common`: a name to be demangled, in lookups.
pub(crate) mod symbolic_common {
    pub(crate) struct Name;

    pub(crate) enum NameMangling {
        Mangled,
    }

    pub(crate) enum Language {
        Cpp,
    }

    impl Name {
        pub(crate) fn new(_: &str, _: NameMangling, _: Language) -> Self {
            Self
        }
    }
}

/// Stands in for the crate `symbolic_demangle`: a demangler that answers what it was told to, so that
/// a lookup can be asked of any two names. At first it knows no name.
pub(crate) mod symbolic_demangle {
    use std::cell::RefCell;

    thread_local! {
        static ANSWER: RefCell<Option<String>> = const { RefCell::new(None) };
    }

    pub(crate) fn answer(name: Option<&str>) {
        ANSWER.with_borrow_mut(|answer| *answer = name.map(str::to_string));
    }

    pub(crate) struct DemangleOptions;

    impl DemangleOptions {
        pub(crate) fn complete() -> Self {
            Self
        }

        pub(crate) fn return_type(self, _: bool) -> Self {
            self
        }
    }

    pub(crate) trait Demangle {
        fn demangle(&self, options: DemangleOptions) -> Option<String>;
    }

    impl Demangle for super::symbolic_common::Name {
        fn demangle(&self, _: DemangleOptions) -> Option<String> {
            ANSWER.with_borrow(Option::clone)
        }
    }
}
