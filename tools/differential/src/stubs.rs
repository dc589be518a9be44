//! What the crate's published files need from files that are not among them.

/// Declares a number type that names a record of one table.
macro_rules! declare_id {
    ($(#[$attribute:meta])* $name:ident) => {
        $(#[$attribute])*
        #[derive(Clone, Copy, Debug, Hash, PartialEq, Eq, PartialOrd, Ord)]
        pub struct $name(pub usize);

        impl $name {
            /// The number itself.
            pub fn index(self) -> usize {
                self.0
            }
        }
    };
}

/// Source texts. A case has positions but no texts, and this tool never prints the crate's own
/// diagnostics, so this holds nothing; it is there so that the crate's code for them compiles.
pub mod files {
    #[derive(Debug, Default)]
    pub struct Files {
        pub file_names: Vec<String>,
        pub file_texts: Vec<String>,
    }

    impl Files {
        pub fn file_name(&self, _file: usize) -> Option<&str> {
            None
        }

        pub fn file_line_map(&self, _file: usize) -> Option<&LineMap> {
            None
        }
    }

    /// The offsets at which a text's lines end.
    #[derive(Debug)]
    pub struct LineMap(Vec<usize>);

    impl LineMap {
        pub fn line(&self, _offset: usize) -> usize {
            0
        }
    }

    impl std::ops::Deref for LineMap {
        type Target = [usize];

        fn deref(&self) -> &[usize] {
            &self.0
        }
    }
}
