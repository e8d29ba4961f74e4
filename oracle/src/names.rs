//! Lists of names: an enum, and the table of what is said of each name.

/// `named! { Sort { Name: "what is said of it", .. } }`, in the order of the table.
macro_rules! named {
    ($(#[$about:meta])* $sort:ident { $($name:ident: $says:literal),* $(,)? }) => {
        $(#[$about])*
        #[derive(Clone, Copy, PartialEq, Eq, Hash, Debug)]
        pub enum $sort {
            $($name),*
        }

        impl $sort {
            pub const TABLE: &'static [($sort, &'static str)] = &[$(($sort::$name, $says)),*];
        }
    };
}

pub(crate) use named;
