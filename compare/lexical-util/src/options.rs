//! Stands for lexical-util's `options`.
//!
//! Document 01, "Outside": "NaN and infinity strings". The given options.rs names such strings in
//! its ready-made options, which are not used here; each is left out.

use crate::constants::FormattedSize;

/// What the options of a writer answer.
pub trait WriteOptions: Default {
    fn is_valid(&self) -> bool;
    fn buffer_size<T: FormattedSize, const FORMAT: u128>(&self) -> usize;
}

/// The comment that the given files put above `buffer_size`.
#[macro_export]
macro_rules! write_options_doc {
    () => {
        "The bytes that a text may need."
    };
}

macro_rules! no_strings {
    ($($name:ident)*) => {$(
        pub const $name: Option<&'static [u8]> = None;
    )*};
}

no_strings! {
    CLOJURE_LITERAL CLOJURE_STRING_INF COBOL COFFEESCRIPT_INF CSHARP_LITERAL CSHARP_STRING_INF
    CXX_LITERAL_INF CXX_LITERAL_NAN C_LITERAL_INF C_LITERAL_NAN D_LITERAL ELIXIR ELM_LITERAL
    ELM_STRING_INF ELM_STRING_NAN ERLANG_LITERAL_NAN ERLANG_STRING FORTRAN_LITERAL
    FSHARP_LITERAL_INF FSHARP_LITERAL_NAN GAMBITC GO_LITERAL GUILE HASKELL_LITERAL
    HASKELL_STRING_INF JAVASCRIPT_INF JAVA_LITERAL JAVA_STRING_INF JSON JULIA_LITERAL_INF KAWA
    KOTLIN_LITERAL KOTLIN_STRING_INF MATLAB_LITERAL_INF MONGODB_INF MYSQL OBJECTIVEC
    OCAML_LITERAL_INF OCAML_LITERAL_NAN PERL_LITERAL PHP_LITERAL_INF PHP_LITERAL_NAN POSTGRESQL
    PYTHON_LITERAL REASONML_LITERAL_INF REASONML_LITERAL_NAN RUBY_LITERAL_INF RUBY_LITERAL_NAN
    RUST_LITERAL R_LITERAL_INF SAGE_LITERAL_INF SCALA_LITERAL SCALA_STRING_INF SQLITE
    SWIFT_LITERAL TOML VB_LITERAL VB_STRING_INF XML_INF ZIG_LITERAL
}
