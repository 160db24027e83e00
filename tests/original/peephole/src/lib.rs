//! Stands in for `serde_derive`, and shows the private fields of the original.
//!
//! Under its feature `enable-serde`, list.rs derives `Serialize` and `Deserialize` for its two
//! structs. What a derive writes stands in the module of the struct, so it may name private fields.
//! These two serialize nothing: they write the few functions that the runs beside the original need
//! to compare handles, words and heads, and to begin with any of these. So list.rs is built as it
//! stands, not a letter changed, and nothing is guessed about how its structs are laid out.

use proc_macro::{TokenStream, TokenTree};

/// What shows the field of the struct `EntityList`.
const HANDLE: &str = "
impl<T: EntityRef + ReservedValue> EntityList<T> {
    /// The handle: where the elements start in the pool, 0 for the empty list.
    pub fn handle(&self) -> u32 {
        self.index
    }
}";

/// What shows the fields of the struct `ListPool`.
const WORDS_AND_HEADS: &str = "
impl<T: EntityRef + ReservedValue> ListPool<T> {
    /// The used words.
    pub fn words(&self) -> &[T] {
        &self.data
    }

    /// The heads of the chains of free blocks, as many as were needed so far.
    pub fn heads(&self) -> &[usize] {
        &self.free
    }
}";

/// What makes an `EntityList` from its field.
const OF_HANDLE: &str = "
impl<T: EntityRef + ReservedValue> EntityList<T> {
    /// The list with a handle, whatever that is.
    pub fn of_handle(index: u32) -> Self {
        Self { index, unused: PhantomData }
    }
}";

/// What makes a `ListPool` from its fields.
const OF_PARTS: &str = "
impl<T: EntityRef + ReservedValue> ListPool<T> {
    /// The pool with these words and heads, whatever they are.
    pub fn of_parts(data: Vec<T>, free: Vec<usize>) -> Self {
        Self { data, free }
    }
}";

/// The name that stands behind the word `struct`.
fn struct_name(item: TokenStream) -> Option<String> {
    let mut tokens = item.into_iter().skip_while(
        |token| !matches!(token, TokenTree::Ident(word) if word.to_string() == "struct"),
    );
    tokens.nth(1).map(|name| name.to_string())
}

/// What is written for one of the two structs.
fn written(item: TokenStream, for_list: &str, for_pool: &str) -> TokenStream {
    let functions = match struct_name(item).as_deref() {
        Some("EntityList") => for_list,
        Some("ListPool") => for_pool,
        other => panic!("a struct that list.rs did not have: {other:?}"),
    };
    functions.parse().expect("the functions are Rust")
}

/// Writes the functions that show the private fields.
#[proc_macro_derive(Serialize)]
pub fn shown(item: TokenStream) -> TokenStream {
    written(item, HANDLE, WORDS_AND_HEADS)
}

/// Writes the functions that make the structs from their fields.
#[proc_macro_derive(Deserialize)]
pub fn made(item: TokenStream) -> TokenStream {
    written(item, OF_HANDLE, OF_PARTS)
}
