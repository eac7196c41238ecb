//! Loads hott-surface sources, of edition 0 1 or 0 2, into numbered core modules that a kernel can check, and writes and
//! reads core text, by which stations exchange these.
//!
//! The work is done by the library `libsulyterom.a`, in which every function is proved to do what a definition says. This
//! crate adds what Rust expects: a [`Result`], views of rows and declarations as enums, tables that can be owned, lent
//! and used again. It has no dependencies, and of the standard library it uses `core` and `alloc` alone.
//!
//! ```
//! use sulyterom::{Loader, Row};
//!
//! let source = b"(surface 0 1)(module m)(postulate x nat)(postulate y (pi x (ref x) (ref x)))";
//! let mut loader = Loader::new();
//! let loaded = loader.load(source)?;
//!
//! let y = loaded.declaration(1).unwrap();
//! assert_eq!(y.name.bytes, b"y");
//! let Some(Row::Pi { domain, codomain }) = loaded.row(y.ty) else { panic!() };
//! // The domain does not see the binder, so there x is the declaration.
//! assert_eq!(loaded.row(domain), Some(Row::Global { place: 0 }));
//! assert_eq!(loaded.row(codomain), Some(Row::Var { count: 0 }));
//! # Ok::<(), sulyterom::Refusal>(())
//! ```
//!
//! In edition 0 2 an `arrow` stands for a `pi` whose name would not be used. It is told from one by its surface row alone:
//!
//! ```
//! # use sulyterom::{Loader, Row, SurfaceRow};
//! let mut loader = Loader::new();
//! let loaded = loader.load(b"(surface 0 2)(module m)(postulate f (pi x nat (arrow nat (ref x))))")?;
//! assert_eq!(loaded.surface_row(3), Some(SurfaceRow::Arrow { domain: 1, codomain: 2 }));
//! assert_eq!(loaded.row(3), Some(Row::Pi { domain: 1, codomain: 2 }));
//! // It counts as a binder in its codomain.
//! assert_eq!(loaded.row(2), Some(Row::Var { count: 1 }));
//! # Ok::<(), sulyterom::Refusal>(())
//! ```
//!
//! A source that cannot be loaded is refused with a class and, for some classes, an offset:
//!
//! ```
//! # use sulyterom::{Class, Loader};
//! let refusal = Loader::new().load(b"(surface 0 1)(module nat)").unwrap_err();
//! assert_eq!((refusal.class, refusal.offset), (Class::ReservedName, Some(21)));
//! assert_eq!(refusal.to_string(), "refused 3 at 21: reserved word where a name must stand");
//! ```
//!
//! A module is handed on as its core text, which has numbers in the place of references:
//!
//! ```
//! # use sulyterom::Loader;
//! let mut loader = Loader::new();
//! let text = loader.print(b"(surface 0 1)(module m)(postulate x nat)(postulate y (pi x (ref x) (ref x)))")?;
//! let declarations = r#"(declarations (postulate "x" nat) (postulate "y" (pi (global 0) (var 0)))))"#;
//! assert!(text.ends_with(format!("{declarations}\n").as_bytes()));
//!
//! let read = loader.read_canonical(&text)?;
//! assert_eq!(read.declaration(1).unwrap().name.bytes, b"y");
//! assert_eq!(read.row(1).unwrap().to_string(), "global 0");
//! # Ok::<(), sulyterom::Refusal>(())
//! ```
//!
//! A station's index needs only the module's name, which [`head`] gives from the beginning of a file:
//!
//! ```
//! assert_eq!(sulyterom::head(b"(surface 0 1)(module shelf)(postulate x ..")?.as_str(), "shelf");
//! # Ok::<(), sulyterom::Refusal>(())
//! ```
//!
//! A source is read by one of two readers, which give the same: [`Reader`] says why one might choose, and [`load_by`],
//! [`list_by`] and [`Loader::with_reader`] take one.
//!
//! A [`Loader`] has tables of its own and grows them. Where memory is lent by someone else, or is to have a limit, the
//! functions [`load`], [`depends`], [`binder`], [`same`], [`print`], [`read_core`] and [`read_canonical`] take [`Tables`] of
//! any sizes, and [`storage`] tells which sizes a source needs:
//!
//! ```
//! use sulyterom::{Storage, Tables, WORK_WORDS, load, storage};
//!
//! let source = b"(surface 0 1)(module m)(postulate x nat)(postulate y (pi x (ref x) (ref x)))";
//! assert_eq!(storage(source, &mut [0; WORK_WORDS])?, Storage { rows: 4, declarations: 2, frames: 1 });
//! assert_eq!(load(source, &mut Tables::for_source(source)?)?.row_count(), 4);
//! # Ok::<(), sulyterom::Refusal>(())
//! ```
//!
//! # Building
//!
//! `./sulyterom build` in the repository makes `target/staticlib/libsulyterom.a`, for x86-64 Linux, where the build
//! looks for it. `SULYTEROM_LIBRARY_FOLDER` may name another folder, by an absolute path.
#![no_std]

extern crate alloc;

mod atom;
mod binding;
mod comparison;
mod core_text;
mod declaration;
mod dependence;
mod head;
mod library;
mod listing;
mod loaded;
mod loader;
mod printed;
mod reader;
mod reference;
mod refusal;
mod row;
mod storage;
mod tables;
mod token;

pub use atom::Atom;
pub use binding::{Binding, Bound};
pub use comparison::Comparison;
pub use core_text::{CoreText, TextRow};
pub use declaration::{Declaration, DeclarationKind};
pub use dependence::Dependence;
pub use head::{HEAD_BYTES, head};
pub use listing::Listing;
pub use loaded::Loaded;
pub use loader::Loader;
pub use printed::Printed;
pub use reader::Reader;
pub use reference::{Reference, Target};
pub use refusal::{Class, Refusal};
pub use row::{Row, SurfaceRow};
pub use storage::{Storage, storage};
pub use tables::Tables;
pub use token::{Token, TokenKind, token, tokens};

/// Words of a row.
pub const ROW_WORDS: usize = 8;
/// Words of a declaration's record.
pub const RECORD_WORDS: usize = 5;
/// Words that the work area needs, whatever the source.
pub const WORK_WORDS: usize = 16_384;
/// Bytes of the longest source that is not refused with [`Class::LongSource`].
pub const LONGEST_SOURCE: usize = 65_535;
/// Bytes of the longest core text that reading does not refuse with [`Class::LongSource`].
pub const LONGEST_TEXT: usize = 4_294_967_295;
/// Forms that may be open at the same time in one type or body.
pub const MOST_FRAMES: usize = 512;

/// Loads a source into the tables.
///
/// The tables may hold anything before. After an acceptance they hold what [`Loaded`] shows, and 0 everywhere else;
/// after a refusal every word is 0.
///
/// # Errors
///
/// A [`Refusal`], if the source is no module or if a table is too short for it. Where several apply, the order is that
/// of document 01: 11; 6; not UTF-8; a byte order mark; 1, 2, 3, 7, 8, 9 as the source is read; 10; then for each
/// declaration in turn 4 and 5.
///
/// ```
/// use sulyterom::{Class, Tables, load};
///
/// let mut tables = Tables::with_sizes(1, 1);
/// assert_eq!(load(b"(surface 0 1)(module m)(postulate x nat)", &mut tables)?.row_count(), 1);
/// let refusal = load(b"(surface 0 1)(module m)(postulate x (succ zero))", &mut tables).unwrap_err();
/// assert_eq!(refusal.class, Class::SurfaceFull);
/// # Ok::<(), sulyterom::Refusal>(())
/// ```
pub fn load<'a, W>(source: &'a [u8], tables: &'a mut Tables<W>) -> Result<Loaded<'a>, Refusal>
where
    W: AsRef<[u32]> + AsMut<[u32]>,
{
    load_by(source, tables, Reader::Frames)
}

/// Loads a source into the tables, as [`load`] does, by a reader of choice. The answer and the tables do not depend on it.
///
/// # Errors
///
/// As [`load`].
///
/// ```
/// use sulyterom::{Class, Reader, Tables, load_by};
///
/// let mut tables = Tables::with_sizes(1, 1);
/// assert_eq!(load_by(b"(surface 0 1)(module m)(postulate x nat)", &mut tables, Reader::Plain)?.row_count(), 1);
/// let refusal = load_by(b"(surface 0 1)(module m)(postulate x", &mut tables, Reader::Plain).unwrap_err();
/// assert_eq!((refusal.class, refusal.offset), (Class::Malformed, Some(35)));
/// # Ok::<(), sulyterom::Refusal>(())
/// ```
pub fn load_by<'a, W>(source: &'a [u8], tables: &'a mut Tables<W>, reader: Reader) -> Result<Loaded<'a>, Refusal>
where
    W: AsRef<[u32]> + AsMut<[u32]>,
{
    let told = library::load(source, tables.lend(), reader);
    Loaded::told(source, tables, told)
}

/// Loads a source into the tables, as [`load`] does, and gives document 01's listing of what is loaded, or the line of the
/// refusal. The text is the library's: it is proved too.
///
/// ```
/// use sulyterom::{Tables, list};
///
/// let listing = list(b"(surface 0 1)(module m)(postulate x (universe 0))", &mut Tables::with_sizes(1, 1));
/// assert_eq!(listing.text, b"nodes 1 declarations 1\n0 universe 0\n0 postulate x 0\n");
/// let listing = list(b"(surface 0 1)(module nat)", &mut Tables::with_sizes(1, 1));
/// assert_eq!(listing.text, b"refused 3 at 21\n");
/// assert_eq!(listing.refusal.unwrap().offset, Some(21));
/// ```
pub fn list<W: AsMut<[u32]>>(source: &[u8], tables: &mut Tables<W>) -> Listing {
    list_by(source, tables, Reader::Frames)
}

/// Loads a source into the tables and gives its listing, as [`list`] does, by a reader of choice. Listing, refusal and tables
/// do not depend on it.
///
/// ```
/// use sulyterom::{Reader, Tables, list, list_by};
///
/// let mut tables = Tables::with_sizes(3, 1);
/// for source in [&b"(surface 0 2)(module m)(postulate f (arrow nat nat))"[..], b"(surface 0 2)(module arrow)"] {
///     assert_eq!(list_by(source, &mut tables, Reader::Plain), list(source, &mut tables));
/// }
/// ```
pub fn list_by<W: AsMut<[u32]>>(source: &[u8], tables: &mut Tables<W>, reader: Reader) -> Listing {
    Listing::with_room(room(source), |text| library::list(source, tables.lend(), reader, text))
}

/// Bytes that the listing of most sources of a length has at most.
fn room(source: &[u8]) -> usize {
    source.len().min(LONGEST_SOURCE) * 4 + 64
}

/// Asks whether the declaration at place `i` depends on the one at place `j`: whether some global row in `i`'s type or body
/// names a place that shows `j`.
///
/// Place k shows `j` if k is `j`, or if a global row in k's type, or in k's body where k is transparent, names a place that
/// shows `j`. So `i`'s own body counts whatever its kind, and an opaque body of a declaration on the way from `i` to `j` does
/// not. A global row names an earlier place, so `i` depends on earlier places only.
/// [`Loader::dependents`] lists all that depend on one.
///
/// A yes shows the first row of `i` that names a place that shows `j`: the one with the lowest number, in the type before the
/// body, whether or not it names `j` itself.
///
/// The source is loaded first, and a yes or a no leaves the tables as [`load`] does: the answer shows both.
///
/// # Errors
///
/// A [`Refusal`] of loading, or [`Class::NoDeclaration`] if `i` or `j` is not the place of a declaration; every word of
/// the tables is then 0.
///
/// ```
/// use sulyterom::{Class, Tables, depends};
///
/// let source = b"(surface 0 1)(module m)(postulate x nat)(opaque y nat (ref x))(transparent z nat (ref y))\
///     (postulate w (pi _ (ref z) (ref y)))";
/// let mut tables = Tables::for_bytes(source.len());
/// assert_eq!(depends(source, 1, 0, &mut tables)?.row, Some(2));
/// // row 4 names y, whose body is opaque: it shows y, and not x
/// assert_eq!(depends(source, 2, 1, &mut tables)?.row, Some(4));
/// let no = depends(source, 2, 0, &mut tables)?;
/// assert_eq!((no.row, no.loaded.declaration_count()), (None, 4));
/// // row 5 names z, whose body names y, and row 6 y itself: the first of them is shown
/// assert_eq!(depends(source, 3, 1, &mut tables)?.row, Some(5));
/// assert_eq!(depends(source, 0, 4, &mut tables).unwrap_err().class, Class::NoDeclaration);
/// # Ok::<(), sulyterom::Refusal>(())
/// ```
pub fn depends<'a, W>(
    source: &'a [u8],
    i: usize,
    j: usize,
    tables: &'a mut Tables<W>,
) -> Result<Dependence<'a>, Refusal>
where
    W: AsRef<[u32]> + AsMut<[u32]>,
{
    let told = library::depends(source, i, j, tables.lend());
    Dependence::told(source, tables, told)
}

/// Asks what binds the reference at a row: the innermost `pi`, `sigma` or `lam` of its name in whose codomain or body it
/// stands or, where there is none, the earlier declaration of its name. An `arrow` binds no name; in its codomain it counts.
///
/// The source is loaded first, and an answer leaves the tables as [`load`] does: it shows both.
///
/// # Errors
///
/// A [`Refusal`] of loading, or [`Class::NoDeclaration`] if the row is no row of the source or is no reference; every word
/// of the tables is then 0.
///
/// ```
/// use sulyterom::{Binding, Class, Tables, binder};
///
/// let source = b"(surface 0 1)(module m)(postulate x nat)(postulate y (pi x (ref x) (ref x)))";
/// let mut tables = Tables::for_bytes(source.len());
/// // The domain does not see the binder, so there x is the declaration.
/// assert_eq!(binder(source, 1, &mut tables)?.binding, Binding::Global { place: 0 });
/// let bound = binder(source, 2, &mut tables)?;
/// assert_eq!(bound.binding, Binding::Local { count: 0, row: 3 });
/// assert_eq!(bound.loaded.term(3), Some(&b"(pi x (ref x) (ref x))"[..]));
/// assert_eq!(binder(source, 3, &mut tables).unwrap_err().class, Class::NoDeclaration);
/// # Ok::<(), sulyterom::Refusal>(())
/// ```
pub fn binder<'a, W>(source: &'a [u8], row: usize, tables: &'a mut Tables<W>) -> Result<Bound<'a>, Refusal>
where
    W: AsRef<[u32]> + AsMut<[u32]>,
{
    let told = library::binder(source, row, tables.lend());
    Bound::told(source, tables, told)
}

/// Asks whether two sources leave the same core: whether they agree in all but binder names, layout, comments and the
/// module names. They may be of different editions: an `arrow` agrees with a `pi` whose name is not used.
///
/// Each source is loaded into its own tables, the first one first. A yes or a no leaves both as [`load`] does; after a
/// refusal every word of both is 0. The work area of `tables` serves both, and that of `others` is left as it is.
///
/// ```
/// use sulyterom::{Comparison, Tables, same};
///
/// let (mut tables, mut others) = (Tables::with_sizes(9, 2), Tables::with_sizes(9, 2));
/// let first = b"(surface 0 1)(module m)(postulate x (pi a nat (id nat (ref a) zero)))";
/// let second = b"(surface 0 1)(module n)(postulate x (pi b nat (id nat (ref b) zero))) ; renamed";
/// assert_eq!(same(first, second, &mut tables, &mut others), Comparison::Same);
/// let third = b"(surface 0 1)(module m)(postulate x (pi a nat (id nat zero (ref a))))";
/// assert_eq!(same(first, third, &mut tables, &mut others), Comparison::Different { declaration: 0 });
///
/// let arrow = b"(surface 0 2)(module m)(postulate f (arrow nat nat))";
/// let pi = b"(surface 0 1)(module m)(postulate f (pi x nat nat))";
/// assert_eq!(same(arrow, pi, &mut tables, &mut others), Comparison::Same);
/// ```
pub fn same<V, W>(first: &[u8], second: &[u8], tables: &mut Tables<V>, others: &mut Tables<W>) -> Comparison
where
    V: AsMut<[u32]>,
    W: AsMut<[u32]>,
{
    let (class, answer) = library::same(first, second, tables.lend(), others.lend());
    Comparison::from_numbers(class, answer)
}

/// Loads a source into the tables, as [`load`] does, and writes its core text into a buffer. [`text_room`] says how long
/// that has to be; [`Loader::print`] gives a text in a buffer of its own.
///
/// The buffer is 0 behind the text, and all 0 after a refusal.
///
/// # Errors
///
/// A [`Refusal`] of loading or, after that, [`Class::TextShort`] if the buffer is shorter than the text; every word of
/// the tables is then 0.
///
/// ```
/// use sulyterom::{Class, Tables, print};
///
/// let (mut tables, mut buffer) = (Tables::with_sizes(1, 1), [7; 100]);
/// let printed = print(b"(surface 0 1)(module m)(postulate x nat)", &mut tables, &mut buffer)?;
/// assert!(printed.text.ends_with(b"(declarations (postulate \"x\" nat)))\n"));
/// assert_eq!((printed.text.len(), printed.loaded.row_count()), (85, 1));
/// assert_eq!(buffer[85..], [0; 15]);
/// let refusal = print(b"(surface 0 1)(module m)(postulate x nat)", &mut tables, &mut buffer[..84]).unwrap_err();
/// assert_eq!(refusal.class, Class::TextShort);
/// # Ok::<(), sulyterom::Refusal>(())
/// ```
pub fn print<'a, W>(source: &'a [u8], tables: &'a mut Tables<W>, text: &'a mut [u8]) -> Result<Printed<'a>, Refusal>
where
    W: AsRef<[u32]> + AsMut<[u32]>,
{
    let told = library::print(source, tables.lend(), text);
    Printed::told(source, tables, text, told)
}

/// Bytes that suffice for the core text of every source of so many bytes.
///
/// The head and the end of a text have 65 bytes and a source's head at least 23. Everything else has at most twice the
/// bytes that it has in the source, its arguments apart: the most has a reference of 7 bytes, `(ref x)`, which may be
/// printed as ` (global 1000)`, in 14, since there are fewer than 10,000 declarations.
#[must_use]
pub const fn text_room(bytes: usize) -> usize {
    let bytes = if bytes < LONGEST_SOURCE { bytes } else { LONGEST_SOURCE };
    2 * bytes + 19
}

/// Reads a core text in any layout into the tables. The surface table is left as it is.
///
/// After an acceptance the others hold what [`CoreText`] shows, and 0 everywhere else; after a refusal every word of them
/// is 0.
///
/// # Errors
///
/// A [`Refusal`], if the text is no core text or if a table is too short for it. Where several apply, the order is: 11; 6;
/// not UTF-8 (13); a byte order mark (13 at 0); 13, 2, 7, 9, 10 as the text is read; a name that is used twice (13 at 0).
///
/// ```
/// use sulyterom::{Class, Tables, read_core};
///
/// let text = br#"(hott-core(format 0 1)(theory"mltt-core"0 1)(declarations(postulate"x y"(universe 10))))"#;
/// let mut tables = Tables::with_sizes(1, 1);
/// let read = read_core(text, &mut tables)?;
/// assert_eq!(read.declaration(0).unwrap().name.bytes, b"x y");
/// assert_eq!(read.row(0).unwrap().to_string(), "universe 10");
/// let refusal = read_core(&text[..40], &mut tables).unwrap_err();
/// assert_eq!((refusal.class, refusal.offset), (Class::CoreText, Some(40)));
/// # Ok::<(), sulyterom::Refusal>(())
/// ```
pub fn read_core<'a, W>(text: &'a [u8], tables: &'a mut Tables<W>) -> Result<CoreText<'a>, Refusal>
where
    W: AsRef<[u32]> + AsMut<[u32]>,
{
    let told = library::read_core(text, tables.lend());
    CoreText::told(text, tables, told)
}

/// Reads a core text as [`read_core`] does, but takes it only if it is, byte for byte, what printing its module gives: then
/// equal modules have equal texts. A text that [`print`] wrote is taken.
///
/// # Errors
///
/// As [`read_core`] and, after all else, [`Class::CoreText`] with no offset for a text that is not its own print.
///
/// ```
/// use sulyterom::{Class, Refusal, Tables, read_canonical};
///
/// let mut tables = Tables::with_sizes(1, 1);
/// let text = b"(hott-core (format 0 1) (theory \"mltt-core\" 0 1) (declarations))\n";
/// assert_eq!(read_canonical(text, &mut tables)?.row_count(), 0);
/// let refusal = read_canonical(&text[..64], &mut tables).unwrap_err();
/// assert_eq!(refusal, Refusal { class: Class::CoreText, offset: None });
/// # Ok::<(), sulyterom::Refusal>(())
/// ```
pub fn read_canonical<'a, W>(text: &'a [u8], tables: &'a mut Tables<W>) -> Result<CoreText<'a>, Refusal>
where
    W: AsRef<[u32]> + AsMut<[u32]>,
{
    let told = library::read_canonical(text, tables.lend());
    CoreText::told(text, tables, told)
}
