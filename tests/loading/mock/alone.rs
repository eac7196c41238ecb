//! Reading alone: as loading reads, "and looks at no name: 4 and 5 are not given, and there is no core table".
use super::{Module, plain, read_whole, resolving, told, words};
use crate::loading::station::Reader;
use crate::loading::tables::Tables;
use common::fault::is;
use common::refusal::Refusal;

pub fn read(reader: Reader, source: &[u8], mut lent: Tables<&mut [u32]>, answer: &mut [u64; 3]) -> u8 {
    let mut module = Module::default();
    let outcome = read_whole(reader, source, &lent).and_then(|read| {
        if is("read-looks-at-names") || plain::is(reader, "plain-read-looks-at-names") {
            resolving::resolve(source, &read)?;
        }
        if is("read-wants-core-rows") && !read.nodes.is_empty() {
            return Err(Refusal::nowhere(10));
        }
        module.surface = words::surface(&read);
        module.declarations = words::records(&read);
        Ok(())
    });
    if is("read-without-records") {
        module.declarations.fill(0);
    }
    if is("read-leaves-the-work-area") {
        lent.work = &mut [];
    }
    if outcome.is_err() && is("read-refused-not-cleared") {
        lent.surface = &mut [];
    }
    told(reader, lent, &module, outcome, answer)
}
