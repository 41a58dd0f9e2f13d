//! The sections that make a call slow, each made from its size alone, and two that are only large. They are of 32-bit DWARF, little-endian,
//! and their indexes have no units and no augmentation.

/// A name that a query asks for, and its hash.
pub struct Asked {
    pub name: Vec<u8>,
    pub hash: u32,
}

/// The two sections, and what is asked of them.
pub struct Input {
    pub names: Vec<u8>,
    pub strings: Vec<u8>,
    pub asked: Asked,
    /// How many names the first index has.
    pub count: u32,
}

/// What an index has beside its header.
#[derive(Default)]
struct Index {
    buckets: Vec<u32>,
    hashes: Vec<u32>,
    strings: Vec<u32>,
    entries: Vec<u32>,
    abbreviations: Vec<u8>,
    pool: Vec<u8>,
}

/// The bytes of a header.
const HEADER: usize = 36;
/// The bytes of a bucket.
const BUCKET: usize = 4;
/// The bytes of a name: its hash, the offset of its string and that of its series.
const NAME: usize = 12;
/// The same in an index without a hash table.
const NAME_ALONE: usize = 8;

/// The hash of the name "f".
const HASH: u32 = 177_675;
/// A declaration of code 1 with a tag and no attributes: an entry of it is the byte 01.
const PLAIN: [u8; 4] = [1, 0x2e, 0, 0];

impl Index {
    fn bytes(&self) -> Vec<u8> {
        let table = self.abbreviations.len() as u32;
        let mut body = [5, 0, 0, 0].to_vec();
        put(&mut body, &[0, 0, 0, self.buckets.len() as u32, self.strings.len() as u32, table, 0]);
        [&self.buckets, &self.hashes, &self.strings, &self.entries].into_iter().for_each(|part| put(&mut body, part));
        body.extend(&self.abbreviations);
        body.extend(&self.pool);
        let mut bytes = (body.len() as u32).to_le_bytes().to_vec();
        bytes.extend(body);
        bytes
    }

    /// An index of so many names in one bucket, which all have one string, one hash and one series.
    fn of_one_name(names: usize, abbreviations: Vec<u8>, pool: Vec<u8>) -> Index {
        Index { buckets: vec![1], hashes: vec![HASH; names], abbreviations, pool, ..Index::without_table(names) }
    }

    /// An index of so many names without a hash table, which all have one string and no entries.
    fn without_table(names: usize) -> Index {
        Index { strings: vec![0; names], entries: vec![0; names], ..Index::default() }
    }

    /// The input of this index, with the name "f" in .debug_str.
    fn asked_for_f(self) -> Input {
        let asked = Asked { name: b"f".to_vec(), hash: HASH };
        Input { names: self.bytes(), strings: b"f\0".to_vec(), asked, count: self.strings.len() as u32 }
    }
}

fn put(bytes: &mut Vec<u8>, numbers: &[u32]) {
    numbers.iter().for_each(|number| bytes.extend(number.to_le_bytes()));
}

/// A series of entries of code 1, a byte each, that ends with the pool.
fn series(entries: usize) -> Vec<u8> {
    vec![1; entries]
}

/// Half of the section is names, and half is one series, which all of them share.
pub fn shared_series(size: usize) -> Input {
    let names = size / 2 / NAME;
    let left = size - HEADER - BUCKET - names * NAME - PLAIN.len();
    Index::of_one_name(names, PLAIN.to_vec(), series(left)).asked_for_f()
}

/// An abbreviation table that fills so many bytes.
pub type Table = fn(usize) -> Vec<u8>;

/// One name: half of the section is the abbreviation table, and half is the name's series.
pub fn halves(size: usize, table: Table) -> Input {
    let table = table(size / 2);
    let left = size - HEADER - BUCKET - NAME - table.len();
    Index::of_one_name(1, table, series(left)).asked_for_f()
}

/// A third of the section is names, a third is the abbreviation table, and a third is the series, which all names share.
pub fn thirds(size: usize, table: Table) -> Input {
    let table = table(size / 3);
    let names = size / 3 / NAME;
    let left = size - HEADER - BUCKET - names * NAME - table.len();
    Index::of_one_name(names, table, series(left)).asked_for_f()
}

/// A declaration of code 2 with as many attributes as there is room for, and behind it the one that is used.
pub fn long_before(room: usize) -> Vec<u8> {
    filled(&[2, 0x2e], &[6, 0x0b], &[&[0, 0], &PLAIN[..]].concat(), room)
}

/// As many declarations of code 2 as there is room for, and behind them the one that is used.
pub fn many_before(room: usize) -> Vec<u8> {
    filled(&[], &[2, 0x2e, 0, 0], &PLAIN, room)
}

/// One declaration, with as many attributes as there is room for. Their form is flag_present, which takes no byte of an entry.
pub fn long_in_use(room: usize) -> Vec<u8> {
    filled(&[1, 0x2e], &[6, 0x19], &[0, 0], room)
}

/// One declaration, whose tag is a number that is padded to as many bytes as there is room for.
pub fn padded_tag(room: usize) -> Vec<u8> {
    filled(&[1, 0xae], &[0x80], &[0, 0, 0], room)
}

/// Bytes that begin and end as is said, and have others between, again and again.
fn filled(begin: &[u8], again: &[u8], end: &[u8], room: usize) -> Vec<u8> {
    let times = (room - begin.len() - end.len()) / again.len();
    [begin, &again.repeat(times), end].concat()
}

/// Half of the section is names, and half is one entry, whose code is a padded number. All names share it.
pub fn padded_code(size: usize) -> Input {
    let names = size / 2 / NAME;
    let left = size - HEADER - BUCKET - names * NAME - PLAIN.len();
    Index::of_one_name(names, PLAIN.to_vec(), filled(&[0x81], &[0x80], &[0], left)).asked_for_f()
}

/// Half of the bytes is names, and half is .debug_str, one string. The name that is asked for is as long, and differs in its last byte.
pub fn long_string(size: usize, index: fn(usize) -> Input) -> Input {
    let mut name = vec![b'f'; size / 2 - 1];
    let strings = [&name[..], &[0]].concat();
    *name.last_mut().expect("no size is so small") = b'g';
    Input { strings, asked: Asked { name, hash: HASH }, ..index(size / 2) }
}

/// Names without a hash table.
pub fn names_alone(size: usize) -> Input {
    Index::without_table((size - HEADER) / NAME_ALONE).asked_for_f()
}

/// Names in one bucket, of one hash.
pub fn names_of_one_hash(size: usize) -> Input {
    Index::of_one_name((size - HEADER - BUCKET) / NAME, Vec::new(), Vec::new()).asked_for_f()
}

/// Names in one bucket, whose hashes are their numbers.
pub fn names_of_one_bucket(size: usize) -> Input {
    let names = (size - HEADER - BUCKET) / NAME;
    Index { buckets: vec![1], hashes: (0..names as u32).collect(), ..Index::without_table(names) }.asked_for_f()
}

/// As many buckets as names. Each name is alone in its bucket.
pub fn complete_table(size: usize) -> Input {
    let names = (size - HEADER) / (BUCKET + NAME);
    Index { buckets: (1..=names as u32).collect(), hashes: (0..names as u32).collect(), ..Index::without_table(names) }.asked_for_f()
}

/// The same, with every bucket empty: all names are missed.
pub fn lost_table(size: usize) -> Input {
    let names = (size - HEADER) / (BUCKET + NAME);
    Index { buckets: vec![0; names], hashes: (0..names as u32).collect(), ..Index::without_table(names) }.asked_for_f()
}

/// As many indexes as there is room for, each of which is a header.
pub fn headers(size: usize) -> Input {
    let one = Index::default().asked_for_f();
    Input { names: one.names.repeat(size / HEADER), ..one }
}

/// One name with one entry; all else of the section is the abbreviation table.
pub fn table(size: usize, table: Table) -> Input {
    let pool = series(1);
    let table = table(size - HEADER - BUCKET - NAME - pool.len());
    Index::of_one_name(1, table, pool).asked_for_f()
}
