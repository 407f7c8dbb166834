//! Makes the device trees that are timed.

/// Numbers that look drawn and are the same in every run (xorshift).
pub struct Numbers(pub u64);

impl Numbers {
    /// One of least to most.
    pub fn between(&mut self, least: usize, most: usize) -> usize {
        self.0 ^= self.0 << 13;
        self.0 ^= self.0 >> 7;
        self.0 ^= self.0 << 17;
        least + (self.0 >> 11) as usize % (most - least + 1)
    }

    fn letters(&mut self, count: usize) -> Vec<u8> {
        (0..count).map(|_| b"abcdefghijklmnopqrstuvwxyz-,"[self.between(0, 27)]).collect()
    }
}

/// A node's last property: the way to it, and where its value stands in the tree.
pub struct Place {
    pub path: Vec<u8>,
    pub name: Vec<u8>,
    pub offset: usize,
    pub size: usize,
}

/// The header and a reservation block of one zero pair.
const HEAD: usize = 56;
const DEEPEST: usize = 5;
/// A node of the greatest size, with its end and the ends of the nodes that it stands in.
const MOST: usize = 28 + 10 * (12 + 64) + 4 * DEEPEST;

/// A tree while it is made, block by block; `names` are the offsets of the property names in the strings.
struct Tree {
    structure: Vec<u8>,
    strings: Vec<u8>,
    names: Vec<usize>,
    properties: usize,
    places: Vec<Place>,
}

impl Tree {
    fn new(numbers: &mut Numbers, name_count: usize) -> Tree {
        let mut tree = Tree { structure: vec![], strings: vec![], names: vec![], properties: 0, places: vec![] };
        for _ in 0..name_count {
            tree.names.push(tree.strings.len());
            let length = numbers.between(4, 20);
            tree.strings.extend(numbers.letters(length));
            tree.strings.push(0);
        }
        tree
    }

    fn word(&mut self, n: usize) {
        self.structure.extend((n as u32).to_be_bytes());
    }

    fn pad(&mut self) {
        self.structure.resize(self.structure.len().next_multiple_of(4), 0);
    }

    fn begin(&mut self, name: &[u8]) {
        self.word(1);
        self.structure.extend(name);
        self.structure.push(0);
        self.pad();
    }

    fn end(&mut self) {
        self.word(2);
    }

    /// A property by the number of its name, and where its value stands.
    fn property(&mut self, name: usize, value: impl IntoIterator<Item = u8>) -> (usize, usize) {
        self.word(3);
        let size_at = self.structure.len();
        self.word(0);
        self.word(self.names[name]);
        let at = self.structure.len();
        self.structure.extend(value);
        let size = self.structure.len() - at;
        self.structure[size_at..size_at + 4].copy_from_slice(&(size as u32).to_be_bytes());
        self.pad();
        self.properties += 1;
        (at, size)
    }

    fn name(&self, number: usize) -> Vec<u8> {
        self.strings[self.names[number]..].iter().copied().take_while(|b| *b != 0).collect()
    }

    /// 4 to 10 properties with different names out of the shared ones.
    fn properties(&mut self, numbers: &mut Numbers, path: &[u8]) {
        let first = numbers.between(0, self.names.len() - 10);
        let count = numbers.between(4, 10);
        for i in 0..count {
            let size = numbers.between(0, 64);
            let value: Vec<u8> = (0..size).map(|_| numbers.between(0, 255) as u8).collect();
            let (offset, size) = self.property(first + i, value);
            if i + 1 == count {
                let name = self.name(first + i);
                self.places.push(Place { path: path.to_vec(), name, offset: HEAD + offset, size });
            }
        }
    }

    /// Nodes at a depth, 2 to 6 of them but any number under the root, as long as the structure has room.
    fn nodes(&mut self, numbers: &mut Numbers, path: &[u8], depth: usize, room: usize) {
        let mut left = if depth == 2 { usize::MAX } else { numbers.between(2, 6) };
        while left > 0 && self.structure.len() + MOST <= room {
            let length = numbers.between(4, 20);
            let name = numbers.letters(length);
            let own = [path, b"/", &name].concat();
            self.begin(&name);
            self.properties(numbers, &own);
            if depth < DEEPEST {
                self.nodes(numbers, &own, depth + 1, room);
            }
            self.end();
            left -= 1;
        }
    }

    /// The tree in `total` bytes, zeros behind the strings.
    fn bytes(&self, total: usize) -> Vec<u8> {
        let strings = HEAD + self.structure.len();
        let fields = [0xd00d_feed, total, HEAD, strings, 40, 17, 16, 0, self.strings.len(), self.structure.len()];
        let mut bytes: Vec<u8> = fields.iter().flat_map(|n| (*n as u32).to_be_bytes()).collect();
        bytes.resize(HEAD, 0);
        bytes.extend(&self.structure);
        bytes.extend(&self.strings);
        assert!(bytes.len() <= total);
        bytes.resize(total, 0);
        bytes
    }
}

/// A tree as benches have, of `total` bytes, in words too; and a property of the node in the middle and of the last one.
pub fn grown(total: usize) -> (Vec<u8>, String, [Place; 2]) {
    let mut numbers = Numbers(0x5eed_0000_0000_0001 + total as u64);
    let mut tree = Tree::new(&mut numbers, 40);
    tree.begin(b"");
    tree.properties(&mut numbers, b"/");
    // behind the last node come the root's end, END and the strings
    let room = total - HEAD - 8 - tree.strings.len();
    tree.nodes(&mut numbers, b"", 2, room);
    tree.end();
    tree.word(9);
    let bytes = tree.bytes(total);
    let words = format!("{} nodes, {} properties", tree.places.len(), tree.properties);
    let last = tree.places.pop().unwrap();
    let middle = tree.places.swap_remove(tree.places.len() / 2);
    (bytes, words, [middle, last])
}

/// A tree of a root with one property, whose value has `size` bytes; and that property.
pub fn long(size: usize) -> (Vec<u8>, Place) {
    let mut tree = Tree::new(&mut Numbers(1), 1);
    tree.begin(b"");
    let (at, size) = tree.property(0, std::iter::repeat_n(0x5a, size));
    tree.end();
    tree.word(9);
    let place = Place { path: b"/".to_vec(), name: tree.name(0), offset: HEAD + at, size };
    (tree.bytes(HEAD + tree.structure.len() + tree.strings.len()), place)
}

/// A tree of `total` bytes, whose root has as many nodes as fit, their names of three letters; only the last one has a property.
pub fn flat(total: usize) -> (Vec<u8>, String, Place) {
    let mut tree = Tree::new(&mut Numbers(1), 1);
    tree.begin(b"");
    // behind the nodes of 12 bytes come one of 32, the root's end, END and the strings
    let room = total - HEAD - 32 - 8 - tree.strings.len();
    let mut nodes = 0;
    while tree.structure.len() + 12 <= room {
        tree.begin(&[b'a' + (nodes / 676 % 26) as u8, b'a' + (nodes / 26 % 26) as u8, b'a' + (nodes % 26) as u8]);
        tree.end();
        nodes += 1;
    }
    tree.begin(b"last");
    let (at, size) = tree.property(0, [1, 2, 3, 4]);
    tree.end();
    tree.end();
    tree.word(9);
    let place = Place { path: b"/last".to_vec(), name: tree.name(0), offset: HEAD + at, size };
    (tree.bytes(total), format!("{} nodes, 1 property", nodes + 2), place)
}
