//! Where a tag's words are: ISO/IEC 29167-10, 9.2 and clause 11, and paper 01, "Memory".
//!
//! A request is taken word by word: each word has its own address, is looked up, stored and held against locks by
//! itself.

#[derive(Clone, Copy, PartialEq)]
pub enum Area {
    Identity,
    User,
}

impl Area {
    pub fn of(number: usize) -> Option<Area> {
        [Area::Identity, Area::User].get(number).copied()
    }

    pub fn number(self) -> u8 {
        match self {
            Area::Identity => 0,
            Area::User => 1,
        }
    }
}

/// BlockSize of 9.2: the bit 0 asks for 64-bit blocks, the bit 1 for 16-bit blocks.
#[derive(Clone, Copy, PartialEq)]
pub struct BlockSize {
    pub bit: usize,
}

impl BlockSize {
    pub fn bits(self) -> usize {
        [64, 16][self.bit]
    }
}

#[derive(Clone, Copy)]
pub struct Profile {
    pub area: Area,
    pub base: usize,
    pub words: usize,
}

#[derive(Clone, Copy)]
pub struct Lock {
    pub area: Area,
    pub first: usize,
    pub words: usize,
}

/// The 16-bit words that a message asks for, by their addresses in an area.
pub struct Request {
    pub area: Area,
    pub addresses: std::ops::Range<usize>,
}

/// 9.2: Offset counts data blocks from the profile's first word on.
pub fn request(profile: &Profile, size: BlockSize, offset: usize, blocks: usize) -> Request {
    let start = profile.base + offset * size.bits() / 16;
    Request {
        area: profile.area,
        addresses: start..start + blocks * size.bits() / 16,
    }
}

impl Request {
    /// No word lies past the profile's end.
    pub fn fits(&self, profile: &Profile) -> bool {
        self.addresses.clone().all(|word| word < profile.base + profile.words)
    }

    pub fn locked(&self, locks: &[Lock]) -> bool {
        let held = |word| {
            locks
                .iter()
                .any(|lock| lock.area == self.area && (lock.first..lock.first + lock.words).contains(&word))
        };
        self.addresses.clone().any(held)
    }

    pub fn bytes(&self) -> usize {
        2 * self.addresses.len()
    }
}

/// The two lent areas, in bytes.
pub struct Memory {
    pub identity: Vec<u8>,
    pub user: Vec<u8>,
}

impl Memory {
    fn area(&self, area: Area) -> &Vec<u8> {
        match area {
            Area::Identity => &self.identity,
            Area::User => &self.user,
        }
    }

    /// The words asked for. A call that names bytes outside its area is shown none.
    pub fn window(&self, request: &Request) -> Vec<u8> {
        let area = self.area(request.area);
        let both = |word: usize| [area.get(2 * word).copied(), area.get(2 * word + 1).copied()];
        let bytes: Option<Vec<u8>> = request.addresses.clone().flat_map(both).collect();
        bytes.unwrap_or_default()
    }

    /// Stores data over the words asked for, and no others. Data of another length, or words outside the area, store
    /// nothing.
    pub fn store(&mut self, request: &Request, data: &[u8]) {
        let inside = self.window(request).len() == request.bytes();
        if !inside || data.len() != request.bytes() {
            return;
        }
        let area = match request.area {
            Area::Identity => &mut self.identity,
            Area::User => &mut self.user,
        };
        for (word, pair) in request.addresses.clone().zip(data.chunks(2)) {
            area[2 * word] = pair[0];
            area[2 * word + 1] = pair[1];
        }
    }
}

/// Clause 11, Table 26: bit p of MPI, bit 0 being the least significant. There are 16 profiles.
pub fn permits(mpi: u16, profile: usize) -> bool {
    (0..16).filter(|&p| mpi & 1 << p != 0).any(|p| p == profile)
}
