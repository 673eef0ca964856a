//! 01's tables: layouts as records, written as words and read back.

pub const ROW: usize = 11;
pub const PLACE: usize = 4;
pub const HELD: usize = 15;

/// A flag and a word.
pub type Optional = (u64, u64);

#[derive(Clone, Debug, PartialEq, Eq)]
pub struct Segment {
    pub id: u64,
    pub start: u64,
    pub end: u64,
    pub state: u64,
    pub created: u64,
    pub seal: Optional,
    pub legacy: Optional,
    pub parents: Vec<u64>,
    pub children: Vec<u64>,
}

impl Segment {
    /// Its row, of which the edge counts are all that it says of its lists.
    pub fn row(&self) -> [u64; ROW] {
        [
            self.id,
            self.start,
            self.end,
            self.state,
            self.created,
            self.seal.0,
            self.seal.1,
            self.legacy.0,
            self.legacy.1,
            self.parents.len() as u64,
            self.children.len() as u64,
        ]
    }
}

#[derive(Clone, Debug, PartialEq, Eq)]
pub struct Place {
    pub id: u64,
    pub url: u64,
    pub tls: Optional,
}

#[derive(Clone, Debug, Default, PartialEq, Eq)]
pub struct Layout {
    pub epoch: u64,
    pub segments: Vec<Segment>,
    pub places: Vec<Place>,
}

/// The three incoming tables.
#[derive(Clone, Debug, Default, PartialEq, Eq)]
pub struct Tables {
    pub rows: Vec<u64>,
    pub edges: Vec<u64>,
    pub places: Vec<u64>,
}

impl Layout {
    pub fn tables(&self) -> Tables {
        let mut t = Tables {
            rows: Vec::with_capacity(self.segments.len() * ROW),
            edges: Vec::with_capacity(self.segments.len() * 2),
            places: Vec::with_capacity(self.places.len() * PLACE),
        };
        for s in &self.segments {
            t.rows.extend_from_slice(&s.row());
            t.edges.extend_from_slice(&s.parents);
            t.edges.extend_from_slice(&s.children);
        }
        for p in &self.places {
            t.places.extend_from_slice(&[p.id, p.url, p.tls.0, p.tls.1]);
        }
        t
    }
}

/// The rows of a table whose counts make its edge table; each row is `width` words.
pub fn read_segments(rows: &[u64], edges: &[u64], width: usize) -> Vec<Segment> {
    let mut at = 0usize;
    let mut take = |n: u64| {
        let from = at;
        at += n as usize;
        edges[from..at].to_vec()
    };
    rows.chunks_exact(width)
        .map(|r| Segment {
            id: r[0],
            start: r[1],
            end: r[2],
            state: r[3],
            created: r[4],
            seal: (r[5], r[6]),
            legacy: (r[7], r[8]),
            parents: take(r[9]),
            children: take(r[10]),
        })
        .collect()
}

pub fn read_places(places: &[u64]) -> Vec<Place> {
    places.chunks_exact(PLACE).map(|p| Place { id: p[0], url: p[1], tls: (p[2], p[3]) }).collect()
}

impl Tables {
    pub fn counts(&self) -> (usize, usize, usize) {
        (self.rows.len() / ROW, self.places.len() / PLACE, self.edges.len())
    }

    pub fn layout(&self, epoch: u64) -> Layout {
        Layout { epoch, segments: read_segments(&self.rows, &self.edges, ROW), places: read_places(&self.places) }
    }
}
