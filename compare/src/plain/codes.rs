//! The code table: contents, then bodies.

use super::u16_at;

#[derive(Debug, Clone, PartialEq, Eq)]
pub struct Row {
    pub id: u8,
    pub target: u16,
    pub kind: u8,
}

#[derive(Debug, Clone, PartialEq, Eq)]
pub struct Scope {
    pub kind: u8,
    pub code: u16,
    pub rows: Vec<Row>,
}

#[derive(Debug, Clone, PartialEq, Eq)]
pub struct Codes {
    pub layout: u8,
    pub header: Vec<u16>,
    pub scopes: Vec<Scope>,
}

impl Codes {
    /// The table in these bytes, `None` where they are not well formed.
    pub fn parse(t: &[u8]) -> Option<Codes> {
        let (layout, header_count, scope_count) = (*t.first()?, *t.get(1)? as usize, u16_at(t, 2)? as usize);
        if header_count > 4 || scope_count > 64 {
            return None;
        }
        let header = (0..header_count).map(|i| u16_at(t, 4 + 2 * i)).collect::<Option<Vec<u16>>>()?;
        let contents = 4 + 2 * header_count;
        let mut pos = contents + 5 * scope_count;
        let mut scopes = Vec::new();
        for i in 0..scope_count {
            let head = contents + 5 * i;
            let count = u16_at(t, head + 3)? as usize;
            let rows = (0..count).map(|r| row_at(t, pos + 4 * r)).collect::<Option<Vec<Row>>>()?;
            pos += 4 * count;
            scopes.push(Scope { kind: t[head], code: u16_at(t, head + 1)?, rows });
        }
        let codes = Codes { layout, header, scopes };
        (pos == t.len() && codes.is_ordered()).then_some(codes)
    }

    fn is_ordered(&self) -> bool {
        self.header.windows(2).all(|w| w[0] < w[1])
            && self.scopes.windows(2).all(|w| (w[0].kind, w[0].code) < (w[1].kind, w[1].code))
            && self.scopes.iter().all(Scope::is_well_formed)
    }

    pub fn row(&self, kind: u8, code: u16, id: u8) -> Option<&Row> {
        let scope = self.scopes.iter().find(|s| s.kind == kind && s.code == code)?;
        scope.rows.iter().find(|r| r.id == id)
    }

    /// The bytes of the table.
    pub fn bytes(&self) -> Vec<u8> {
        let mut out = vec![self.layout, self.header.len() as u8];
        out.extend((self.scopes.len() as u16).to_le_bytes());
        out.extend(self.header.iter().flat_map(|c| c.to_le_bytes()));
        for scope in &self.scopes {
            out.push(scope.kind);
            out.extend(scope.code.to_le_bytes());
            out.extend((scope.rows.len() as u16).to_le_bytes());
        }
        for row in self.scopes.iter().flat_map(|s| &s.rows) {
            out.push(row.id);
            out.extend(row.target.to_le_bytes());
            out.push(row.kind);
        }
        out
    }
}

impl Scope {
    fn is_well_formed(&self) -> bool {
        self.kind <= 2
            && (self.kind == 2 || self.code == 0)
            && self.rows.windows(2).all(|w| w[0].id < w[1].id)
            && self.rows.iter().all(|r| r.id <= 0xFC && r.target < 0x8000 && r.kind <= 4)
    }
}

fn row_at(t: &[u8], pos: usize) -> Option<Row> {
    Some(Row { id: *t.get(pos)?, target: u16_at(t, pos + 1)?, kind: *t.get(pos + 3)? })
}
