//! A path and its sheet (sections 1 and 5; document 02, items 2 and 6).

use super::Refusal;
use std::slice;

pub const MOST_OPERATORS: usize = 16;

/// The most rows of a declaration.
pub const MOST_ROWS: usize = 4;

/// The length of the memory that the writer is lent.
pub const SHEET_MEMORY: usize = 256;

const HEADER: usize = 3;

const ROW_LENGTH: usize = 6;

/// The lengths of whole fields.
const WANTED_LENGTH: usize = 7;

const OPERATOR_LENGTH: usize = 9;

/// At most so many units in so many slots.
#[derive(Clone, Copy, Debug, Default, PartialEq, Eq)]
pub struct Row {
    pub interval: u32,
    pub quota: u32,
}

impl Row {
    /// An interval in two bytes and a quota in four.
    fn new(&[m0, m1, q0, q1, q2, q3]: &[u8; ROW_LENGTH]) -> Row {
        Row {
            interval: u32::from(u16::from_be_bytes([m0, m1])),
            quota: u32::from_be_bytes([q0, q1, q2, q3]),
        }
    }

    fn bytes(&self) -> [u8; ROW_LENGTH] {
        let [_, _, m0, m1] = self.interval.to_be_bytes();
        let [q0, q1, q2, q3] = self.quota.to_be_bytes();
        [m0, m1, q0, q1, q2, q3]
    }

    fn in_range(&self) -> bool {
        (1..=1_024).contains(&self.interval) && (1..=65_535).contains(&self.quota)
    }
}

/// Several rows, all of them binding: the first `count`.
#[derive(Clone, Copy, Debug, PartialEq, Eq)]
pub struct Rows {
    pub count: usize,
    pub rows: [Row; MOST_ROWS],
}

impl Rows {
    fn new<const LENGTH: usize>(body: &[u8; LENGTH]) -> Rows {
        let mut rows = [Row::default(); MOST_ROWS];
        for (row, bytes) in rows.iter_mut().zip(body.as_chunks().0) {
            *row = Row::new(bytes);
        }
        Rows {
            count: LENGTH / ROW_LENGTH,
            rows,
        }
    }

    /// Refusals 5 and 15 of rows whose field begins at a byte.
    #[inline(never)]
    fn test(&self, at: usize) -> Result<(), Refusal> {
        if !(2..=MOST_ROWS).contains(&self.count)
            || !self.rows[..self.count].iter().all(Row::in_range)
        {
            return Err(Refusal::OutOfRange(at));
        }
        let rise = |two: &[Row]| two[0].interval < two[1].interval && two[0].quota <= two[1].quota;
        if !self.rows[..self.count].windows(2).all(rise) {
            return Err(Refusal::RowsOutOfOrder(at));
        }
        Ok(())
    }
}

#[derive(Clone, Copy, Debug, PartialEq, Eq)]
pub enum Declaration {
    Smooth(Row),
    Uniform(Row),
    Rows(Rows),
}

impl Declaration {
    /// Its rows, of which a smooth or uniform declaration has one.
    pub fn rows(&self) -> &[Row] {
        match self {
            Declaration::Smooth(row) | Declaration::Uniform(row) => slice::from_ref(row),
            Declaration::Rows(Rows { count, rows }) => &rows[..*count],
        }
    }

    pub fn last_row(&self) -> Row {
        match *self {
            Declaration::Smooth(row) | Declaration::Uniform(row) => row,
            Declaration::Rows(Rows { count, rows }) => rows[count - 1],
        }
    }

    /// Refusals 5 and 15 of a declaration whose field begins at a byte.
    pub fn test(&self, at: usize) -> Result<(), Refusal> {
        match self {
            Declaration::Smooth(row) | Declaration::Uniform(row) if row.in_range() => Ok(()),
            Declaration::Smooth(_) | Declaration::Uniform(_) => Err(Refusal::OutOfRange(at)),
            Declaration::Rows(rows) => rows.test(at),
        }
    }

    /// Writes the field that begins a sheet, and answers its length.
    fn put_field(&self, sheet: &mut [u8]) -> usize {
        let (kind, row) = match self {
            Declaration::Smooth(row) => (0, row),
            Declaration::Uniform(row) => (1, row),
            Declaration::Rows(Rows { count, rows }) => {
                let length = ROW_LENGTH * count;
                sheet[..HEADER].copy_from_slice(&[0x05, 0, length as u8]);
                for (bytes, row) in sheet[HEADER..]
                    .as_chunks_mut()
                    .0
                    .iter_mut()
                    .zip(&rows[..*count])
                {
                    *bytes = row.bytes();
                }
                return HEADER + length;
            }
        };
        let [m0, m1, q0, q1, q2, q3] = row.bytes();
        let field = [0x01, 0, 7, kind, m0, m1, q0, q1, q2, q3];
        sheet[..field.len()].copy_from_slice(&field);
        field.len()
    }

    /// Whether the rows behind the count are 0.
    pub fn unused_clear(&self) -> bool {
        match self {
            Declaration::Rows(Rows { count, rows }) => {
                rows.iter().skip(*count).all(|row| *row == Row::default())
            }
            _ => true,
        }
    }
}

#[derive(Clone, Copy, Debug, PartialEq, Eq)]
pub enum Operator {
    Limiter(u32),
    Compactor(u32),
    Expander(u32),
    Filter(u32),
    Delayer(u32),
}

impl Operator {
    fn new(kind: u8, number: u32) -> Option<Operator> {
        match kind {
            0 => Some(Operator::Limiter(number)),
            1 => Some(Operator::Compactor(number)),
            2 => Some(Operator::Expander(number)),
            3 => Some(Operator::Filter(number)),
            4 => Some(Operator::Delayer(number)),
            _ => None,
        }
    }

    pub fn kind(self) -> u8 {
        match self {
            Operator::Limiter(_) => 0,
            Operator::Compactor(_) => 1,
            Operator::Expander(_) => 2,
            Operator::Filter(_) => 3,
            Operator::Delayer(_) => 4,
        }
    }

    pub fn number(self) -> u32 {
        match self {
            Operator::Limiter(number)
            | Operator::Compactor(number)
            | Operator::Expander(number)
            | Operator::Filter(number)
            | Operator::Delayer(number) => number,
        }
    }

    pub fn in_range(self) -> bool {
        match self {
            Operator::Limiter(rate) | Operator::Filter(rate) => (1..=65_535).contains(&rate),
            Operator::Compactor(n) | Operator::Expander(n) => (1..=1_024).contains(&n),
            Operator::Delayer(delay) => (1..=64).contains(&delay),
        }
    }
}

/// An operator and the link that it is on.
#[derive(Clone, Copy, Debug, PartialEq, Eq)]
pub struct Place {
    pub operator: Operator,
    pub link: u32,
}

impl Place {
    const NONE: Place = Place {
        operator: Operator::Limiter(0),
        link: 0,
    };

    fn in_range(&self) -> bool {
        self.operator.in_range() && self.link <= 15
    }
}

/// The numbers of a house profile.
#[derive(Clone, Copy, Debug, PartialEq, Eq)]
pub struct House {
    pub profile: u8,
    pub hops: u8,
    pub wanted: u32,
    pub interval: u32,
    pub quota: u32,
    pub rate: u32,
    pub own_packet: u16,
    pub longest_packet: u16,
    pub link_rate: u16,
}

impl House {
    fn delayer(&self) -> u64 {
        let rate = u64::from(self.rate);
        let link_rate = u64::from(self.link_rate);
        let units = u64::from(self.own_packet) * link_rate + u64::from(self.longest_packet) * rate;
        units.div_ceil(rate * link_rate)
    }

    fn in_range(&self) -> bool {
        let packets = [self.own_packet, self.longest_packet, self.link_rate];
        let rated = (1..=65_535).contains(&self.rate);
        (1..=5).contains(&self.hops)
            && self.wanted <= 65_535
            && (1..=1_024).contains(&self.interval)
            && (1..=65_535).contains(&self.quota)
            && match self.profile {
                0 => self.rate == 0 && packets == [0; 3],
                1 => rated && packets == [0; 3],
                2 => rated && packets.iter().all(|&n| n > 0) && self.delayer() <= 64,
                _ => false,
            }
    }

    /// The path that the numbers stand for.
    fn path(self) -> Path {
        let mut path = Path {
            form: Form::House(self),
            declaration: Declaration::Smooth(Row {
                interval: self.interval,
                quota: self.quota,
            }),
            wanted: self.wanted,
            count: 0,
            places: [Place::NONE; MOST_OPERATORS],
        };
        for hop in 0..u32::from(self.hops) {
            let mut put = |operator| {
                path.places[path.count] = Place {
                    operator,
                    link: hop,
                };
                path.count += 1;
            };
            match self.profile {
                0 => {
                    put(Operator::Compactor(self.interval));
                    put(Operator::Expander(self.interval));
                }
                1 => {
                    put(Operator::Limiter(self.rate));
                    put(Operator::Compactor(self.interval));
                    put(Operator::Expander(self.interval));
                }
                _ => {
                    put(Operator::Filter(self.rate));
                    put(Operator::Delayer(self.delayer() as u32));
                }
            }
        }
        path
    }

    pub fn field(&self) -> [u8; 25] {
        let mut field = [0; 25];
        field[..5].copy_from_slice(&[0x04, 0, 22, self.profile, self.hops]);
        field[5..9].copy_from_slice(&self.wanted.to_be_bytes());
        field[9..11].copy_from_slice(&(self.interval as u16).to_be_bytes());
        field[11..15].copy_from_slice(&self.quota.to_be_bytes());
        field[15..19].copy_from_slice(&self.rate.to_be_bytes());
        field[19..21].copy_from_slice(&self.own_packet.to_be_bytes());
        field[21..23].copy_from_slice(&self.longest_packet.to_be_bytes());
        field[23..].copy_from_slice(&self.link_rate.to_be_bytes());
        field
    }
}

/// Fields 01 (or 05), 02 and 03, or one field 04.
#[derive(Clone, Copy, Debug, PartialEq, Eq)]
pub enum Form {
    Fields,
    House(House),
}

/// The path has the first `count` of its places.
#[derive(Clone, Copy, Debug, PartialEq, Eq)]
pub struct Path {
    pub form: Form,
    pub declaration: Declaration,
    pub wanted: u32,
    pub count: usize,
    pub places: [Place; MOST_OPERATORS],
}

/// The fields of a sheet, from the left.
struct Fields<'a> {
    sheet: &'a [u8],
    at: usize,
}

impl<'a> Fields<'a> {
    /// The body of the next field, which is due with this tag and length (refusals 2 to 4).
    fn body<const LENGTH: usize>(&mut self, tag: u8) -> Result<&'a [u8; LENGTH], Refusal> {
        let at = self.at;
        let rest = &self.sheet[at..];
        if rest.is_empty() {
            return Err(Refusal::FieldUnexpected(at));
        }
        let Some((header, rest)) = rest.split_first_chunk::<HEADER>() else {
            return Err(Refusal::HeaderCutOff(at));
        };
        let length = usize::from(u16::from_be_bytes([header[1], header[2]]));
        if header[0] != tag || length != LENGTH {
            return Err(Refusal::FieldUnexpected(at));
        }
        let body = rest.first_chunk().ok_or(Refusal::BodyCutOff(at))?;
        self.at = at + HEADER + LENGTH;
        Ok(body)
    }

    /// Field 01, or 05 in its place.
    fn declaration(&mut self) -> Result<Declaration, Refusal> {
        if self.sheet.first() == Some(&0x05) {
            return self.rows().map(Declaration::Rows);
        }
        let at = self.at;
        let &[kind, m0, m1, q0, q1, q2, q3] = self.body(0x01)?;
        let row = Row::new(&[m0, m1, q0, q1, q2, q3]);
        match kind {
            0 if row.in_range() => Ok(Declaration::Smooth(row)),
            1 if row.in_range() => Ok(Declaration::Uniform(row)),
            _ => Err(Refusal::OutOfRange(at)),
        }
    }

    /// The length of its body says how many rows there are.
    #[inline(never)]
    fn rows(&mut self) -> Result<Rows, Refusal> {
        let at = self.at;
        let rows = match self.sheet {
            [_, _, 24, ..] => Rows::new::<24>(self.body(0x05)?),
            [_, _, 18, ..] => Rows::new::<18>(self.body(0x05)?),
            _ => Rows::new::<12>(self.body(0x05)?),
        };
        rows.test(at)?;
        Ok(rows)
    }

    fn wanted(&mut self) -> Result<u32, Refusal> {
        let at = self.at;
        let wanted = u32::from_be_bytes(*self.body(0x02)?);
        if wanted > 65_535 {
            return Err(Refusal::OutOfRange(at));
        }
        Ok(wanted)
    }

    fn place(&mut self) -> Result<Place, Refusal> {
        let at = self.at;
        let &[kind, link, n0, n1, n2, n3] = self.body(0x03)?;
        let number = u32::from_be_bytes([n0, n1, n2, n3]);
        let operator = Operator::new(kind, number).ok_or(Refusal::OutOfRange(at))?;
        let place = Place {
            operator,
            link: u32::from(link),
        };
        if !place.in_range() {
            return Err(Refusal::OutOfRange(at));
        }
        Ok(place)
    }

    fn house(&mut self) -> Result<House, Refusal> {
        let at = self.at;
        let body: &[u8; 22] = self.body(0x04)?;
        let number = |from: usize, width: usize| {
            body[from..from + width]
                .iter()
                .fold(0, |number, &byte| number << 8 | u32::from(byte))
        };
        let house = House {
            profile: body[0],
            hops: body[1],
            wanted: number(2, 4),
            interval: number(6, 2),
            quota: number(8, 4),
            rate: number(12, 4),
            own_packet: number(16, 2) as u16,
            longest_packet: number(18, 2) as u16,
            link_rate: number(20, 2) as u16,
        };
        if !house.in_range() {
            return Err(Refusal::OutOfRange(at));
        }
        Ok(house)
    }

    /// Nothing more may begin here.
    fn end(&self) -> Result<(), Refusal> {
        match self.left() {
            0 => Ok(()),
            left if left < HEADER => Err(Refusal::HeaderCutOff(self.at)),
            _ => Err(Refusal::FieldUnexpected(self.at)),
        }
    }

    fn left(&self) -> usize {
        self.sheet.len() - self.at
    }
}

/// The path of a sheet.
pub fn read(sheet: &[u8]) -> Result<Path, Refusal> {
    let mut fields = Fields { sheet, at: 0 };
    if sheet.first() == Some(&0x04) {
        let house = fields.house()?;
        fields.end()?;
        return Ok(house.path());
    }
    let declaration = fields.declaration()?;
    let wanted = fields.wanted()?;
    let mut path = Path {
        form: Form::Fields,
        declaration,
        wanted,
        count: 0,
        places: [Place::NONE; MOST_OPERATORS],
    };
    loop {
        path.places[path.count] = fields.place()?;
        path.count += 1;
        if fields.left() == 0 {
            return Ok(path);
        }
        if path.count == MOST_OPERATORS {
            fields.end()?;
        }
    }
}

/// Writes the sheet of a path into 256 bytes, and answers its length.
pub fn write(path: &Path, sheet: &mut [u8]) -> Result<usize, Refusal> {
    if sheet.len() != SHEET_MEMORY {
        return Err(Refusal::Unusable);
    }
    if let Form::House(house) = path.form {
        if !house.in_range() {
            return Err(Refusal::OutOfRange(0));
        }
        sheet[..25].copy_from_slice(&house.field());
        return Ok(25);
    }
    if path.count == 0 || path.count > MOST_OPERATORS {
        return Err(Refusal::FieldUnexpected(0));
    }
    let places = &path.places[..path.count];
    path.declaration.test(0)?;
    if path.wanted > 65_535 || !places.iter().all(Place::in_range) {
        return Err(Refusal::OutOfRange(0));
    }
    let length = path.declaration.put_field(sheet);
    let (wanted, operators) = sheet[length..].split_at_mut(WANTED_LENGTH);
    let [w0, w1, w2, w3] = path.wanted.to_be_bytes();
    wanted.copy_from_slice(&[0x02, 0, 4, w0, w1, w2, w3]);
    let (fields, _) = operators.as_chunks_mut::<OPERATOR_LENGTH>();
    for (field, place) in fields.iter_mut().zip(places) {
        let (kind, link) = (place.operator.kind(), place.link as u8);
        let [n0, n1, n2, n3] = place.operator.number().to_be_bytes();
        *field = [0x03, 0, 6, kind, link, n0, n1, n2, n3];
    }
    Ok(length + WANTED_LENGTH + OPERATOR_LENGTH * path.count)
}
