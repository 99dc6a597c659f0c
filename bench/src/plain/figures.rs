//! The figures of a path (section 4; document 02, item 6).

use super::bound::{Bound, UNFILLED, reach};
use super::sheet::{Declaration, MOST_OPERATORS, Operator, Path, Place, Row, read};
use super::{LARGEST, Refusal};

const LARGEST_CHANGED_QUOTA: u64 = 67_108_863;

#[derive(Clone, Copy, Debug, Default, PartialEq, Eq)]
pub struct Figure {
    pub capacity: u64,
    pub delay: u64,
}

#[derive(Clone, Copy, Debug, PartialEq, Eq)]
pub struct PathFigures {
    pub path: Path,
    pub figures: [Figure; MOST_OPERATORS],
    pub delay: u64,
}

fn gcd(mut a: u64, mut b: u64) -> u64 {
    while b != 0 {
        (a, b) = (b, a % b);
    }
    a
}

/// What the figures ask of a class.
trait Class {
    fn burst_at(&self, rate: u64) -> u64;

    /// The most that comes in n neighbouring slots, of which there is one at least.
    fn most_in(&self, n: u64) -> u64;

    /// The most that delayers of so many slots hold before any filter.
    fn most_delayed(&self, slots: u64) -> u64;

    /// The quota after a change of interval to n.
    fn changed_quota(&self, n: u64) -> u64;

    fn is_above(&self, rate: u64) -> bool;
}

#[derive(Clone, Copy)]
enum Kind {
    Smooth,
    Uniform,
}

/// A smooth or uniform class. A change of interval may bring its quota above 32 bits.
#[derive(Clone, Copy)]
struct Pair {
    kind: Kind,
    interval: u64,
    quota: u64,
}

impl Pair {
    fn declared(kind: Kind, row: Row) -> Pair {
        Pair {
            kind,
            interval: u64::from(row.interval),
            quota: u64::from(row.quota),
        }
    }
}

impl Class for Pair {
    fn burst_at(&self, _: u64) -> u64 {
        match self.kind {
            Kind::Smooth => 2 * self.quota,
            Kind::Uniform => self.quota,
        }
    }

    fn most_in(&self, n: u64) -> u64 {
        match self.kind {
            Kind::Smooth => ((n - 1).div_ceil(self.interval) + 1) * self.quota,
            Kind::Uniform => n.div_ceil(self.interval) * self.quota,
        }
    }

    fn most_delayed(&self, slots: u64) -> u64 {
        let blocks = slots.div_ceil(self.interval);
        match self.kind {
            Kind::Smooth => (blocks + 1) * self.quota,
            Kind::Uniform => blocks * self.quota,
        }
    }

    fn changed_quota(&self, n: u64) -> u64 {
        match self.kind {
            Kind::Smooth => {
                let late = self.interval - gcd(self.interval, n);
                ((late + n - 1) / self.interval + 1) * self.quota
            }
            Kind::Uniform => self.most_in(n),
        }
    }

    fn is_above(&self, rate: u64) -> bool {
        self.quota > self.interval * rate
    }
}

impl Class for Bound<'_> {
    fn burst_at(&self, rate: u64) -> u64 {
        Bound::burst_at(self, rate)
    }

    fn most_in(&self, n: u64) -> u64 {
        Bound::most_in(self, n)
    }

    fn most_delayed(&self, slots: u64) -> u64 {
        Bound::most_in(self, slots)
    }

    fn changed_quota(&self, n: u64) -> u64 {
        Bound::most_in(self, n)
    }

    fn is_above(&self, rate: u64) -> bool {
        !self.is_carried_by(rate)
    }
}

/// The least filter rate so far, and the burst at it.
#[derive(Clone, Copy)]
struct Slowest {
    rate: u64,
    burst: u64,
}

/// The filters and delayers so far.
#[derive(Clone, Copy, Default)]
struct FilterPart {
    /// The sum of d.
    e: u64,
    slowest: Option<Slowest>,
    delay: u64,
}

impl FilterPart {
    fn add_filter(&mut self, class: &impl Class, rate: u64) {
        if self.slowest.is_none_or(|slowest| rate < slowest.rate) {
            let burst = class.burst_at(rate);
            self.slowest = Some(Slowest { rate, burst });
        }
    }

    /// The most that an operator holds at a slot's end.
    fn held(&self, class: &impl Class) -> u64 {
        match self.slowest {
            Some(Slowest { rate, burst }) => burst + self.e * rate,
            None => class.most_delayed(self.e),
        }
    }

    /// The figure of the operator that has joined the part: its own delay is what it adds, and before it sends it has what arrives in a slot too.
    fn figure(&mut self, class: &impl Class, k: usize) -> Result<Figure, Refusal> {
        let held = self.held(class);
        if held > LARGEST {
            return Err(Refusal::FigureTooLarge(k));
        }
        let before = self.delay;
        self.delay = self.e
            + self
                .slowest
                .map_or(0, |Slowest { rate, burst }| burst.div_ceil(rate));
        Ok(Figure {
            capacity: held + class.most_in(1 + before),
            delay: self.delay - before,
        })
    }
}

/// The figure of a framed operator and the class behind it; none of a filter or delayer.
#[inline(always)]
fn framed(
    class: &impl Class,
    places: &[Place],
    k: usize,
) -> Result<Option<(Figure, Pair)>, Refusal> {
    let (kind, n) = match places[k].operator {
        Operator::Limiter(rate) => {
            let rate = u64::from(rate);
            let held = class.burst_at(rate);
            if held > LARGEST {
                return Err(Refusal::FigureTooLarge(k));
            }
            if class.is_above(rate) {
                return Err(Refusal::RateTooLow(k));
            }
            let figure = Figure {
                capacity: held + class.most_in(1),
                delay: held.div_ceil(rate),
            };
            let behind = Pair {
                kind: Kind::Uniform,
                interval: 1,
                quota: rate,
            };
            return Ok(Some((figure, behind)));
        }
        Operator::Compactor(n) => (Kind::Uniform, n),
        Operator::Expander(n) => (Kind::Smooth, n),
        Operator::Filter(_) | Operator::Delayer(_) => return Ok(None),
    };
    let interval = u64::from(n);
    let quota = class.changed_quota(interval);
    if quota > LARGEST_CHANGED_QUOTA {
        return Err(Refusal::FigureTooLarge(k));
    }
    let paired = matches!(kind, Kind::Smooth)
        && places
            .get(k + 1)
            .is_some_and(|next| next.operator == Operator::Compactor(n));
    let arriving = match kind {
        Kind::Smooth => 0,
        Kind::Uniform => class.most_in(1),
    };
    let figure = Figure {
        capacity: quota + arriving,
        delay: if paired { 0 } else { interval },
    };
    let behind = Pair {
        kind,
        interval,
        quota,
    };
    Ok(Some((figure, behind)))
}

/// The figures from the first filter or delayer on; answers the part's delay.
#[inline(always)]
fn filter_part(
    class: &impl Class,
    places: &[Place],
    from: usize,
    figures: &mut [Figure; MOST_OPERATORS],
) -> Result<u64, Refusal> {
    let mut part = FilterPart::default();
    for (k, place) in places.iter().enumerate().skip(from) {
        figures[k] = match place.operator {
            Operator::Filter(rate) => {
                let rate = u64::from(rate);
                part.add_filter(class, rate);
                let figure = part.figure(class, k)?;
                if class.is_above(rate) {
                    return Err(Refusal::RateTooLow(k));
                }
                figure
            }
            Operator::Delayer(d) => {
                part.e += u64::from(d);
                part.figure(class, k)?
            }
            _ => return Err(Refusal::FramedAfterFilter(k)),
        };
    }
    Ok(part.delay)
}

/// The figures from an operator on, before which the class is smooth or uniform; answers their delay.
#[inline(always)]
fn pair_part(
    mut class: Pair,
    places: &[Place],
    from: usize,
    figures: &mut [Figure; MOST_OPERATORS],
) -> Result<u64, Refusal> {
    let mut delay = 0;
    for k in from..places.len() {
        let Some((figure, behind)) = framed(&class, places, k)? else {
            return Ok(delay + filter_part(&class, places, k, figures)?);
        };
        figures[k] = figure;
        delay += figure.delay;
        class = behind;
    }
    Ok(delay)
}

/// The slots up to which the figures of a path of rows ask for their bound. The class is rows up to the first framed operator. A filter part's delay is less than the interval of the row that its least rate carries and the slots of its delayers.
fn slots_asked(rows: &[Row], places: &[Place]) -> usize {
    let mut asked = 1;
    let mut e = 0;
    let mut slowest = u64::MAX;
    let mut late = 1;
    for place in places {
        asked = asked.max(e + late);
        match place.operator {
            Operator::Limiter(rate) => {
                return asked.max(reach(rows, u64::from(rate)).unwrap_or(0));
            }
            Operator::Compactor(n) | Operator::Expander(n) => return asked.max(n as usize),
            Operator::Filter(rate) => {
                slowest = slowest.min(u64::from(rate));
                late = reach(rows, slowest).unwrap_or(1);
                asked = asked.max(late);
            }
            Operator::Delayer(d) => {
                e += d as usize;
                asked = asked.max(e);
            }
        }
    }
    asked
}

/// The figures of a path of rows; answers the delay. The table of the bound is on the stack of this function alone.
#[inline(never)]
fn rows_part(
    rows: &[Row],
    places: &[Place],
    figures: &mut [Figure; MOST_OPERATORS],
) -> Result<u64, Refusal> {
    let mut table = UNFILLED;
    let bound = Bound::new(rows, &mut table, slots_asked(rows, places));
    let Some((figure, behind)) = framed(&bound, places, 0)? else {
        return filter_part(&bound, places, 0, figures);
    };
    figures[0] = figure;
    Ok(figure.delay + pair_part(behind, places, 1, figures)?)
}

/// The figures of a sheet's path.
pub fn figures(sheet: &[u8]) -> Result<PathFigures, Refusal> {
    let path = read(sheet)?;
    let places = &path.places[..path.count];
    let mut figures = [Figure::default(); MOST_OPERATORS];
    let class = match &path.declaration {
        Declaration::Smooth(row) => Some(Pair::declared(Kind::Smooth, *row)),
        Declaration::Uniform(row) => Some(Pair::declared(Kind::Uniform, *row)),
        Declaration::Rows(_) => None,
    };
    let delay = match class {
        Some(class) => pair_part(class, places, 0, &mut figures)?,
        None => rows_part(path.declaration.rows(), places, &mut figures)?,
    };
    if delay > u64::from(path.wanted) {
        return Err(Refusal::DelayAboveWanted);
    }
    Ok(PathFigures {
        path,
        figures,
        delay,
    })
}
