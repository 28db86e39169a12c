// The Rust's side; included after oracle/driver/src/run.rs.

type Expressions = Result<Vec<Expression>, CascadeErrors>;
type Ordered<'a> = Result<Vec<&'a TypeInfo>, CascadeErrors>;

pub struct Rust {
    types: TypeMap,
    extends: Extends,
    work: crate::Work,
}

// The work has functions of its own, so that callgrind can count in them alone; `black_box` keeps
// them from being merged with what they call.

#[inline(never)]
fn timed_order(types: &TypeMap) -> Ordered<'_> {
    std::hint::black_box(compile::order(types))
}

#[inline(never)]
fn timed_apply(types: &TypeMap, extends: &Extends) -> Expressions {
    std::hint::black_box(compile::apply_associate_annotations(types, extends))
}

/// The Rust's work from the bytes of the sheet on: they are read (by the oracle's reader, ours)
/// and the type map is built within the clock.
pub struct Whole {
    bytes: Vec<u8>,
    work: crate::Work,
}

impl Whole {
    pub fn new(bytes: &[u8], work: crate::Work) -> Whole {
        let bytes = bytes.to_vec();
        Whole { bytes, work }
    }
}

impl crate::Side for Whole {
    fn find(&mut self) -> crate::Found {
        Rust::new(&self.bytes, self.work).find()
    }

    fn run(&mut self) -> std::time::Duration {
        let begin = std::time::Instant::now();
        let side = Rust::new(std::hint::black_box(&self.bytes), self.work);
        let made = side.made();
        let time = begin.elapsed();
        drop(made);
        time
    }
}

impl Rust {
    pub fn new(bytes: &[u8], work: crate::Work) -> Rust {
        let sheet = sheet::read(bytes).unwrap_or_else(|number| panic!("refused {number}"));
        let (types, extends) = type_map(&sheet, &mut Places::default());
        Rust {
            types,
            extends,
            work,
        }
    }

    /// The order, and what `apply_associate_annotations` makes. Where there is no order it would
    /// only say so again.
    fn made(&self) -> (Option<Ordered<'_>>, Option<Expressions>) {
        let types = std::hint::black_box(&self.types);
        let order = match self.work {
            crate::Work::Apply => None,
            _ => Some(timed_order(types)),
        };
        let all = match (self.work, &order) {
            (crate::Work::Order, _) | (_, Some(Err(_))) => None,
            _ => Some(timed_apply(types, &self.extends)),
        };
        (order, all)
    }
}

impl crate::Side for Rust {
    fn find(&mut self) -> crate::Found {
        if compile::order(&self.types).is_err() {
            return crate::Found { number: 8, items: 0 };
        }
        if self.work == crate::Work::Order {
            return crate::Found { number: 0, items: 0 };
        }
        match compile::apply_associate_annotations(&self.types, &self.extends) {
            Ok(all) => crate::Found { number: 0, items: all.len() },
            Err(_) => crate::Found { number: 9, items: 0 },
        }
    }

    fn run(&mut self) -> std::time::Duration {
        let begin = std::time::Instant::now();
        let made = self.made();
        let time = begin.elapsed();
        drop(made);
        time
    }
}
