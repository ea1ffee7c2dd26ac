//! What is measured: inputs on which several sides do the same work.

/// Who does the work.
#[derive(Clone, Copy, Debug, PartialEq, Eq)]
pub enum Side {
    Proved,
    Independent,
    /// What else the proved side is held to: a copy, or a reading and a copy.
    Beside,
}

/// An input with its buffers.
pub trait Work {
    /// Does the work so often, and answers a number in which all sides must agree.
    fn run(&mut self, side: Side, times: usize) -> u64;

    /// Of the file that is read or written.
    fn bytes(&self) -> usize;

    fn nodes(&self) -> usize;

    /// Calls that the work consists of; figures are for one.
    fn calls(&self) -> usize {
        1
    }
}

type Make = Box<dyn Fn() -> Box<dyn Work>>;

/// A line of a table. Its input is made only when it is measured, as many are large.
pub struct Row {
    pub title: String,
    pub make: Make,
    /// The ratios to the independent side and to what is beside that are aimed at.
    pub aim: Option<f64>,
    pub beside_aim: Option<f64>,
}

impl Row {
    pub fn new<W: Work + 'static>(title: impl Into<String>, make: impl Fn() -> W + 'static) -> Row {
        Row {
            title: title.into(),
            make: Box::new(move || Box::new(make())),
            aim: None,
            beside_aim: None,
        }
    }

    pub fn aim(mut self, aim: f64) -> Row {
        self.aim = Some(aim);
        self
    }

    pub fn beside(mut self, aim: f64) -> Row {
        self.beside_aim = Some(aim);
        self
    }
}

/// Rows of one sort.
pub struct Group {
    pub title: &'static str,
    /// What the state of the buffers is, and what stands beside.
    pub about: &'static str,
    pub beside: Option<&'static str>,
    /// The rows are of several lengths or counts, so that the time of each part is told.
    pub growth: bool,
    pub rows: Vec<Row>,
}
