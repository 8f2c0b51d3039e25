//! A plain model of the spans that are open and of the contexts that are attached.
use std::alloc::{AllocError, Global};

/// A span.
#[derive(Drop)]
pub struct Node {
    /// The open span inside which it was entered.
    within: Option<u64>,
    /// The root of its trace.
    pub trace: u64,
    is_open: bool,
    /// Its own attachment, if it was entered.
    place: Option<usize>,
    /// The number of attributes that were set.
    pub marks: usize,
}

/// A context that was attached.
#[derive(Drop)]
struct Place {
    node: u64,
    is_live: bool,
}

/// All spans, by their numbers, and all attachments, the oldest first.
#[derive(Drop)]
pub struct Plain {
    alloc: Global,
    pub nodes: Vec<Node>,
    places: Vec<Place>,
    pub open: usize,
}

impl Plain {
    /// Returns the model of nothing.
    pub fn new(alloc: Global) -> Plain {
        Plain {
            alloc,
            nodes: Vec::new(alloc),
            places: Vec::new(alloc),
            open: 0,
        }
    }

    /// Returns the span of the current context, open or not.
    pub fn current(&self) -> Option<u64> {
        let newest = self.places.iter().rev().find(|place| place.is_live)?;
        Some(newest.node)
    }

    /// Attaches the context of a span. Returns the attachment.
    pub fn attach(&mut self, node: u64) -> Result<usize, AllocError> {
        let place = self.places.len();
        let is_live = true;
        self.places.push(Place { node, is_live })?;
        Ok(place)
    }

    /// Detaches it.
    pub fn detach(&mut self, place: usize) {
        self.places[place].is_live = false;
    }

    /// Starts a span.
    pub fn start(&mut self, parent: Option<u64>) -> Result<u64, AllocError> {
        let number = self.nodes.len() as u64;
        let trace = match parent {
            Some(parent) => self.nodes[parent as usize].trace,
            None => number,
        };
        self.nodes.push(Node {
            within: None,
            trace,
            is_open: true,
            place: None,
            marks: 0,
        })?;
        self.open += 1;
        Ok(number)
    }

    /// Starts a span under the current one, inside it if that is open, and attaches it.
    pub fn enter(&mut self) -> Result<u64, AllocError> {
        let outer = self.current();
        let number = self.start(outer)?;
        let place = self.attach(number)?;
        let within = outer.filter(|outer| self.nodes[*outer as usize].is_open);
        let node = &mut self.nodes[number as usize];
        node.within = within;
        node.place = Some(place);
        Ok(number)
    }

    /// Counts an attribute of the current span, if it is open.
    pub fn mark(&mut self) {
        if let Some(current) = self.current()
            && self.nodes[current as usize].is_open
        {
            self.nodes[current as usize].marks += 1;
        }
    }

    /// Returns whether the one is the other, or was entered inside it.
    fn is_inside(&self, number: u64, outer: u64) -> bool {
        let mut at = number;
        while at != outer {
            match self.nodes[at as usize].within {
                Some(within) => at = within,
                None => return false,
            }
        }
        true
    }

    /// Ends the span, and each open one inside it. Returns their numbers, the newest first.
    pub fn end(&mut self, outer: u64) -> Result<Vec<u64>, AllocError> {
        let mut ended = Vec::new(self.alloc);
        if !self.nodes[outer as usize].is_open {
            return Ok(ended);
        }
        for number in (outer..self.nodes.len() as u64).rev() {
            if self.nodes[number as usize].is_open && self.is_inside(number, outer) {
                ended.push(number)?;
            }
        }
        for number in &ended {
            let node = &mut self.nodes[*number as usize];
            node.is_open = false;
            if let Some(place) = node.place {
                self.places[place].is_live = false;
            }
        }
        self.open -= ended.len();
        Ok(ended)
    }
}
