//! Requests that are served by turns in a random order, beside a plain model.
use super::keeping::Keeping;
use super::plain::Plain;
use opentelemetry::trace::{Attached, Entered, LocalTracing, NotEntered, SpanBuilder, Tracing};
use opentelemetry::{Context, Key, KeyValue, StringValue, Value};
use std::alloc::{AllocError, Global};

/// The number of requests of an order, and of the steps in all.
const REQUESTS: usize = 20;

const STEPS: usize = 700;

/// The number of steps of a request before its end.
const PARTS: u32 = 24;

/// Numbers that look random.
#[derive(Drop)]
struct Dice {
    state: u64,
}

impl Dice {
    fn below(&mut self, count: usize) -> usize {
        self.state = self
            .state
            .wrapping_mul(6364136223846793005)
            .wrapping_add(1442695040888963407);
        ((self.state >> 33) % count as u64) as usize
    }
}

/// A request: its span, its turn, and the spans of its parts.
#[derive(Drop)]
struct Request {
    root: Option<(u64, Context)>,
    turn: Option<(usize, Attached)>,
    entered: Vec<(u64, Entered)>,
    started: Vec<(u64, Context)>,
    left: u32,
    is_done: bool,
}

/// An order: the value, the model, contexts of another value, and what differed first.
#[derive(Drop)]
struct Order {
    tracing: LocalTracing<Keeping>,
    plain: Plain,
    requests: Vec<Request>,
    foreign: Vec<Context>,
    wrong: &'static str,
}

/// Adds to the list.
fn add<T: Drop>(list: &mut Vec<T>, item: T) -> Result<(), AllocError> {
    Ok(list.push(item)?)
}

fn named(name: &'static str) -> SpanBuilder {
    SpanBuilder::from_name(StringValue::from(name))
}

/// Contexts of another value, whose spans have the numbers 0, 1, .. and other ids.
fn foreign(alloc: Global) -> Result<Vec<Context>, NotEntered> {
    let mut other = LocalTracing::new(alloc, Keeping::new(alloc, 1 << 40))?;
    let mut contexts = Vec::new(alloc);
    for _ in 0..40 {
        add(&mut contexts, other.start("foreign")?)?;
    }
    Ok(contexts)
}

impl Order {
    fn new(alloc: Global) -> Result<Order, NotEntered> {
        let mut requests = Vec::new(alloc);
        for _ in 0..REQUESTS {
            let request = Request {
                root: None,
                turn: None,
                entered: Vec::new(alloc),
                started: Vec::new(alloc),
                left: PARTS,
                is_done: false,
            };
            add(&mut requests, request)?;
        }
        Ok(Order {
            tracing: LocalTracing::new(alloc, Keeping::new(alloc, 0))?,
            plain: Plain::new(alloc),
            requests,
            foreign: foreign(alloc)?,
            wrong: "",
        })
    }

    /// Keeps the first thing that differs.
    fn expect(&mut self, holds: bool, what: &'static str) {
        if !holds && self.wrong.is_empty() {
            self.wrong = what;
        }
    }

    fn check(&mut self) {
        let current = self.tracing.context().span_number();
        self.expect(
            current == self.plain.current(),
            "another context is current",
        );
        let open = self.tracing.open_spans();
        self.expect(open == self.plain.open, "another number of spans is open");
    }

    /// Ends a span that was entered or started.
    fn end(
        &mut self,
        number: u64,
        entered: Option<Entered>,
        started: Option<Context>,
    ) -> Result<(), AllocError> {
        let before = self.tracing.source().taken.len();
        let wanted = self.plain.end(number)?;
        if let Some(entered) = entered {
            self.tracing.exit(entered);
        }
        if let Some(context) = started {
            self.tracing.end(&context);
        }
        let source = self.tracing.source();
        let ended = &source.taken[before..];
        let are_these = ended.len() == wanted.len()
            && ended
                .iter()
                .zip(&wanted)
                .all(|(span, number)| source.number_of(span) == *number);
        let mut are_whole = true;
        for span in ended {
            let number = source.number_of(span) as usize;
            let marks = self.plain.nodes.get(number).map(|node| node.marks);
            are_whole = are_whole
                && Some(span.effects().len()) == marks
                && span.ended() == ended[0].ended();
        }
        self.expect(are_these, "other spans ended, or in another order");
        self.expect(
            are_whole,
            "a span ended with other attributes, or at another time",
        );
        Ok(())
    }

    /// Starts a request.
    fn receive(&mut self, which: usize) -> Result<(), NotEntered> {
        let number = self.plain.start(None)?;
        let context = self.tracing.start_under(&Context::new(), named("serve"))?;
        let is_next = context.span_number() == Some(number);
        self.expect(is_next, "a span has another number");
        self.requests[which].root = Some((number, context));
        Ok(())
    }

    /// Sets an attribute of the current span.
    fn mark(&mut self) -> Result<(), AllocError> {
        self.plain.mark();
        let attribute = KeyValue::new(Key::from("k"), Value::I64(1));
        self.tracing.set_attribute(attribute)
    }

    /// Treats a context of another value as if it were one of this value.
    fn confuse(&mut self, dice: &mut Dice) -> Result<(), AllocError> {
        let foreign = self.foreign[dice.below(40)].clone()?;
        let turn = self.tracing.attach(foreign.clone()?)?;
        let attribute = KeyValue::new(Key::from("lost"), Value::I64(1));
        self.tracing.set_attribute(attribute)?;
        self.tracing.end(&foreign);
        self.tracing.detach(turn);
        Ok(())
    }

    /// Takes the next step of a request.
    fn step(&mut self, which: usize, dice: &mut Dice) -> Result<(), NotEntered> {
        let request = &mut self.requests[which];
        if request.is_done {
            return Ok(());
        }
        let Some((root, context)) = &request.root else {
            return self.receive(which);
        };
        let (root, context) = (*root, context.clone()?);
        if request.left == 0 {
            request.is_done = true;
            return Ok(self.end(root, None, Some(context))?);
        }
        request.left -= 1;
        match dice.below(14) {
            0 | 1 if request.turn.is_none() => {
                let place = self.plain.attach(root)?;
                request.turn = Some((place, self.tracing.attach(context)?));
                Ok(())
            }
            0 | 1 => Ok(self.end_turn(which)),
            2..6 => self.start_part(which, root, &context, dice),
            6..12 => Ok(self.end_part(which, dice)?),
            12 => Ok(self.mark()?),
            _ => Ok(self.confuse(dice)?),
        }
    }

    fn end_turn(&mut self, which: usize) {
        if let Some((place, attached)) = self.requests[which].turn.take() {
            self.plain.detach(place);
            self.tracing.detach(attached);
        }
    }

    /// Enters a span, whatever is current, or starts one under the request's.
    fn start_part(
        &mut self,
        which: usize,
        root: u64,
        context: &Context,
        dice: &mut Dice,
    ) -> Result<(), NotEntered> {
        let request = &mut self.requests[which];
        if dice.below(2) == 0 {
            let number = self.plain.enter()?;
            let entered = self.tracing.enter("part")?;
            add(&mut request.entered, (number, entered))?;
        } else {
            let number = self.plain.start(Some(root))?;
            let started = self.tracing.start_under(context, named("task"))?;
            add(&mut request.started, (number, started))?;
        }
        Ok(())
    }

    /// Ends any one of the request's spans, maybe again.
    fn end_part(&mut self, which: usize, dice: &mut Dice) -> Result<(), AllocError> {
        let request = &mut self.requests[which];
        let (entered, started) = (request.entered.len(), request.started.len());
        if dice.below(2) == 0 && entered > 0 {
            let (number, entered) = request.entered.swap_remove(dice.below(entered));
            self.end(number, Some(entered), None)?;
            self.end(number, Some(entered), None)?;
        } else if started > 0 {
            let (number, started) = request.started.swap_remove(dice.below(started));
            self.end(number, None, Some(started))?;
        }
        Ok(())
    }

    /// Ends each turn and each span that is left.
    fn finish(&mut self) -> Result<(), AllocError> {
        for which in 0..REQUESTS {
            self.end_turn(which);
            self.check();
            while let Some((number, entered)) = self.requests[which].entered.pop() {
                self.end(number, Some(entered), None)?;
                self.check();
            }
            while let Some((number, started)) = self.requests[which].started.pop() {
                self.end(number, None, Some(started))?;
                self.check();
            }
            if let Some((root, context)) = self.requests[which].root.take() {
                self.end(root, None, Some(context))?;
                self.check();
            }
        }
        let is_empty = self.tracing.open_spans() == 0 && !self.tracing.context().has_active_span();
        self.expect(is_empty, "something is left open or attached");
        self.check_traces();
        Ok(())
    }

    /// Checks that each span is in its trace, and ended once.
    fn check_traces(&mut self) {
        let source = self.tracing.source();
        let mut are_there = source.taken.len() == self.plain.nodes.len();
        for span in &source.taken {
            let number = source.number_of(span) as usize;
            let root = self.plain.nodes.get(number).map(|node| node.trace);
            let trace = source.trace_of(span);
            are_there = are_there && root == Some(trace);
        }
        self.expect(are_there, "a span is missing, or in another trace");
    }
}

/// Serves the requests in the order of this seed. Returns what differed from the model first, or
/// the empty string.
///
/// # Errors
///
/// Out of memory.
pub fn played(alloc: Global, seed: u64) -> Result<&'static str, NotEntered> {
    let mut dice = Dice { state: seed };
    let mut order = Order::new(alloc)?;
    for _ in 0..STEPS {
        let which = dice.below(REQUESTS);
        order.step(which, &mut dice)?;
        order.check();
    }
    order.finish()?;
    Ok(order.wrong)
}
