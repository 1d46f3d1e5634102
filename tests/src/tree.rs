//! Classes, trees, and the rules 4, 7, 8, 9 and 10 on a tree in memory.

use crate::curves::{fits, Curve};

/// A numbered refusal and the class that it names.
#[derive(Clone, Copy, Debug, PartialEq, Eq)]
pub struct Refusal {
    pub number: u32,
    pub class: usize,
}

/// As the refusal of a tree is printed.
impl std::fmt::Display for Refusal {
    fn fmt(&self, to: &mut std::fmt::Formatter) -> std::fmt::Result {
        write!(to, "refused {} class {}", self.number, self.class)
    }
}

pub fn refusal(number: u32, class: usize) -> Refusal {
    Refusal { number, class }
}

#[derive(Clone, Copy, Debug, PartialEq, Eq)]
pub struct Class {
    pub parent: u32,
    pub share: u32,
    pub curve: Curve,
}

/// A tree is its count and the classes numbered below it: here the list is as long as the count.
#[derive(Clone, Debug, PartialEq, Eq)]
pub struct Tree {
    pub classes: Vec<Class>,
}

/// The root as the document wants it.
pub const ROOT: Class = Class { parent: 0, share: 65_536, curve: Curve::None };

impl Tree {
    /// What a refusal gives.
    pub fn of_no_classes() -> Tree {
        Tree { classes: Vec::new() }
    }

    /// A root with these classes after it.
    pub fn under_root(classes: &[Class]) -> Tree {
        Tree { classes: [&[ROOT], classes].concat() }
    }

    pub fn count(&self) -> usize {
        self.classes.len()
    }

    pub fn parent(&self, class: usize) -> usize {
        self.classes[class].parent as usize
    }

    pub fn share(&self, class: usize) -> u128 {
        u128::from(self.classes[class].share)
    }

    pub fn curve(&self, class: usize) -> Curve {
        self.classes[class].curve
    }

    /// The children in number order. The root is nobody's child.
    pub fn children(&self, class: usize) -> Vec<usize> {
        (1..self.count()).filter(|&child| self.parent(child) == class).collect()
    }

    pub fn has_children(&self, class: usize) -> bool {
        (1..self.count()).any(|child| self.parent(child) == class)
    }

    /// Is this the number of a class that is there and has no children?
    pub fn is_leaf(&self, class: usize) -> bool {
        class < self.count() && !self.has_children(class)
    }

    pub fn leaves(&self) -> Vec<usize> {
        (0..self.count()).filter(|&class| self.is_leaf(class)).collect()
    }

    /// The class, its parent and so upward, the root last.
    pub fn upward(&self, class: usize) -> Vec<usize> {
        let mut path = vec![class];
        let mut here = class;
        while here != 0 {
            here = self.parent(here);
            path.push(here);
        }
        path
    }

    /// Is the class this one, or above it?
    pub fn is_at_or_above(&self, class: usize, below: usize) -> bool {
        let mut here = below;
        while here > class {
            here = self.parent(here);
        }
        here == class
    }

    /// The root is at depth 0.
    pub fn depth(&self, class: usize) -> usize {
        self.upward(class).len() - 1
    }

    pub fn curves(&self) -> Vec<Curve> {
        self.classes.iter().map(|class| class.curve).collect()
    }

    /// The checks 4, 7, 8, 9, 10 in that order, each over all classes before the next.
    pub fn check(&self) -> Result<(), Refusal> {
        self.check_count()?;
        self.check_rules()?;
        self.check_depths()?;
        self.check_curves_on_leaves()?;
        self.check_fit()
    }

    fn check_count(&self) -> Result<(), Refusal> {
        none_at_fault(4, if count_allowed(self.count()) { None } else { Some(0) })
    }

    pub fn check_rules(&self) -> Result<(), Refusal> {
        none_at_fault(7, (0..self.count()).find(|&class| !class_allowed(class, &self.classes[class])))
    }

    pub fn check_depths(&self) -> Result<(), Refusal> {
        none_at_fault(8, (0..self.count()).find(|&class| self.depth(class) > 8))
    }

    pub fn check_curves_on_leaves(&self) -> Result<(), Refusal> {
        none_at_fault(9, (0..self.count()).find(|&class| self.curve(class).is_some() && self.has_children(class)))
    }

    pub fn check_fit(&self) -> Result<(), Refusal> {
        none_at_fault(10, if fits(&self.curves()) { None } else { Some(0) })
    }

    /// The printed form: the line `tree`, then a line a class.
    pub fn print(&self) -> String {
        let lines = self.classes.iter().enumerate().map(|(number, class)| print_class(number, class));
        std::iter::once("tree\n".to_string()).chain(lines).collect()
    }
}

/// The refusal of this number if a class is at fault.
fn none_at_fault(number: u32, at_fault: Option<usize>) -> Result<(), Refusal> {
    at_fault.map_or(Ok(()), |class| Err(refusal(number, class)))
}

/// Classes, root included: 2 to 64.
pub fn count_allowed(count: usize) -> bool {
    (2..=64).contains(&count)
}

/// The rules on parent, share and curve numbers of one class (7).
pub fn class_allowed(number: usize, class: &Class) -> bool {
    if number == 0 {
        *class == ROOT
    } else {
        (class.parent as usize) < number && rate_allowed(class.share) && curve_allowed(&class.curve)
    }
}

fn curve_allowed(curve: &Curve) -> bool {
    match *curve {
        Curve::None => true,
        Curve::Straight { m } => rate_allowed(m),
        Curve::FrontLoaded { m1, d, m2 } => rate_allowed(m1) && rate_allowed(m2) && m1 > m2 && bend_allowed(d),
        Curve::Delayed { d, m } => rate_allowed(m) && bend_allowed(d),
    }
}

fn rate_allowed(rate: u32) -> bool {
    (1..=65_536).contains(&rate)
}

fn bend_allowed(bend: u32) -> bool {
    (1..=1_048_576).contains(&bend)
}

fn print_class(number: usize, class: &Class) -> String {
    format!("class {number} parent {} share {} {}\n", class.parent, class.share, print_curve(&class.curve))
}

fn print_curve(curve: &Curve) -> String {
    match *curve {
        Curve::None => "none".to_string(),
        Curve::Straight { m } => format!("straight {m}"),
        Curve::FrontLoaded { m1, d, m2 } => format!("front-loaded {m1} {d} {m2}"),
        Curve::Delayed { d, m } => format!("delayed {d} {m}"),
    }
}
