//! Sibling trees, as they are listed and mirrored.

#[derive(Clone, Copy, PartialEq, Eq)]
pub enum Axis {
    First,
    Next,
    Owner,
    Previous,
}

impl Axis {
    pub fn reversed(self) -> Axis {
        match self {
            Axis::First => Axis::Owner,
            Axis::Next => Axis::Previous,
            Axis::Owner => Axis::First,
            Axis::Previous => Axis::Next,
        }
    }
}

pub trait Shape {
    fn node_count(&self) -> usize;
    fn neighbour(&self, axis: Axis, node: usize) -> Option<usize>;
}

#[derive(Clone, Copy)]
struct Node {
    depth: u16,
    next: Option<u16>,
    previous: Option<u16>,
}

/// A tree held by the depths of its nodes in document order.
pub struct DepthShape {
    nodes: Vec<Node>,
}

impl DepthShape {
    /// The shape of these depths, which keep the rule.
    pub fn of_depths(depths: &[u16]) -> DepthShape {
        let mut nodes: Vec<Node> = Vec::with_capacity(depths.len());
        let mut latest = vec![0u16; depths.len()];
        let mut before = 0;
        for (node, &depth) in depths.iter().enumerate() {
            let previous = (node > 0 && depth <= before).then(|| latest[depth as usize]);
            if let Some(left) = previous {
                nodes[left as usize].next = Some(node as u16);
            }
            nodes.push(Node {
                depth,
                next: None,
                previous,
            });
            latest[depth as usize] = node as u16;
            before = depth;
        }
        DepthShape { nodes }
    }

    fn is_first_child(&self, node: usize) -> bool {
        node > 0 && node < self.nodes.len() && self.nodes[node - 1].depth < self.nodes[node].depth
    }
}

impl Shape for DepthShape {
    fn node_count(&self) -> usize {
        self.nodes.len()
    }

    #[inline(always)]
    fn neighbour(&self, axis: Axis, node: usize) -> Option<usize> {
        match axis {
            Axis::First => Some(node + 1).filter(|&after| self.is_first_child(after)),
            Axis::Next => self.nodes[node].next.map(usize::from),
            Axis::Owner => self.is_first_child(node).then(|| node - 1),
            Axis::Previous => self.nodes[node].previous.map(usize::from),
        }
    }
}

/// A shape with each row of children from the other end.
pub struct Mirrored<S>(pub S);

impl<S: Shape> Mirrored<S> {
    fn end_along(&self, axis: Axis, node: usize) -> usize {
        let mut end = node;
        while let Some(further) = self.0.neighbour(axis, end) {
            end = further;
        }
        end
    }
}

impl<S: Shape> Shape for Mirrored<S> {
    fn node_count(&self) -> usize {
        self.0.node_count()
    }

    fn neighbour(&self, axis: Axis, node: usize) -> Option<usize> {
        let shape = &self.0;
        match axis {
            Axis::First => {
                let eldest = shape.neighbour(Axis::First, node)?;
                Some(self.end_along(Axis::Next, eldest))
            }
            Axis::Next => shape.neighbour(Axis::Previous, node),
            Axis::Owner => match shape.neighbour(Axis::Next, node) {
                None => shape.neighbour(Axis::Owner, self.end_along(Axis::Previous, node)),
                Some(_) => None,
            },
            Axis::Previous => shape.neighbour(Axis::Next, node),
        }
    }
}
