//! The same work over std's `HashMap`: a chain of nodes is made, and made once more.

use std::collections::HashMap;

#[allow(dead_code)]
#[derive(Clone, Copy, PartialEq, Eq, Hash)]
enum Op {
    Truth(bool),
    Whole(i128),
    Bits { width: u32, bits: u128 },
    Equal,
}

#[derive(Clone, Copy, PartialEq, Eq)]
struct Sort(u64);

const BOOL: Sort = Sort(0);

/// Up to four operands are kept in place, as the table keeps them.
#[derive(Clone, PartialEq, Eq, Hash)]
enum Kids {
    Few([u64; 4], u8),
    Many(Vec<u64>),
}

impl Kids {
    fn of(kids: &[u64]) -> Kids {
        if kids.len() > 4 {
            return Kids::Many(kids.to_vec());
        }
        let mut places = [0; 4];
        places[..kids.len()].copy_from_slice(kids);
        Kids::Few(places, kids.len() as u8)
    }
}

#[derive(Clone, PartialEq, Eq, Hash)]
struct Node {
    op: Op,
    kids: Kids,
}

#[derive(Default)]
struct Table {
    numbers: HashMap<Node, u64>,
    nodes: Vec<(Node, Sort)>,
}

impl Table {
    fn rank(&self, op: Op, kids: &[u64]) -> Option<Sort> {
        match op {
            Op::Equal if kids.len() == 2 => {
                let sort = self.nodes[kids[0] as usize].1;
                (self.nodes[kids[1] as usize].1 == sort).then_some(BOOL)
            }
            Op::Truth(_) if kids.is_empty() => Some(BOOL),
            _ => None,
        }
    }

    fn intern(&mut self, op: Op, kids: &[u64]) -> Option<u64> {
        let node = Node {
            op,
            kids: Kids::of(kids),
        };
        if let Some(number) = self.numbers.get(&node) {
            return Some(*number);
        }
        let sort = self.rank(op, kids)?;
        let number = self.nodes.len() as u64;
        self.nodes.push((node.clone(), sort));
        self.numbers.insert(node, number);
        Some(number)
    }
}

fn chain(table: &mut Table) -> Option<()> {
    let mut node = table.intern(Op::Truth(true), &[])?;
    for _ in 0..500_000 {
        table.rank(Op::Equal, &[node, node])?;
        node = table.intern(Op::Equal, &[node, node])?;
    }
    Some(())
}

fn main() {
    let mut table = Table::default();
    chain(&mut table).and(chain(&mut table)).expect("every equation has a rank");
    println!("{}", table.nodes.len());
}
