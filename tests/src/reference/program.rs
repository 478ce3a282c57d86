//! An accepted image read once, since a run meets its nodes many times.

use super::reader::*;

pub struct Program {
    pub nodes: Vec<Node>,
    pub variables: Vec<Variable>,
    pub constants: Vec<u64>,
    /// A block's statements or a call's arguments, by the number of the block or call.
    pub chains: Vec<Vec<usize>>,
    pub procedures: Vec<Procedure>,
    pub is_parameter: Vec<bool>,
}

impl Program {
    pub fn new(image: &Image) -> Program {
        let nodes: Vec<Node> = (0..image.nodes).map(|n| image.node(n)).collect();
        let chains = nodes.iter().map(|node| image.chain(first_of_chain(node)).collect()).collect();
        Program {
            nodes,
            variables: (0..image.variables).map(|v| image.variable(v)).collect(),
            constants: (0..image.constants).map(|k| image.constant(k)).collect(),
            chains,
            procedures: (0..image.procedures).map(|p| image.procedure(p)).collect(),
            is_parameter: image.parameters(),
        }
    }

    pub fn last_procedure(&self) -> &Procedure {
        &self.procedures[self.procedures.len() - 1]
    }
}

fn first_of_chain(node: &Node) -> usize {
    match node.kind {
        BLOCK => node.c(),
        CALL | UNCALL => node.b(),
        _ => MISSING,
    }
}
