//! The lowest subtask on any cycle, by Tarjan's strong components.

use super::Graph;

struct Search<'a> {
    graph: &'a Graph,
    /// When each subtask was met, from 1 on: 0 before that, and the largest number once its component is closed.
    met: Vec<u16>,
    open: Vec<u16>,
    clock: u16,
    lowest: u16,
}

impl Search<'_> {
    /// Answers when the earliest open subtask was met that this one leads to.
    fn visit(&mut self, j: u16) -> u16 {
        self.clock += 1;
        let (mine, at) = (self.clock, self.open.len());
        self.met[j as usize] = mine;
        self.open.push(j);
        let mut back = mine;
        let graph = self.graph;
        for k in graph.after(j as usize) {
            back = back.min(match self.met[*k as usize] {
                0 => self.visit(*k),
                met => met,
            });
        }
        if back == mine {
            self.close(at);
        }
        back
    }

    /// What is open from here on is one component; with more than one subtask it is all on a cycle.
    fn close(&mut self, at: usize) {
        let several = self.open.len() - at > 1;
        for i in self.open.drain(at..) {
            self.met[i as usize] = u16::MAX;
            if several {
                self.lowest = self.lowest.min(i);
            }
        }
    }
}

/// Given how many predecessors each subtask still waits for after Kahn's order; there is a cycle among those that wait.
#[cold]
pub fn lowest(graph: &Graph, left: &[u16]) -> u32 {
    let mut search = Search { graph, met: vec![0; left.len()], open: Vec::new(), clock: 0, lowest: u16::MAX };
    for (j, waits) in left.iter().enumerate() {
        if *waits != 0 && search.met[j] == 0 {
            search.visit(j as u16);
        }
    }
    search.lowest as u32
}
