//! Strongly connected components: atoms that depend on each other.

use super::links::Link;

/// The component of each atom. Components are numbered so that no link leads to one with a higher number.
pub fn components(atoms: usize, links: &[Link]) -> Vec<usize> {
    let (mut down, mut up) = (vec![Vec::new(); atoms], vec![Vec::new(); atoms]);
    for link in links {
        down[link.from].push(link.to);
        up[link.to].push(link.from);
    }
    let mut met = vec![false; atoms];
    let mut order = Vec::new();
    for atom in 0..atoms {
        order.extend(walk(&up, atom, &mut met));
    }
    // Last left, first entered: along the links from there lies its component, but for what is numbered already.
    let mut entered = vec![false; atoms];
    let mut component = vec![0; atoms];
    let mut number = 0;
    for atom in order.into_iter().rev() {
        let members = walk(&down, atom, &mut entered);
        members.iter().for_each(|member| component[*member] = number);
        number += usize::from(!members.is_empty());
    }
    component
}

/// The atoms reached from one and not met before, in the order in which a walk in depth leaves them for good.
fn walk(next: &[Vec<usize>], from: usize, met: &mut [bool]) -> Vec<usize> {
    let mut order = Vec::new();
    if met[from] {
        return order;
    }
    met[from] = true;
    let mut path = vec![(from, 0)];
    while let Some((atom, tried)) = path.last_mut() {
        match next[*atom].get(*tried) {
            None => {
                order.push(*atom);
                path.pop();
            }
            Some(other) => {
                *tried += 1;
                if !std::mem::replace(&mut met[*other], true) {
                    path.push((*other, 0));
                }
            }
        }
    }
    order
}
