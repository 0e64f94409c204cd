// References are passed through, and written out where a pattern has `&`.
enum Tree {
    Leaf,
    Node(Box<Tree>, i8),
}

fn height(tree: &Tree) -> u8 {
    match tree {
        Tree::Leaf => 0,
        Tree::Node(_, 0) => 1,
        Tree::Node(left, _) => 2,
    }
}

fn flag(x: &&bool) -> bool {
    match x {
        true => true,
        &&false => false,
    }
}

fn set(slot: &mut Option<bool>) -> u8 {
    match slot {
        None => 0,
        Some(flag) if *flag => 1,
    }
}

fn behind(x: &Option<&u8>) -> u8 {
    match *x {
        Some(&0) => 0,
        None => 1,
    }
}
