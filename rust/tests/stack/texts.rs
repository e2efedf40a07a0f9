//! Texts that nest as deep as 200 nodes allow: each construct within itself, in each of its places.

pub struct Deep {
    pub name: &'static str,
    pub text: String,
}

/// A construct around another expression: what stands before that and behind it, and how many nodes it has without it.
const CONSTRUCTS: [(&str, &str, &str, usize); 17] = [
    ("sums", "1 + ", "", 1),
    ("left of pairs", "(", ", a)", 2),
    ("right of pairs", "(a, ", ")", 2),
    ("first members", "[", "]", 2),
    ("last members", "[a, ", "]", 4),
    ("rests", "[a | ", "]", 2),
    ("subjects of splits", "let (_, _) = ", " in a", 2),
    ("splits", "let (_, _) = a in ", "", 2),
    ("subjects of truth cases", "case ", " of false -> a true -> a end", 3),
    ("first branches of truth cases", "case a of false -> ", " with one true -> a end", 3),
    ("second branches of truth cases", "case a of false -> a true -> ", " with one end", 3),
    ("subjects of list cases", "case ", " of [] -> a [_ | _] -> a default _ = 0, _ = 0 end", 5),
    ("empty branches", "case a of [] -> ", " [_ | _] -> a default _ = 0, _ = 0 end", 5),
    ("branches with members", "case a of [] -> a [_ | _] -> ", " with many default _ = 0, _ = 0 end", 5),
    ("default first members", "case 0 of [] -> 0 [_ | _] -> 0 default _ = ", ", _ = 0 end", 5),
    ("default rests", "case 0 of [] -> 0 [_ | _] -> 0 default _ = 0, _ = ", " end", 5),
    ("eaches", "each f(", ", a) default 0", 2),
];

/// Nodes of a text beside the construct: what stands inside, and the section.
const BESIDE: usize = 2;
const MOST_NODES: usize = 200;

pub fn deepest() -> Vec<Deep> {
    let text = |(name, before, behind, nodes): (&'static str, &str, &str, usize)| {
        let times = (MOST_NODES - BESIDE) / nodes;
        let list = format!("{}0{}", before.repeat(times), behind.repeat(times));
        Deep { name, text: format!("plan a list = {list} section f(_, _) = 0") }
    };
    CONSTRUCTS.into_iter().map(text).collect()
}
