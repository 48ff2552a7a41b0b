//! Random structures and their descriptions.
//!
//! Sizes are worked out here only to choose structures near the limits. No
//! answer is compared with them.

use crate::rng::Rng;

/// The byte that opens a structure.
pub const OPEN: u8 = 0x10;

/// The byte that closes it.
pub const CLOSE: u8 = 0x11;

/// The byte that stands before a count and the member that is repeated.
pub const REPEAT: u8 = 0x12;

/// The members that are no structures.
pub const SCALARS: [u8; 8] = [0x01, 0x02, 0x03, 0x04, 0x05, 0x06, 0x07, 0x08];

/// How deep structures may stand in each other, the outermost counted.
pub const DEPTH_LIMIT: usize = 6;

/// A structure of one member or more.
#[derive(Clone, Debug, Default)]
pub struct Tree {
    pub members: Vec<Member>,
}

/// A member of a structure.
#[derive(Clone, Debug)]
pub struct Member {
    /// How many times it stands there, `None` where no repeat says so.
    pub repeats: Option<u8>,
    pub content: Content,
}

#[derive(Clone, Debug)]
pub enum Content {
    Scalar(u8),
    Structure(Tree),
}

impl Tree {
    pub fn description(&self) -> Vec<u8> {
        let mut description = Vec::new();
        self.describe(&mut description);
        description
    }

    fn describe(&self, description: &mut Vec<u8>) {
        description.push(OPEN);
        for member in &self.members {
            member.describe(description);
        }
        description.push(CLOSE);
    }

    /// How deep structures stand in each other, this one counted.
    pub fn depth(&self) -> usize {
        let inner = self.members.iter().map(|member| match &member.content {
            Content::Scalar(_) => 0,
            Content::Structure(tree) => tree.depth(),
        });
        1 + inner.max().unwrap_or(0)
    }

    /// Where the last member ends, and the alignment of the strictest.
    fn end_and_alignment(&self) -> (usize, usize) {
        self.members
            .iter()
            .fold((0, 1), |(end, strictest), member| {
                let (size, alignment) = member.size_and_alignment();
                let end = end.next_multiple_of(alignment) + size;
                (end, strictest.max(alignment))
            })
    }

    fn end(&self) -> usize {
        self.end_and_alignment().0
    }
}

impl Member {
    pub fn once(content: Content) -> Member {
        Member {
            repeats: None,
            content,
        }
    }

    fn describe(&self, description: &mut Vec<u8>) {
        if let Some(count) = self.repeats {
            description.extend([REPEAT, count]);
        }
        match &self.content {
            Content::Scalar(byte) => description.push(*byte),
            Content::Structure(tree) => tree.describe(description),
        }
    }

    fn size_and_alignment(&self) -> (usize, usize) {
        let (size, alignment) = match &self.content {
            Content::Scalar(byte) => (scalar_size(*byte), scalar_size(*byte)),
            Content::Structure(tree) => {
                let (end, alignment) = tree.end_and_alignment();
                (end.next_multiple_of(alignment), alignment)
            }
        };
        (size * usize::from(self.repeats.unwrap_or(1)), alignment)
    }
}

fn scalar_size(byte: u8) -> usize {
    match byte {
        0x01 | 0x02 => 1,
        0x03 | 0x04 => 2,
        0x05 | 0x07 => 4,
        _ => 8,
    }
}

/// How a random structure is made.
#[derive(Clone, Copy, Debug)]
pub enum Shape {
    /// A few members, now and then a structure among them.
    Usual,
    /// Structures within structures, about as deep as they may be.
    Deep,
    /// As large as a structure may be, or as one with a kind may be.
    Large,
    /// A member that is repeated about as often as it may be.
    Repeated,
}

impl Shape {
    pub const ALL: [Shape; 4] = [Shape::Usual, Shape::Deep, Shape::Large, Shape::Repeated];

    /// A structure of this shape. Of the larger ones some have no kind, and
    /// some go beyond a limit.
    pub fn tree(self, rng: &mut Rng) -> Tree {
        let scalars = rng.pick(&SETS_OF_SCALARS);
        let mut maker = Maker { rng, scalars };
        match self {
            Shape::Usual => maker.tree(DEPTH_LIMIT),
            Shape::Deep => {
                let depth = maker.rng.pick(&[2, 3, 4, 5, 6, 6, 6, 7]);
                maker.deep_tree(depth)
            }
            Shape::Large => {
                let end = maker.rng.pick(&ENDS);
                maker.large_tree(end)
            }
            Shape::Repeated => maker.repeated_tree(),
        }
    }
}

/// The scalars up to each width. With all of them, few structures would be
/// aligned to less than 8.
const SETS_OF_SCALARS: [&[u8]; 4] = [
    &[0x01, 0x02],
    &[0x01, 0x02, 0x03, 0x04],
    &[0x01, 0x02, 0x03, 0x04, 0x05, 0x07],
    &SCALARS,
];

/// Where the last member of a large structure ends: at the largest sizes that
/// kinds have, at the largest of all, and around them.
const ENDS: [usize; 22] = [
    61, 63, 64, 65, 66, 67, 68, 69, 72, 316, 317, 319, 320, 321, 324, 328, 504, 505, 508, 511, 512,
    513,
];

/// Makes random structures.
struct Maker<'a> {
    rng: &'a mut Rng,
    scalars: &'static [u8],
}

impl Maker<'_> {
    fn scalar(&mut self) -> Content {
        Content::Scalar(self.rng.pick(self.scalars))
    }

    /// A count for a member, if it is to be repeated: mostly a small one.
    fn count(&mut self) -> Option<u8> {
        match self.rng.below(20) {
            0..=13 => None,
            14..=18 => Some(self.rng.within(1..=4) as u8),
            _ => Some(self.rng.within(1..=20) as u8),
        }
    }

    /// A member that has structures in it to this depth at most.
    fn member(&mut self, depth: usize) -> Member {
        let content = if depth > 0 && self.rng.percent(30) {
            Content::Structure(self.tree(depth))
        } else {
            self.scalar()
        };
        Member {
            repeats: self.count(),
            content,
        }
    }

    /// A structure of this depth at most.
    fn tree(&mut self, depth: usize) -> Tree {
        let members = self.rng.within(1..=5);
        Tree {
            members: (0..members).map(|_| self.member(depth - 1)).collect(),
        }
    }

    /// A structure of just this depth.
    fn deep_tree(&mut self, depth: usize) -> Tree {
        let mut members: Vec<Member> = (0..self.rng.below(3))
            .map(|_| Member::once(self.scalar()))
            .collect();
        let content = if depth > 1 {
            Content::Structure(self.deep_tree(depth - 1))
        } else {
            self.scalar()
        };
        let repeats = self.count().map(|count| count.min(3));
        let place = self.rng.below(members.len() + 1);
        members.insert(place, Member { repeats, content });
        Tree { members }
    }

    /// A structure whose last member ends there: bytes, random members while
    /// they fit, and bytes again.
    fn large_tree(&mut self, end: usize) -> Tree {
        let depth = self.rng.within(0..=3);
        let mut tree = Tree {
            members: bytes(self.rng.below(40)).collect(),
        };
        for _ in 0..self.rng.within(0..=12) {
            tree.members.push(self.member(depth));
            if tree.end() > end {
                tree.members.pop();
            }
        }
        tree.members.extend(bytes(end - tree.end()));
        tree
    }

    /// A member that is repeated until it ends about where it may, perhaps
    /// between two others.
    fn repeated_tree(&mut self) -> Tree {
        let mut tree = Tree::default();
        if self.rng.percent(50) {
            tree.members.push(Member::once(self.scalar()));
        }
        let depth = self.rng.below(3);
        let mut member = self.member(depth);
        member.repeats = None;
        let (size, _) = member.size_and_alignment();
        let end = self.rng.pick(&[64, 320, 512]);
        let fitting = (end - tree.end()) / size;
        let count = (fitting + 1).saturating_sub(self.rng.below(3));
        member.repeats = Some(count.clamp(1, 255) as u8);
        tree.members.push(member);
        if self.rng.percent(30) {
            tree.members.push(Member::once(self.scalar()));
        }
        tree
    }
}

/// Members that are single bytes, so many of them.
fn bytes(count: usize) -> impl Iterator<Item = Member> {
    let most = usize::from(u8::MAX);
    (0..count)
        .step_by(most)
        .map(move |from| (count - from).min(most) as u8)
        .map(|count| Member {
            repeats: Some(count),
            content: Content::Scalar(0x01),
        })
}
