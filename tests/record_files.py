"""The repository of tests/record_rows.py, in which app stands on low, and low on base."""

FILES = {
    "crates.txt": "base:\nlow: base smallvec\napp: low\nbeside: low\n",
    "crates/base/src/lib.rt": "pub struct Origin {\n    origin: usize,\n}\n",
    "crates/base/specs/Deep.antt": "use Rattle.base.specs.Deeper.{deeper}\n\npub deep : ℕ\ndeep = 1\n",
    "crates/base/specs/Deeper.antt": "use Rattle.base.specs.Deepest.{deepest}\n\npub deeper : ℕ\ndeeper = 1\n",
    "crates/base/specs/Deepest.antt": "use Rattle.base.specs.Bottom.{bottom}\n\npub deepest : ℕ\ndeepest = 1\n",
    "crates/base/specs/Bottom.antt": "pub bottom : ℕ\nbottom = 1\n",
    "crates/base/specs/Passed.antt": "pub passed : ℕ\npassed = 1\n",
    "crates/base/specs/Other.antt": "pub other : ℕ\nother = 1\n",
    "crates/low/src/lib.rt": """//! Below.
mod inner;
#[cfg(not(test))]
pub mod shown;

ghost use Rattle.low.specs.Hides.{hides_all};
ghost use Rattle.low.specs.Shows.{shows_all};
use crate::helper::help;
pub use crate::helper::{Helped, Helper};
use crate::limits::{BROUGHT, RENAMED as OTHER};
pub use crate::limits::SHARED;
pub use crate::given as passed;
pub use inner::Outer;
pub(crate) use inner::Inner;

pub const MOST: usize = 8;

const INNER: usize = 4;

pub struct Seen<'a> {
    within: Within,
    boxed: &'a Boxed<u8>,
    origin: Origin,
}

impl<'a> Seen<'a> {
    pub fn len(&self) -> usize
        ensures len { result ≡ 3 }
    {
        3
    }
}

struct Boxed<T> {
    boxed: T,
}

pub(crate) struct Within {
    size: usize,
}

#[derive(Clone)]
struct Unseen {
    unseen: usize,
}

impl<T: Kind> Ord for Unseen {
    fn cmp(&self, other: &Unseen) -> Ordering
        ensures unseen { result ≡ Less }
    {
        Less
    }
}

made!(u8, u16);

impl<T: Kind> PartialOrd for Aside<T> {
    fn partial_cmp(&self, other: &Aside<T>) -> Ordering
        ensures aside { result ≡ Less }
    {
        Less
    }
}

struct Aside<T> {
    aside: T,
}

struct Told {
    told: usize,
}

struct Far {
    far: usize,
}

struct Shows {
    shows: usize,
}

pub trait Kind {
    fn kind(&self) -> usize
        requires few { 4 < 5 }
        ensures some { result < 9 };

    fn twice(&self) -> usize
        ensures even { result ≡ 2 }
    {
        self.kind() + self.kind()
    }
}

impl Kind for u8 {
    ghost use Rattle.low.specs.Shows.{shows_all};
    fn kind(&self) -> usize {
        1
    }
}

/// Shared.
#[inline]
pub fn common(n: usize) -> usize
    requires small { n < 8 }

    // As its name says.
    ensures same { result ≡ n }
    ensures shows { shows_all n }
{
    help(n)
}

pub fn uncalled(n: usize) -> usize
    ensures uncalled { result ≡ n }
{
    n
}

pub(crate) fn hidden(n: usize) -> usize
    ensures hides { result ≡ n }
    ensures hides_all { hides_all n }
{
    n
}
""",
    "crates/low/src/inner.rt": """pub struct Outer {
    outer: usize,
}

pub struct Inner {
    inner: usize,
}

pub struct Held {
    low: usize,
}
""",
    "crates/low/src/shown.rt": "pub struct Open {\n    open: usize,\n}\n",
    "crates/low/src/given.rt": "pub struct Given {\n    given: usize,\n}\n",
    "crates/low/src/alone.rt": "pub fn alone() {\n}\n",
    "crates/low/src/limits.rt": """pub(crate) const BROUGHT: usize = 5;

pub(crate) const RENAMED: usize = 6;

pub(crate) const SHARED: usize = 7;
""",
    "crates/low/specs/Lib.antt": "pub use Rattle.base.specs.Passed\npub mod Low\npub mod Far\n",
    "crates/low/specs/Low.antt": """use Rattle.low.specs.declared.Told.{Told}
use Rattle.low.specs.Far.{far}

pub low : ℕ → ℕ
low n = n
""",
    "crates/low/specs/Low/Part.antt": "pub part : ℕ\npart = 1\n",
    "crates/low/specs/Far.antt": "use Rattle.base.specs.Deep.{deep}\n\npub far : ℕ\nfar = deep\n",
    "crates/low/specs/Aside.antt": "use Rattle.low.specs.declared.Aside.{Aside}\n\npub aside : ℕ\naside = 1\n",
    "crates/low/specs/Hides.antt": "pub hides_all : ℕ → Type 0\nhides_all n = ⊤\n",
    "crates/low/specs/Shows.antt": "pub shows_all : ℕ → Type 0\nshows_all n = ⊤\n",
    "crates/low/specs/Stated.antt": "pub one : ℕ\none = 1\n",
    "crates/low/specs/Proved.antt": "pub two : ℕ\ntwo = 2\n",
    "crates/low/proofs/Cited.antt": """use Rattle.low.specs.Stated.{one}
use Rattle.low.specs.Proved.{two}
use Rattle.low.proofs.Deeper.{deeper, deepest}

pub cited : deeper one ≡ 1
cited = deepest two
""",
    "crates/low/proofs/Deeper.antt": """pub abbrev deeper : ℕ → ℕ
deeper n = n

pub deepest : 1 ≡ 1
deepest = refl
""",
    "crates/low/proofs/Uncited.antt": "pub uncited : 2 ≡ 2\nuncited = refl\n",
    "crates/low/proofs/common/Answers.antt": "use Rattle.low.proofs.common.Goals as goal\n",
    "crates/app/src/lib.rt": """mod one;
mod two;

pub struct Held {
    held: usize,
}

struct Aside;

const LEAST: usize = least(1);

const fn least(n: usize) -> usize {
    n + 0
}
""",
    "crates/app/src/one.rt": """//! One, which is uncalled.
ghost use Rattle.low.specs.Low.{low, high};
use crate::two::second;

pub fn first(n: usize) -> usize
    ensures is_first { result ≡ low n }
{
    second(n)
}
""",
    "crates/app/src/two.rt": """//! Two.
use low::common;
use low::Kind;
use low::{Helper, MOST, Outer, Seen, SHARED};
use low::passed::Given;
use low::shown::Open;

#[tactic(auto)]
pub fn second(n: usize) -> usize
    ensures is_second { result ≡ n }
{
    common(n)
}

fn third<K: Kind>(n: K) -> usize {
    4
}
""",
    "crates/app/specs/App.antt": "pub app : ℕ\napp = 1\n",
    "crates/app/proofs/Own.antt": "use Rattle.low.proofs.Cited.{cited}\n\npub own : 1 ≡ 1\nown = cited\n",
    "crates/app/proofs/one/first/Answers.antt": "returns : 1\n",
    "crates/app/proofs/two/+second/Invariants.antt": "loop : 2\n",
    "crates/app/mutants/lib.edits": """source: src/one.rt

mutant: first_is_wrong
It adds one.
function: app::one::first
old: second(n)
new: second(n) + 1
""",
    "crates/app/mutants/two.edits": """mutant: second_is_wrong
It is none.
function: app::two::second
old: common(n)
new: common(0)
add: src/three.rt
line: //! Three.
""",
}
