//! What two connections ask one after the other, and what they are answered.

use crate::peer::Step;

/// The first connection opens a file and writes to it beside `shift`.
pub const WRITES: [Step; 9] = [
    (0, &["load", "shift"], 0, 0, b""),
    (0, &["attach", "0", "0", "s", "100"], 0, 0, b""),
    (0, &["create", "0", "new", "x"], 0, 0, b""),
    (0, &["write", "0", "0", "6162ff"], 0, 3, b""),
    (0, &["flush", "0"], 0, 0, b""),
    (0, &["querysize", "0"], 0, 3, b""),
    (0, &["read", "0", "0", "100"], 0, 3, b"ab\xff"),
    (0, &["read", "0", "3", "1"], 31, 0, b""),
    (0, &["create", "0", "new", "x"], 20, 0, b""),
];

/// Both share the file by a handle each, and neither has the other's.
pub const SHARES: [Step; 10] = [
    (1, &["read", "0", "0", "1"], 14, 0, b""),
    (1, &["create", "0", "existing", "x"], 0, 1, b""),
    (1, &["read", "1", "1", "1"], 0, 1, b"b"),
    (0, &["read", "1", "0", "1"], 14, 0, b""),
    (0, &["close", "1"], 14, 0, b""),
    (1, &["setsize", "1", "2"], 0, 0, b""),
    (0, &["querysize", "0"], 0, 2, b""),
    (0, &["create", "0", "always", "y"], 0, 2, b""),
    (0, &["close", "2"], 0, 0, b""),
    (1, &["list", "0"], 0, 4, b"x\ny\n"),
];

/// The file goes with its last handle; the filter and the volume go, and the server ends.
pub const ENDS: [Step; 14] = [
    (0, &["read", "2", "0", "1"], 14, 0, b""),
    (1, &["setdelete", "1"], 0, 0, b""),
    (1, &["create", "0", "existing", "x"], 16, 0, b""),
    (1, &["close", "1"], 0, 0, b""),
    (1, &["read", "1", "0", "1"], 14, 0, b""),
    (0, &["read", "0", "0", "9"], 0, 2, b"ab"),
    (0, &["close", "0"], 0, 0, b""),
    (0, &["list", "0"], 0, 2, b"y\n"),
    (1, &["detach", "0"], 0, 0, b""),
    (1, &["detach", "0"], 8, 0, b""),
    (0, &["unload", "0"], 0, 0, b""),
    (1, &["dismount", "0"], 0, 0, b""),
    (0, &["list", "0"], 33, 0, b""),
    (0, &["stop"], 0, 0, b""),
];

/// Who is refused a create has no handle: not even the one that another has.
pub const REFUSED: [Step; 6] = [
    (1, &["create", "0", "existing", "x"], 19, 0, b""),
    (1, &["read", "0", "0", "1"], 14, 0, b""),
    (0, &["create", "0", "new", "x"], 0, 0, b""),
    (1, &["create", "0", "new", "x"], 20, 0, b""),
    (1, &["read", "0", "0", "1"], 14, 0, b""),
    (1, &["stop"], 0, 0, b""),
];

/// A dismount closes the handles that are open, without their files' callbacks: what was marked for deletion stays.
pub const CLOSES: [Step; 7] = [
    (0, &["create", "0", "new", "x"], 0, 0, b""),
    (0, &["write", "0", "0", "61"], 0, 1, b""),
    (0, &["setdelete", "0"], 0, 0, b""),
    (1, &["dismount", "0"], 0, 0, b""),
    (0, &["read", "0", "0", "1"], 33, 0, b""),
    (0, &["close", "0"], 33, 0, b""),
    (1, &["stop"], 0, 0, b""),
];

/// A filter that holds reads, and a file that is to go with its last handle.
pub const HOLDS: [Step; 5] = [
    (0, &["load", "hold"], 0, 0, b""),
    (0, &["attach", "0", "0", "h", "100"], 0, 0, b""),
    (0, &["create", "0", "new", "x"], 0, 0, b""),
    (0, &["write", "0", "0", "61"], 0, 1, b""),
    (0, &["setdelete", "0"], 0, 0, b""),
];

/// A filter that holds reads, and a file that its client keeps open.
pub const KEEPS: [Step; 4] = [
    (0, &["load", "hold"], 0, 0, b""),
    (0, &["attach", "0", "0", "h", "100"], 0, 0, b""),
    (0, &["create", "0", "new", "x"], 0, 0, b""),
    (0, &["list", "0"], 0, 2, b"x\n"),
];

/// What that client is refused while most operations are those of clients that are gone.
pub const FULL: [Step; 4] = [
    (0, &["create", "0", "new", "y"], 29, 0, b""),
    (0, &["list", "0"], 29, 0, b""),
    (0, &["read", "0", "0", "1"], 29, 0, b""),
    (0, &["querysize", "0"], 29, 0, b""),
];

/// A dismount that begins beside an operation whose client is gone: it can't end before the operation, but the volume is closed.
pub const BEGINS: [Step; 4] = [
    (0, &["dismount", "0"], 34, 1, b""),
    (0, &["list", "0"], 33, 0, b""),
    (0, &["create", "0", "new", "y"], 33, 0, b""),
    (0, &["stop"], 0, 0, b""),
];

/// A filter that counts the writes to a file in a context, and denies each deletion. The samples aren't there.
pub const OWN: [Step; 8] = [
    (0, &["load", "guard"], 6, 0, b""),
    (0, &["load", "audit"], 0, 0, b""),
    (0, &["attach", "0", "0", "a", "325000.5"], 0, 0, b""),
    (0, &["create", "0", "new", "x"], 0, 0, b""),
    (0, &["write", "0", "0", "61"], 0, 1, b""),
    (0, &["write", "0", "1", "62"], 0, 1, b""),
    (0, &["setdelete", "0"], 17, 0, b""),
    (0, &["stop"], 0, 0, b""),
];
