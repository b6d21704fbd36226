// The key of a page: what its marks and words mean. It names the marks that are on the page and no
// others: those that the program draws are looked for in the markup, those that the script adds
// begin hidden, and the script shows them.

use std::fmt::Write;

/// The markup by which a mark is seen to be there, and its words. Messages are spoken of on
/// every page.
const DRAWN: [(&str, &str); 7] = [
    (
        "<span class=l>",
        "<span class=l>Grey bytes</span> are lifted: the node does not store them.",
    ),
    (
        "<ol class=children>",
        "A <b>pivot</b> is the string in front of a child, which owns the paths from it up to the \
         next pivot.",
    ),
    (
        "<span class=f>",
        "A <span class=f>dotted</span> part of a pivot is what the child below it lifts: it is \
         stored there and nowhere further down.",
    ),
    (
        "",
        "A <b>message</b> is a put, a drop or a clear that waits in a node above the leaf: it is \
         newer than all below it.",
    ),
    (
        "<span class=x>",
        "A <span class=x>FF</span> in a box is a byte that no path may hold.",
    ),
    (
        " fresh",
        "An entry whose <span class=number>number</span> stands on orange is not in the other \
         image's node.",
    ),
    (
        " faulty",
        "An entry in a <span class=broken>red frame</span> breaks a rule.",
    ),
];

/// The selector of what the script marks, and its words.
const ASKED: [(&str, &str); 6] = [
    (
        ".branch.lit",
        "A node in a <span class=way>blue frame</span> is on the way of the lookup.",
    ),
    (
        ".branch.lit.past",
        "Where the frame is <span class=past>dashed</span> the lookup has ended above.",
    ),
    (
        ".asking .branch:not(.lit):not(.holds)",
        "A <span class=pale>pale</span> node is not on the way.",
    ),
    (
        ".e.owner",
        "An entry in a <span class=way>blue frame</span> leads on.",
    ),
    (
        ".e.overruled",
        "A <s>struck</s> entry speaks of the path, but a newer one decides.",
    ),
    (
        ".e.under",
        "An entry with a <span class=bar-left>gold bar</span> is a record below the path in the \
         field.",
    ),
];

/// The key of a page on which this is drawn; `followed` where the page follows a record.
pub fn key(drawn: &str, followed: bool) -> String {
    let mut out = String::from("<ul class=key>");
    for (_, words) in DRAWN.iter().filter(|(mark, _)| drawn.contains(mark)) {
        let _ = write!(out, "<li>{words}</li> ");
    }
    let record = match followed {
        true => "the record that is followed",
        false => "the record itself",
    };
    let decides = format!(
        "The entry in a <span class=gold>dark gold frame</span> decides the path in the field: it \
         is {record}, or the newest message on it."
    );
    for (mark, words) in ASKED.iter().chain(&[(".e.decides", &decides[..])]) {
        let _ = write!(out, "<li data-mark=\"{mark}\" hidden>{words}</li> ");
    }
    out + "</ul>"
}
