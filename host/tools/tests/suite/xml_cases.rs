//! The reader of XML takes what is well-formed and nothing else.

use crate::xml::read;

#[test]
fn a_document_and_its_parts() {
    let document = "<?xml version=\"1.0\"?>\n<a b=\"1\" c-d=\"x &amp; &quot;y&quot;\">\n\
                    <g class=\"top\"><e/>t &lt; u</g></a>\n";
    let nodes = read(document).unwrap();
    let tags: Vec<&str> = nodes.iter().map(|node| node.tag.as_str()).collect();
    assert_eq!(tags, ["a", "g", "e"]);
    assert_eq!(nodes[0].get("c-d"), Some("x & \"y\""));
    assert_eq!(nodes[0].number("b"), 1.0);
    assert_eq!(nodes[1].text, "t < u");
    assert_eq!(nodes[2].inside, ["a", "top"]);
}

#[test]
fn what_is_not_well_formed() {
    for document in [
        "",
        "text",
        "<a>",
        "<a></b>",
        "<a><b></a></b>",
        "</a>",
        "<a/><b/>",
        "<a/>text",
        "<a b=1/>",
        "<a b/>",
        "<a b=\"1/>",
        "<a b=\"1\" b=\"2\"/>",
        "<a b=\"1\"c=\"2\"/>",
        "<a b=\"x & y\"/>",
        "<a>x & y</a>",
        "<a>&nbsp;</a>",
        "<a>x < y</a>",
        "<a b=\"<\"/>",
        "<a>\u{1}</a>",
        "<a",
    ] {
        assert!(read(document).is_err(), "{document}");
    }
}
