//! Samples of sections that state rules.
use check::finding::told;
use check::markdown::blocks;
use check::sentences::{check, sentences};

const DOCUMENT: &str = "docs/SAMPLE.md";

const GOOD: &str = "\
# Sample

Nothing here is a rule.

## Rules
<!-- rules -->

The bench starts [`fresh`]. It takes two steps, e.g. One of these (Two. Three.) by [`step`]: [`next`] is the last. Is
that all of [`it`]? It is [`so`]!

### Below

1. First [`one`].
2. Then `a. B` by [`two`],
   on two lines

| Word | Rule |
|---|---|
| done. Really. | [`done`] |

```
No name here. None at all.
```

## After

No rule either.
";

fn said(old: &str, new: &str) -> String {
    assert!(GOOD.contains(old), "{old}");
    told(&check(DOCUMENT, &GOOD.replacen(old, new, 1)))
}

#[test]
fn the_good_text_passes() {
    assert_eq!(told(&check(DOCUMENT, GOOD)), "");
}

#[test]
fn a_sentence_without_a_name_is_found() {
    let paragraph = said("starts [`fresh`].", "starts fresh.");
    assert_eq!(
        paragraph,
        "\ndocs/SAMPLE.md:8: this sentence names no definition: The bench starts fresh."
    );
    assert!(said("of [`it`]?", "of it?").contains(":8: this sentence names no definition: Is that all of it?"));
    assert!(said("is [`so`]!", "is so!").contains(":9: this sentence names no definition: It is so!"));
    assert!(said("[`one`]", "one").contains(":13: this sentence names no definition: First one."));
    assert!(said("[`two`]", "two").contains(":14: this sentence names no definition: Then `a. B` by two, on two lines"));
    assert!(said("[`done`]", "done").contains(":19: this sentence names no definition: | done. Really. | done |"));
}

#[test]
fn a_bare_code_span_is_no_name() {
    assert!(said("starts [`fresh`].", "starts `fresh`.").contains(":8: this sentence names no definition"));
}

#[test]
fn a_document_without_rules_is_found() {
    let expected = "\ndocs/SAMPLE.md:1: no section is marked by <!-- rules -->";
    assert_eq!(said("<!-- rules -->\n", ""), expected);
    let empty = "## Rules\n<!-- rules -->\n\n## After\n\nNo rule.\n";
    assert_eq!(told(&check(DOCUMENT, empty)), expected);
}

#[test]
fn a_mark_that_marks_nothing_is_found() {
    let apart = said("## Rules\n", "## Rules\n\n");
    assert!(apart.contains(":7: <!-- rules --> stands below no heading"), "{apart}");
    let another = said("No rule either.", "No rule either.\n<!-- rules -->");
    assert_eq!(another, "\ndocs/SAMPLE.md:28: <!-- rules --> stands below no heading");
}

#[test]
fn a_section_ends_with_the_next_of_its_level() {
    assert_eq!(said("### Below", "## Below"), "");
    assert_eq!(
        said("First [`one`]", "First"),
        "\ndocs/SAMPLE.md:13: this sentence names no definition: First."
    );
    let text = GOOD.replace("### Below", "## Below").replace("First [`one`]", "First");
    assert_eq!(told(&check(DOCUMENT, &text)), "");
}

fn split(text: &str) -> Vec<String> {
    let blocks = blocks(text);
    let all = blocks.iter().flat_map(|block| {
        let places = sentences(block).into_iter();
        places.map(|place| block.text[place].to_string())
    });
    all.collect()
}

#[test]
fn sentences_end_where_one_can_start() {
    assert_eq!(split("One. two. Three"), ["One. two.", "Three"]);
    assert_eq!(
        split("One: 2 is. `Three`! [Four]? *Five*."),
        ["One:", "2 is.", "`Three`!", "[Four]?", "*Five*."]
    );
    assert_eq!(split("View 4.5 and a.B"), ["View 4.5 and a.B"]);
}

#[test]
fn sentences_do_not_end_in_brackets_in_code_or_after_a_short_form() {
    assert_eq!(
        split("One (two. Three [four. Five]. Six) seven. Eight"),
        ["One (two. Three [four. Five]. Six) seven.", "Eight"]
    );
    assert_eq!(split("One `two. Three` four"), ["One `two. Three` four"]);
    assert_eq!(split("One, e.g. Two, i.e. Three"), ["One, e.g. Two, i.e. Three"]);
}

#[test]
fn items_and_rows_are_told_apart() {
    assert_eq!(split("- One\n- Two.\n  Three\n- Four"), ["One", "Two.", "Three", "Four"]);
    assert_eq!(split("| A | B |\n|---|---|\n| One. Two | Three |"), ["| One. Two | Three |"]);
    assert_eq!(split("It is at beat\n4. That is all"), ["It is at beat\n4.", "That is all"]);
}

#[test]
fn a_picture_alone_is_no_sentence() {
    let shown = |picture: &str| said("### Below", &format!("{picture}\n\n### Below"));
    assert_eq!(shown("![Two rows. Three\ncolumns](a/picture.svg)"), "");
    assert!(shown("![Two rows](picture.svg) It says all.").contains(":11: this sentence names no definition"));
    assert!(shown("![Two rows](picture.svg) and (more)").contains(":11: this sentence names no definition"));
}
