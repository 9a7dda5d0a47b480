//! The printed rule sheet, docs/RULE-SHEET.txt: its form, its examples, and that the reader written
//! from it alone reads archives of both editions exactly as the model and the library.

use balduqen_tests::cases::{archive_of_note_between, case_e, film_of_e, note_between, MARKS_OF_E};
use balduqen_tests::check::{file_all, show};
use balduqen_tests::entries::{Entries, LIBRARY, MODEL};
use balduqen_tests::exhaustive::{best_of_plans, for_each_plan, score_of_plan};
use balduqen_tests::film::*;
use balduqen_tests::gen::*;
use balduqen_tests::kept::{by_hand, kept, kept_filed};
use balduqen_tests::model::{
    self, judge, plan_best, read, read_as_before, scratch_length, word, Answer, Edition, Tree,
    EDITIONS, FIRST, SECOND,
};
use balduqen_tests::tests_of_editions;
use balduqen_tools::rule_sheet::{
    self, list_nodes, rebuild, tell_edition, Failed, Page, Place, Rebuilt,
};
use std::collections::BTreeSet;

const SHEET: &str = include_str!("../../docs/RULE-SHEET.txt");
const LINES: usize = 60;
const COLUMNS: usize = 80;

/// Calls its argument with one archive after another: film of this edition, changed or not.
type Archives = fn(Edition, &mut dyn FnMut(&[u8]));

#[test]
fn form_of_the_sheets() {
    assert!(SHEET.ends_with('\n'));
    let lines: Vec<&str> = SHEET.split_terminator('\n').collect();
    for line in &lines {
        assert!(line.len() <= COLUMNS, "{line}");
        assert!(line.bytes().all(|byte| (32..127).contains(&byte)), "{line}");
    }
    assert_eq!(lines.len() % LINES, 0);
    let sheets = lines.len() / LINES;
    for (number, sheet) in (1..).zip(lines.chunks(LINES)) {
        let last = sheet[LINES - 1];
        assert!(
            last.ends_with(&format!(" Sheet {number} of {sheets}")),
            "{last}"
        );
    }
}

/// The text of a section, from its heading to the next one.
fn section(number: usize) -> &'static str {
    let heading = |number: usize| SHEET.find(&format!("\n{number}. "));
    let begin = heading(number).expect("a section") + 1;
    &SHEET[begin..heading(number + 1).unwrap_or(SHEET.len())]
}

/// The text of a section in one line, for sentences that go over the end of one.
fn running(number: usize) -> String {
    let words: Vec<&str> = section(number).split_whitespace().collect();
    words.join(" ")
}

/// A number as the sheet prints it.
fn printed(number: usize) -> String {
    match number {
        0..=999 => number.to_string(),
        _ => format!("{},{:03}", number / 1000, number % 1000),
    }
}

/// The sections stand in the order of their numbers, each section that is named is there, and a
/// step of an example, as 'The tree (section 7).', names the section with that heading.
#[test]
fn numbers_of_the_sections() {
    let number_of = |heading: &str| heading.split_once(". ")?.0.parse().ok();
    let numbers: Vec<usize> = SHEET.lines().filter_map(number_of).collect();
    assert_eq!(numbers, (1..=numbers.len()).collect::<Vec<usize>>());
    assert!(SHEET.contains(&format!("12 to {} are examples", numbers.len())));

    let words: Vec<&str> = SHEET.split_whitespace().collect();
    let heading = |number: &str| {
        let number = number.trim_matches([',', '.', ':', ')']).parse();
        let number: usize = number.expect("a section's number");
        let heading = section(number).lines().next().expect("a heading");
        (number, heading)
    };
    let mut steps = BTreeSet::new();
    for six in words.windows(6) {
        match six[2] {
            "section" | "(section" | "Section" => {
                let (number, heading) = heading(six[3]);
                if six[0] == "The" {
                    assert!(heading.contains(&six[1].to_uppercase()), "{heading}");
                    steps.insert(number);
                }
            }
            "sections" | "Sections" => assert!(heading(six[3]).0 < heading(six[5]).0, "{six:?}"),
            _ => {}
        }
    }
    assert_eq!(steps, (5..=10).collect());
}

/// What a line of section 4 says of the first edition and of edition 2.
fn side_by_side(name: &str) -> [&'static str; 2] {
    let front = format!("  {name:<26}");
    let mut lines = section(4).lines();
    let line = lines.find_map(|line| line.strip_prefix(&front));
    let (first, second) = line.expect("a line of this name").split_at(26);
    [first.trim(), second.trim()]
}

/// What a formula of the sheet, as '6 + 8 x P + 8 x (n - 1)', comes to.
fn value_of(formula: &str, named: &[(&str, usize)]) -> usize {
    let value = |text: &str| {
        let number = named.iter().find(|other| other.0 == text);
        number.map_or_else(|| text.parse().expect("a number"), |other| other.1)
    };
    let factor = |text: &str| match text.strip_suffix(" - 1)") {
        Some(text) => value(text.trim_start_matches('(')) - 1,
        None => value(text),
    };
    let product = |text: &str| text.split(" x ").map(factor).product::<usize>();
    formula.split(" + ").map(product).sum()
}

/// Section 4 says of each edition what the model has, and section 6 says it again in its checks.
#[test]
fn editions_side_by_side() {
    assert_eq!(side_by_side(""), ["First edition", "Edition 2"]);
    for (index, edition) in EDITIONS.iter().enumerate() {
        let told = |name: &str| side_by_side(name)[index];
        let number = |name: &str| -> usize { told(name).parse().expect("a number") };
        assert_eq!(number("Words of the head"), edition.page_at(1));
        assert_eq!(number("Words of a page record"), edition.page_words);
        let node_words = edition.node_at(1, 2) - edition.node_at(1, 1);
        assert_eq!(number("Words of a node record"), node_words);
        let most = printed(edition.most_nodes);
        assert_eq!(told("Number of nodes, N"), format!("1 to {most}"));
        let least = usize::from(edition.is_filed);
        assert_eq!(told("Label of a node"), format!("{least} to 65,535"));
        for (pages, nodes) in [(1, 1), (1, 1024), (2, 7), (1024, 1024), (9, 2048)] {
            let named = [("P", pages), ("N", nodes), ("p", pages), ("n", nodes)];
            let byte = |name: &str| value_of(told(name), &named);
            assert_eq!(byte("Length in bytes"), edition.length(pages, nodes));
            assert_eq!(byte("Record of page p, byte"), 2 * edition.page_at(pages));
            let place = edition.node_at(pages, nodes);
            assert_eq!(byte("Record of node n, byte"), 2 * place);
        }
    }
    let assert_checked = |what: &str, [first, second]: [String; 2]| {
        let said =
            format!("{what} {first} in the first edition, and {what} {second} in edition 2.");
        assert!(running(6).contains(&said), "{said}");
    };
    let heads = EDITIONS.map(|edition| format!("{} bytes", 2 * edition.page_at(1)));
    assert_checked("at least", heads);
    let most = EDITIONS.map(|edition| printed(edition.most_nodes));
    assert_checked("at most", most);
    let lengths = side_by_side("Length in bytes").map(|length| format!("{length} bytes"));
    assert_checked("exactly", lengths);
    let said = "In edition 2 it is 8,194, which is 20 02 in base 16. In the first edition it is N";
    assert!(running(4).contains(said));
    assert_eq!(bytes_of(SECOND.opening), [0x20, 0x02]);
    assert_eq!(SECOND.opening, [8194]);
}

/// Section 5 tells the edition by the first word alone, and takes all that has no such word for the
/// first edition.
#[test]
fn the_edition_is_told_by_the_first_word() {
    use rule_sheet::Edition;
    for said in [
        "look at the first word. If it is 8,194, the archive is of edition 2.",
        "If the first word is 0, or if it is over 1,024 and not 8,194, check 1 or 2 will fail.",
    ] {
        assert!(running(5).contains(said), "{said}");
    }
    let [short, long] = [1, 2].map(|check| Err(failed_at(check, 0)));
    for first in 0..=65535 {
        let film = bytes_of(&[first, 9, 1]);
        let edition = match first {
            8194 => Edition::Two,
            _ => Edition::First,
        };
        assert_eq!(tell_edition(&film), edition);
        assert_eq!(tell_edition(&film[..2]), edition);
        if first == 0 || first > 1024 && first != 8194 {
            assert_eq!(rebuild(&film), long);
            assert_eq!(rebuild(&film[..5]), short);
        }
    }
    for film in [&[][..], &[0x20]] {
        assert_eq!(tell_edition(film), Edition::First);
        assert_eq!(rebuild(film), short);
    }
    for edition in EDITIONS {
        for archive in small_archives(edition) {
            let told = rebuild(&archive).expect("a sound archive");
            assert_eq!(told.edition, tell_edition(&archive));
            assert_eq!(told.edition.number(), edition.number);
        }
    }
}

/// The byte that two digits in base 16 print; none for anything else.
fn byte_printed(text: &str) -> Option<u8> {
    let is_two_digits = text.len() == 2 && text.bytes().all(|byte| byte.is_ascii_hexdigit());
    is_two_digits.then(|| u8::from_str_radix(text, 16).expect("two digits in base 16"))
}

/// The bytes on the lines of a place and some bytes.
fn bytes_printed(text: &str) -> Vec<u8> {
    let mut bytes = vec![];
    for line in text.lines() {
        let items: Vec<&str> = line.split_whitespace().collect();
        if items.len() >= 2 && items[0].parse() == Ok(bytes.len()) {
            let more: Option<Vec<u8>> = items[1..].iter().map(|item| byte_printed(item)).collect();
            bytes.extend(more.unwrap_or_default());
        }
    }
    bytes
}

/// The place and the bytes of a word on a line of two places, the word's bytes and the word; none
/// for any other line.
fn word_printed(line: &str) -> Option<(usize, [u8; 2])> {
    let items: Vec<&str> = line.split_whitespace().collect();
    if items.len() < 5 {
        return None;
    }
    let place = items[0].strip_suffix(',')?.parse().ok()?;
    let bytes = [byte_printed(items[2])?, byte_printed(items[3])?];
    assert_eq!(items[1].parse(), Ok(place + 1), "{line}");
    let value = u16::from_be_bytes(bytes);
    assert_eq!(items[4], printed(value.into()), "{line}");
    Some((place, bytes))
}

/// The archive that the model writes for the table and its best plan, which has these marks.
fn archive_of_best(edition: Edition, table: &Table, marks: &[u8], pages: usize) -> Vec<u8> {
    let (count, limit) = (marks.len(), usize::from(table.limit));
    let table = table.bytes();
    let (mut made, mut scratch) = (vec![9; count], vec![9; scratch_length(count, limit)]);
    assert!(plan_best(&table, &mut made, &mut scratch).is_accepted());
    assert_eq!(made, marks);
    let mut archive = vec![9; edition.length(pages, count)];
    assert!(edition.write(&table, marks, &mut archive).is_accepted());
    archive
}

/// The lines of bytes and the lines of words both give the archive of case E and its best plan. In
/// edition 2 the words of the nodes are not told again, and those of all records are written out.
fn bytes_of_case_e(edition: Edition) {
    let number = [12, 19][edition.number - 1];
    let archive = archive_of_best(edition, &case_e(), &MARKS_OF_E, 3);
    assert_eq!(film_of_e(edition), archive);
    assert_eq!(bytes_printed(section(number)), archive);
    assert!(running(number).contains(&format!(" has {} bytes.", archive.len())));
    let mut in_words = vec![];
    for (place, bytes) in section(number).lines().filter_map(word_printed) {
        assert_eq!(place, in_words.len());
        in_words.extend(bytes);
    }
    if edition == FIRST {
        assert_eq!(in_words, archive);
        return;
    }
    let [first, second] = EDITIONS.map(|edition| 2 * edition.node_at(3, 1));
    assert_eq!(in_words, archive[..second]);
    let text = written_out(edition, &archive);
    assert!(section(number).contains(&text), "{text}");
    let said = format!("They begin at byte {second} here and at byte {first} there.");
    assert!(running(number).contains(&said), "{said}");
    assert_eq!(film_of_e(FIRST)[first..], archive[second..]);
}

/// Where the steps of case E say that the records begin.
fn records_of_case_e(edition: Edition) {
    let text = running([13, 20][edition.number - 1]);
    let list = |bytes: &[usize]| {
        let texts: Vec<String> = bytes.iter().map(usize::to_string).collect();
        let (last, others) = texts.split_last().expect("a byte");
        format!("{} and {last}", others.join(", "))
    };
    let pages = [1, 2, 3].map(|p| 2 * edition.page_at(p));
    let nodes = [1, 2, 3, 4, 5, 6].map(|n| 2 * edition.node_at(3, n));
    let (of_pages, of_nodes) = (list(&pages), list(&nodes));
    let said = format!(
        "The page records begin at bytes {of_pages}, the node records at bytes {of_nodes}."
    );
    assert!(text.contains(&said), "{said}");
    let (head, of_pages, all) = (pages[0], nodes[0] - pages[0], edition.length(3, 6));
    let said = format!("= {head} + {of_pages} + 48 = {all}, and it is.");
    assert!(text.contains(&said), "{said}");
}

/// The archive of the example of two pages, as printed.
fn archive_of_two_pages() -> Vec<u8> {
    bytes_printed(section(15))
}

/// The lines that section 6 has written out, with their names in front.
fn written_out(edition: Edition, archive: &[u8]) -> String {
    let [nodes, _, pages] = edition.head(archive);
    let mut lines = vec![("head".to_string(), 0..edition.page_at(1))];
    for p in 1..=pages {
        let places = edition.page_at(p)..edition.page_at(p + 1);
        lines.push((format!("page {p}"), places));
    }
    for n in 1..=nodes {
        let places = edition.node_at(pages, n)..edition.node_at(pages, n + 1);
        lines.push((format!("node {n}"), places));
    }
    let mut text = String::new();
    for (name, places) in lines {
        text += &format!("    {name:<6}");
        for place in places {
            text += &format!("{:>7}", printed(word(archive, place)));
        }
        text += "\n";
    }
    text
}

/// The printed bytes are the archive of this tree and its best plan, and the lines of the head, the
/// pages and the nodes have its words. With label 0 it is older film: neither planner nor writer
/// takes the tree.
#[test]
fn bytes_of_the_example_of_two_pages() {
    let mut table = Table::new(14, &[0, 1, 2, 2, 1, 5, 1], &[3, 4, 1, 5, 2, 1, 2]);
    for (record, label) in table.records.iter_mut().zip([300, 20, 0, 7, 20, 9, 44]) {
        record.label = label;
    }
    let marks = [1, 1, 0, 0, 2, 0, 0];
    let table = table.bytes();
    assert_eq!(judge(&table, &marks), Answer::refused(14, 3));
    let tree = read_as_before(&table).expect("a table that is accepted but for labels");
    assert_eq!(score_of_plan(&tree, &marks), best_of_plans(&tree));
    let archive = FIRST.bytes(&tree, &marks);
    assert_eq!(archive_of_two_pages(), archive);
    let text = written_out(FIRST, &archive);
    assert!(section(15).contains(&text), "{text}");
}

/// The lines of an example's tree and of its two tables are in its section, one after another.
fn assert_printed(told: &Rebuilt, section: &str) {
    fn list(numbers: &[usize]) -> String {
        let texts: Vec<String> = numbers.iter().map(usize::to_string).collect();
        match numbers {
            [] => "none".to_string(),
            _ => texts.join(", "),
        }
    }
    /// The lines of all nodes below this one, whose own line has so much in front.
    fn draw(told: &Rebuilt, n: usize, front: &str, text: &mut String) {
        let children = &told.nodes[n - 1].children;
        for child in children {
            *text += &format!("{front}+-- {child}\n");
            let is_last = child == &children[children.len() - 1];
            let more = if is_last { "    " } else { "|   " };
            draw(told, *child, &format!("{front}{more}"), text);
        }
    }
    let mut text = "    1\n".to_string();
    draw(told, 1, "    ", &mut text);
    assert!(section.contains(&text), "{text}");
    let mut text = "    Node  Weight  Label  Parent  Next node  Children  Mark  Page\n".to_string();
    for (n, node) in (1..).zip(&told.nodes) {
        text += &format!(
            "{n:>8}{:>8}{:>7}{:>8}{:>11}  {:<8}{:>6}{:>6}\n",
            node.weight,
            node.label,
            node.parent,
            node.next_node,
            list(&node.children),
            node.mark,
            node.page
        );
    }
    assert!(section.contains(&text), "{text}");
    // The two lists are as wide as the longest of them.
    let width = |lists: fn(&Page) -> &[usize], name: &str| {
        let widths = told.pages.iter().map(|page| list(lists(page)).len());
        widths.chain([name.len()]).max().expect("a width")
    };
    let run_width = width(|page| &page.run, "Run");
    let nodes_width = width(|page| &page.nodes, "Nodes");
    let mut text = format!(
        "    Page  First node  Last sibling  Weight  Next page  {:<run_width$}  {:<nodes_width$}  Sum\n",
        "Run", "Nodes"
    );
    for (p, page) in (1..).zip(&told.pages) {
        text += &format!(
            "{p:>8}{:>12}{:>14}{:>8}{:>11}  {:<run_width$}  {:<nodes_width$}{:>5}\n",
            page.first_node,
            page.last_sibling,
            page.weight,
            page.next_page,
            list(&page.run),
            list(&page.nodes),
            page.sum
        );
    }
    assert!(section.contains(&text), "{text}");
}

#[test]
fn tables_of_the_example() {
    let told = rebuild(&film_of_e(FIRST)).expect("a sound archive");
    assert_printed(&told, section(13));
}

/// All but the edition and the node counts, which are the numbers of nodes.
fn assert_told_the_same(first: &Rebuilt, second: &Rebuilt) {
    assert_eq!([first, second].map(|told| told.edition.number()), [1, 2]);
    assert_eq!(first.limit, second.limit);
    assert_eq!(first.nodes, second.nodes);
    let mut pages = first.pages.clone();
    for page in &mut pages {
        assert_eq!(page.node_count, None);
        page.node_count = Some(page.nodes.len());
    }
    assert_eq!(pages, second.pages);
}

/// The example of edition 2 has the tables of section 13, and the node counts that are told.
#[test]
fn tables_of_the_example_of_edition_2() {
    let [first, told] =
        EDITIONS.map(|edition| rebuild(&film_of_e(edition)).expect("a sound archive"));
    assert_printed(&told, section(13));
    assert_told_the_same(&first, &told);
    let counts: Vec<usize> = told.pages.iter().flat_map(|page| page.node_count).collect();
    assert_eq!(counts, [1, 3, 2]);
    let said = "These are 1, 3 and 2 nodes, and so the node counts say. No label is 0.";
    assert!(running(20).contains(said));
    all_accept(&film_of_e(SECOND));
}

#[test]
fn tables_of_the_example_of_two_pages() {
    let told = rebuild(&archive_of_two_pages()).expect("a sound archive");
    assert_printed(&told, section(16));
    // What the example is there to show: nodes with mark 0 on page 2, some of them between the two
    // nodes of its run and one after them, and a last sibling that is not the last child.
    assert_eq!(told.pages[1].run, [2, 5]);
    assert_eq!(told.pages[1].nodes, [2, 3, 4, 5, 6]);
    assert_eq!(told.nodes[0].children, [2, 5, 7]);
    all_accept(&archive_of_two_pages());
}

/// What the sheet says of label 0, and that it and both readers read older film with it, but only
/// of the first edition. The example of two pages is such film.
#[test]
fn label_0() {
    let said = "found on older film of the first edition only: a lot that nobody had filed.";
    assert!(running(2).contains(said));
    let said = "no check of labels in the first edition: read a label 0 there like any other.";
    assert!(running(7).contains(said));
    let said = "Label 0 of node 3 is a lot that nobody had filed; in edition 2, check 18 would \
                fail at node 3.";
    assert!(running(16).contains(said));
    for film in kept() {
        let told = rebuild(&film.archive).expect("a sound archive");
        assert_told(&told, &film.table, &film.marks, &film.archive);
        let first = told.nodes.iter().position(|node| node.label == 0);
        assert_eq!(first, Some(film.unfiled - 1), "{}", film.name);
        all_accept(&film.archive);

        let archive = kept_in(SECOND, &film);
        assert_eq!(rebuild(&archive), Err(failed_at(18, film.unfiled)));
        all_refuse(&archive);
    }
    let archives = kept().map(|film| film.archive);
    assert!(archives.contains(&archive_of_two_pages()));
}

/// What the sheet says of weight 0, and that it reads film with such a weight as both readers do.
fn weight_0(edition: Edition) {
    assert!(section(2).contains("a weight, 0 or more (0: a note on the margin of the film)"));
    assert!(section(7).contains("Check 6     The weight of each node is at most K.\n"));
    let (table, marks) = (note_between().bytes(), [1, 1, 2, 2]);
    let archive = film_of(edition, &table, &marks);
    let told = rebuild(&archive).expect("a sound archive");
    assert_told(&told, &table, &marks, &archive);
    all_accept(&archive);
}

/// Film as it was kept from before there were weights of 0, and film of edition 2 as it was worked
/// out by hand.
#[test]
fn kept_film() {
    let kept = kept_filed().map(|film| (film.archive.clone(), film));
    let by_hand = by_hand().map(|(film, archive)| (archive, film));
    for (archive, film) in kept.into_iter().chain(by_hand) {
        let told = rebuild(&archive).expect("a sound archive");
        assert_told(&told, &film.table, &film.marks, &archive);
        all_accept(&archive);
    }
    all_accept(&archive_of_note_between());
}

/// The example of two pages with the word set anew that a section prints: first the line as it was,
/// then a line for each change.
fn changed_as_printed(section: &str) -> Vec<Vec<u8>> {
    let archive = archive_of_two_pages();
    let mut lines = section.lines().filter_map(word_printed);
    let (place, bytes) = lines.next().expect("a line of a word");
    assert_eq!(archive[place..place + 2], bytes);
    lines
        .map(|(again, bytes)| {
            assert_eq!(again, place);
            let mut changed = archive.clone();
            changed[place..place + 2].copy_from_slice(&bytes);
            changed
        })
        .collect()
}

/// The place of a word in an archive of so many pages by its name, as 'parent of node 3'.
fn place_named(edition: Edition, name: &str, pages: usize) -> usize {
    if name == "first word" {
        return 0;
    }
    let (word, record) = name.split_once(" of ").expect("a word and a record");
    let (kind, number) = record.split_once(' ').expect("a kind and a number");
    let number: usize = number.parse().expect("a number");
    let page_words = [
        "first node",
        "last sibling",
        "weight",
        "next page",
        "node count",
    ];
    let node_words = ["weight", "label", "parent", "next node"];
    let (begin, words) = match kind {
        "page" => (edition.page_at(number), &page_words[..edition.page_words]),
        "node" => (edition.node_at(pages, number), &node_words[..]),
        _ => panic!("{name}"),
    };
    let place = words.iter().position(|&other| other == word);
    begin + place.expect("a word of the record")
}

/// An archive of so many pages with the one word set anew that a line of a section prints, for each
/// of these lines, and where the reader stops, which is what the line has written down.
fn failures_printed(
    edition: Edition,
    archive: &[u8],
    pages: usize,
    section: &str,
) -> Vec<(Vec<u8>, Failed)> {
    let mut failures = vec![];
    for line in section.lines() {
        let Some((place, bytes)) = word_printed(line) else {
            continue;
        };
        let mut changed = archive.to_vec();
        changed[place..place + 2].copy_from_slice(&bytes);
        let (name, words) = line[28..].split_once(": ").expect("a name and the words");
        assert_eq!(2 * place_named(edition, name, pages), place, "{line}");
        let [new, old] = [&changed, archive].map(|archive| printed(word(archive, place / 2)));
        assert!(words.starts_with(&format!("{new}, not {old}  ")), "{line}");
        let failed = rebuild(&changed).expect_err("a failed check");
        assert!(line.ends_with(&format!("  {failed}")), "{line}");
        all_refuse(&changed);
        failures.push((changed, failed));
    }
    failures
}

/// The failures of section 17, which are of the example of two pages.
fn failures_of_two_pages() -> Vec<(Vec<u8>, Failed)> {
    failures_printed(FIRST, &archive_of_two_pages(), 2, section(17))
}

/// The failures of section 21, which are of the example of edition 2.
fn failures_of_edition_2() -> Vec<(Vec<u8>, Failed)> {
    failures_printed(SECOND, &film_of_e(SECOND), 3, section(21))
}

fn checks_of(failures: &[(Vec<u8>, Failed)]) -> Vec<Failed> {
    failures.iter().map(|failure| failure.1).collect()
}

/// What a failure at a node, at a page and of check 16 looks like when written down. The reasons
/// that the sheet gives are true of the example, and the archives are refused with 13.
#[test]
fn examples_of_checks_that_fail() {
    let told = [(8, 4), (11, 2), (14, 2), (16, 1)].map(|(c, n)| failed_at(c, n));
    assert_eq!(checks_of(&failures_of_two_pages()), told);
    let right = rebuild(&archive_of_two_pages()).expect("a sound archive");
    assert_eq!(right.pages[1].first_node, 2);
    assert_ne!(right.nodes[1].parent, right.nodes[3].parent);
    assert_eq!(right.pages[1].sum, 13);
    assert_eq!(right.nodes[6].page, 1);
}

/// The same for the checks of edition 2 alone, and for first words by which it is taken for the
/// first edition: with the one, N is over 1,024, with the other, the length is right all the same.
#[test]
fn examples_of_checks_that_fail_in_edition_2() {
    let failures = failures_of_edition_2();
    let told = [(17, 2), (18, 3), (2, 0), (7, 1)].map(|(c, n)| failed_at(c, n));
    assert_eq!(checks_of(&failures), told);
    let right = rebuild(&film_of_e(SECOND)).expect("a sound archive");
    assert_eq!(right.pages[1].nodes, [2, 3, 6]);
    let mut unfiled = film_of_e(FIRST);
    set_word(&mut unfiled, FIRST.node_at(3, 3) + 1, 0);
    all_accept(&unfiled);

    let taken_for_the_first = &failures[3].0;
    assert_eq!(taken_for_the_first.len(), FIRST.length(5, 5));
    assert!(section(21).contains("The length is 6 + 8 x 5 + 8 x 5 = 86, as it must be"));
    let lines = written_out(FIRST, taken_for_the_first);
    assert!(lines.starts_with("    head        5      6      5\n"));
    assert!(lines.contains("    node 1      2      2      1      3\n"));
    assert!(running(21)
        .contains("the one that you name node 1 has the words 2, 2, 1, 3. Its parent is 1"));
}

/// The check and the node that the sheet names are those at which the reader stops. With 1 as the
/// parent of that node the archive is accepted, as another tree.
#[test]
fn example_of_a_check_that_fails() {
    let (mut archive, failed) = failures_of_two_pages().swap_remove(0);
    let Place::Node(n) = failed.place else {
        panic!("{failed}");
    };
    let said = format!("So check {} fails at node {n}.", failed.check);
    assert!(section(17).contains(&said), "{said}");

    let right = rebuild(&archive_of_two_pages()).expect("a sound archive");
    assert_eq!(right.nodes[n - 1].parent, 2);
    set_word(&mut archive, FIRST.node_at(2, n) + 2, 1);
    let told = rebuild(&archive).expect("a sound archive");
    assert_ne!(table_of(&told), table_of(&right));
    all_accept(&archive);
}

/// With any of the three parents of node 4 all checks hold and the pages have the same nodes, and
/// the library's reader accepts the archive, each time as another tree. So these archives could be
/// copies that are all sound but differ (section 11).
#[test]
fn example_of_a_wrong_word_that_no_check_finds() {
    let mut archives = changed_as_printed(section(18));
    archives.push(archive_of_two_pages());
    let mut seen = BTreeSet::new();
    for (archive, (parent, mark)) in archives.iter().zip([(3, 0), (1, 2), (2, 0)]) {
        let told = rebuild(archive).expect("a sound archive");
        assert_eq!((told.nodes[3].parent, told.nodes[3].mark), (parent, mark));
        assert_eq!(told.pages[0].nodes, [1, 7]);
        assert_eq!(told.pages[1].nodes, [2, 3, 4, 5, 6]);
        assert!(agree(archive, &MODEL));
        let (mut table, mut marks) = ([9; 60], [9; 7]);
        let answer = (LIBRARY.film(FIRST).read)(archive, &mut table, &mut marks);
        assert_eq!(answer, Answer::accepted(2, 5));
        assert_told(&told, &table, &marks, archive);
        seen.insert(table);
    }
    assert_eq!(seen.len(), 3);
}

/// The words that can be wrong with no check failing (section 11), and all others.
enum Kind {
    Limit,
    LabelOf(usize),
    ParentOf(usize),
    Other,
}

fn kind_of_word(edition: Edition, place: usize, pages: usize) -> Kind {
    let limit = edition.head_at() + 1;
    match place.checked_sub(edition.node_at(pages, 1)) {
        None if place == limit => Kind::Limit,
        Some(word) if word % 4 == 1 => Kind::LabelOf(word / 4 + 1),
        Some(word) if word % 4 == 2 => Kind::ParentOf(word / 4 + 1),
        _ => Kind::Other,
    }
}

/// With another parent of node 1, check 7 fails. With another parent of another node n, no check
/// fails only if each page has the nodes that it had. If that node has mark 0 and both parents are
/// on one page, no check but check 8 can fail. If it goes to another page, the sums tell, or, where
/// it weighs nothing, the next nodes.
fn assert_other_parent(right: &Rebuilt, n: usize, parent: usize, told: &Result<Rebuilt, Failed>) {
    if n == 1 {
        assert_eq!(told, &Err(failed_at(7, 1)));
        return;
    }
    let node = &right.nodes[n - 1];
    let is_on_same_page =
        (1..=right.nodes.len()).contains(&parent) && right.nodes[parent - 1].page == node.page;
    match told {
        Ok(told) => {
            for (told, right) in told.pages.iter().zip(&right.pages) {
                assert_eq!(told.nodes, right.nodes);
            }
        }
        Err(failed) if node.mark == 0 && is_on_same_page => assert_eq!(failed.check, 8),
        Err(failed) if node.weight == 0 && failed.check == 16 => {}
        Err(failed) => assert!([8, 11, 12, 14].contains(&failed.check), "{failed}"),
    }
}

/// Values for one word: small ones, those at the ends of what a word may be, and 8,194 with its
/// neighbours.
fn values_for_a_word() -> impl Iterator<Item = usize> {
    let ends = [1023, 1024, 1025, 2047, 2048, 2049, 65535];
    (0..30).chain(ends).chain(8192..=8196)
}

/// Sound archives: small ones, ones with pages of weight 0, and the example of two pages, in
/// edition 2 with its lots filed.
fn archives_for_wrong_words(edition: Edition) -> Vec<Vec<u8>> {
    let mut archives = small_archives(edition);
    let two_pages = rebuild(&archive_of_two_pages()).expect("a sound archive");
    let mut table = table_of(&two_pages);
    if edition.is_filed {
        file_all(&mut table[4..]);
    }
    archives.push(film_of(edition, &table, &marks_of(&two_pages)));
    archives.push(film_of(edition, &note_between().bytes(), &[1, 1, 2, 2]));
    // A page of weight 0, of all nodes and of one.
    let notes = Table::new(3, &[0, 1, 2, 2, 1], &[0; 5]).bytes();
    archives.push(film_of(edition, &notes, &[1, 0, 0, 0, 0]));
    archives.push(film_of(edition, &notes, &[1, 0, 1, 0, 0]));
    let random = &mut Random::new(2008);
    archives.extend((0..200).map(|_| sound_archive(random, edition, 8, 12)));
    archives
}

/// What section 11 says of one wrong word: the checks hold with any label, but not with 0 in
/// edition 2, and with any K from 1 to 1,024 that is at least the weight of the heaviest page, can
/// hold with another parent, and fail with any other word.
fn one_wrong_word(edition: Edition) {
    let mut parents_not_found = 0;
    for archive in archives_for_wrong_words(edition) {
        let right = rebuild(&archive).expect("a sound archive");
        let heaviest = right.pages.iter().map(|page| page.weight).max();
        let heaviest = heaviest.expect("a page");
        for place in 0..archive.len() / 2 {
            for value in values_for_a_word() {
                if word(&archive, place) == value {
                    continue;
                }
                let mut changed = archive.clone();
                set_word(&mut changed, place, value);
                let told = rebuild(&changed);
                match kind_of_word(edition, place, right.pages.len()) {
                    Kind::Limit => {
                        assert_eq!(told.is_ok(), (1.max(heaviest)..=1024).contains(&value))
                    }
                    Kind::LabelOf(n) if edition.is_filed && value == 0 => {
                        assert_eq!(told, Err(failed_at(18, n)))
                    }
                    Kind::LabelOf(_) => assert!(told.is_ok()),
                    Kind::ParentOf(n) => {
                        assert_other_parent(&right, n, value, &told);
                        parents_not_found += usize::from(told.is_ok());
                    }
                    Kind::Other => assert!(told.is_err(), "{}", show(&changed)),
                }
            }
        }
    }
    assert!(parents_not_found >= 200, "{parents_not_found}");
}

/// A wrong first word is always found, also where it is that of the other edition. The length of
/// film of edition 2 can be right for the first edition, and then a later check finds it. That of
/// film of the first edition never is for edition 2.
fn a_wrong_first_word(edition: Edition) {
    let mut checks = BTreeSet::new();
    for archive in archives_for_wrong_words(edition) {
        let mut changed = archive.clone();
        for value in (0..=65535).filter(|&value| value != word(&archive, 0)) {
            set_word(&mut changed, 0, value);
            let failed = rebuild(&changed).expect_err("a failed check");
            if tell_edition(&changed).number() != edition.number {
                checks.insert(failed.check);
            }
        }
    }
    match edition {
        FIRST => assert!(checks.iter().all(|&check| check <= 5), "{checks:?}"),
        _ => assert!(checks.contains(&2) && checks.contains(&7), "{checks:?}"),
    }
}

/// The bytes of words.
fn bytes_of(words: &[usize]) -> Vec<u8> {
    let high_first = |&word: &usize| u16::try_from(word).expect("a word").to_be_bytes();
    words.iter().flat_map(high_first).collect()
}

/// The example of one page, with marks 0 and a weight of 0. In edition 2 its node count is that of
/// all nodes, and not of those in the run.
fn example_with_mark_0(edition: Edition) {
    assert!(section(14).contains("children 2, 3 and 4 have weights 1, 0 and 2."));
    assert!(section(14).contains("the sum of their weights is 2 + 1 + 0 + 2 = 5"));
    let page_1 = &[1, 1, 5, 0, 4][..edition.page_words];
    let texts: Vec<String> = page_1.iter().map(usize::to_string).collect();
    let said = format!("record of page 1 has the words {}.", texts.join(", "));
    assert!(running(14).contains(&said), "{said}");
    let words = [
        edition.opening,
        &[4, 5, 1], // N, K, P
        page_1,
        &[2, 7, 0, 2], // node 1
        &[1, 7, 1, 3], // node 2
        &[0, 7, 1, 4], // node 3
        &[2, 7, 1, 0], // node 4
    ];
    let archive = bytes_of(&words.concat());
    let told = rebuild(&archive).expect("a sound archive");
    assert_eq!(marks_of(&told), [1, 0, 0, 0]);
    assert_eq!(told.pages[0].run, [1]);
    assert_eq!(told.pages[0].nodes, [1, 2, 3, 4]);
    all_accept(&archive);
}

/// Case E's archive with some words set anew.
fn changed_e(edition: Edition, changes: &[(usize, usize)]) -> Vec<u8> {
    let mut archive = film_of_e(edition);
    for &(place, value) in changes {
        set_word(&mut archive, place, value);
    }
    archive
}

/// The lines of section 5 on what to write down: the checks, and the words for the place.
fn places_told() -> Vec<(Vec<u32>, &'static str)> {
    let number = |text: &str| -> u32 { text.parse().expect("a check's number") };
    let mut told = vec![];
    for line in section(5).lines() {
        let Some(row) = line.strip_prefix("    check") else {
            continue;
        };
        let (checks, place) = row.split_once("  ").expect("two columns");
        let checks = checks.trim_start_matches('s').trim().replace(" and ", ", ");
        let checks = match checks.split_once(" to ") {
            Some((first, last)) => (number(first)..=number(last)).collect(),
            None => checks.split(", ").map(number).collect(),
        };
        told.push((checks, place.trim()));
    }
    told
}

/// What section 5 has written down where this check fails at the node or page of that number, which
/// is zero where there is none.
fn failed_at(check: u32, number: usize) -> Failed {
    let told = places_told();
    let (_, words) = told
        .iter()
        .find(|(checks, _)| checks.contains(&check))
        .expect("a line for each check");
    let place = match *words {
        "the number only, with no node or page" => Place::None,
        "the node" | "the lowest node that is in two runs" => Place::Node(number),
        "node 1" => Place::Node(1),
        "the page" => Place::Page(number),
        "page 1" => Place::Page(1),
        _ => panic!("{words}"),
    };
    Failed { check, place }
}

/// Section 5 tells the place of each check once, and how three failures are written.
#[test]
fn what_to_write_down() {
    let mut checks: Vec<u32> = places_told().into_iter().flat_map(|told| told.0).collect();
    checks.sort_unstable();
    assert_eq!(checks, checks_printed());
    let [first, second, third] = [(3, 0), (8, 4), (14, 2)].map(|(c, n)| failed_at(c, n));
    let said = format!("So you write \"{first}\", or \"{second}\", or \"{third}\".");
    assert!(section(5).contains(&said), "{said}");
}

/// Check 12 fails at the lowest node that is in two runs, in whatever order the runs are looked at.
fn place_of_check_12(edition: Edition) {
    let mut seen = 0;
    changed_runs(edition, &mut |archive| {
        let Err(Failed { check: 12, place }) = rebuild(archive) else {
            return;
        };
        let pages = edition.head(archive)[2];
        let parent = |n: usize| word(archive, edition.node_at(pages, n) + 2);
        let mut met = BTreeSet::new();
        let mut in_two_runs = BTreeSet::new();
        for p in (1..=pages).rev() {
            let [first, last] = [0, 1].map(|end| word(archive, edition.page_at(p) + end));
            let run = (first..=last).filter(|&n| parent(n) == parent(first));
            in_two_runs.extend(run.filter(|&n| !met.insert(n)));
        }
        let lowest = in_two_runs.first().copied().expect("a node in two runs");
        assert_eq!(place, Place::Node(lowest), "{}", show(archive));
        seen += usize::from(in_two_runs.len() > 1);
    });
    assert!(seen >= 100, "{seen}");
}

/// The checks of the sheet in their order.
fn checks_printed() -> Vec<u32> {
    let number = |line: &str| {
        let number = line.strip_prefix("Check ")?.split_whitespace().next()?;
        number.parse().ok()
    };
    SHEET.lines().filter_map(number).collect()
}

/// Each check of the sheet that is for the edition fails for some changes to case E that leave the
/// checks before it holding.
fn each_check_can_fail(edition: Edition) {
    let [both, all] = [16, 18];
    assert_eq!(checks_printed(), (1..=all).collect::<Vec<u32>>());
    let said = format!(
        "Sections 6 to 10 have {all} checks. Checks 1 to {both} are for both editions. \
         Checks 17 and {all} are for edition 2 only: leave them out in the first edition."
    );
    assert!(running(5).contains(&said), "{said}");
    let mut seen = BTreeSet::new();
    checks_that_fail(edition, &mut |check, number, archive| {
        let failed = Err(failed_at(check, number));
        assert_eq!(rebuild(archive), failed, "{}", show(archive));
        assert!(!agree(archive, &MODEL));
        seen.insert(check);
    });
    let last = if edition == FIRST { both } else { all };
    assert_eq!(seen, (1..=last).collect());
}

/// Calls its argument with a check, its node or page, and an archive at which it fails there.
fn checks_that_fail(edition: Edition, fails: &mut dyn FnMut(u32, usize, &[u8])) {
    // The place of a word in the head or in a record of case E's archive, counted from 1. Those of
    // the head are N, K and P.
    let head = |word: usize| edition.head_at() + word - 1;
    let page = |p: usize, word: usize| edition.page_at(p) + word - 1;
    let node = |n: usize, word: usize| edition.node_at(3, n) + word - 1;
    let changed_e = |changes: &[(usize, usize)]| changed_e(edition, changes);
    let good = changed_e(&[]);
    let above = edition.most_nodes + 1;
    let head_length = 2 * edition.page_at(1);
    for length in [0, 1, 2, 5, head_length - 1] {
        fails(1, 0, &good[..length]);
    }
    for nodes in [0, above, 4096, 65535] {
        fails(2, 0, &changed_e(&[(head(1), nodes)]));
    }
    fails(3, 0, &changed_e(&[(head(2), 0)]));
    fails(3, 0, &changed_e(&[(head(2), 1025)]));
    fails(4, 0, &changed_e(&[(head(3), 0)]));
    fails(4, 0, &changed_e(&[(head(3), 7)]));
    fails(5, 0, &good[..head_length]);
    fails(5, 0, &good[..good.len() - 1]);
    fails(5, 0, &[&good[..], &[0]].concat());
    fails(5, 0, &changed_e(&[(head(1), 5)]));
    fails(5, 0, &changed_e(&[(head(1), above - 1)]));
    fails(5, 0, &changed_e(&[(head(3), 2)]));
    fails(6, 3, &changed_e(&[(node(3, 1), 6)]));
    fails(6, 6, &changed_e(&[(node(6, 1), 65535)]));
    fails(7, 1, &changed_e(&[(node(1, 3), 1)]));
    for (n, parent) in [(2, 0), (2, 2), (3, 3), (3, 4), (5, 2), (6, 2), (6, 7)] {
        fails(8, n, &changed_e(&[(node(n, 3), parent)]));
    }
    fails(9, 1, &changed_e(&[(page(1, 1), 0)]));
    fails(9, 1, &changed_e(&[(page(1, 1), 2)]));
    fails(9, 1, &changed_e(&[(page(1, 2), 2)]));
    fails(10, 2, &changed_e(&[(page(2, 1), 0)]));
    fails(10, 2, &changed_e(&[(page(2, 1), 1)]));
    fails(10, 3, &changed_e(&[(page(3, 1), 2)]));
    fails(10, 3, &changed_e(&[(page(3, 1), 7)]));
    for last in [0, 1, 4, 5, 7] {
        fails(11, 2, &changed_e(&[(page(2, 2), last)]));
    }
    fails(12, 3, &changed_e(&[(page(3, 1), 3), (page(3, 2), 6)]));
    fails(12, 6, &changed_e(&[(page(3, 1), 6), (page(3, 2), 6)]));
    for (p, next) in [(1, 0), (1, 1), (1, 3), (2, 0), (3, 1), (3, 4)] {
        fails(13, p, &changed_e(&[(page(p, 4), next)]));
    }
    fails(14, 1, &changed_e(&[(page(1, 3), 4)]));
    fails(14, 3, &changed_e(&[(page(3, 3), 5)]));
    fails(14, 2, &changed_e(&[(node(2, 1), 3)]));
    // A weight of 0 fails no check but that of the sum, and with the sum set right none.
    fails(14, 2, &changed_e(&[(node(3, 1), 0)]));
    all_accept(&changed_e(&[(node(3, 1), 0), (page(2, 3), 3)]));
    fails(15, 2, &changed_e(&[(node(2, 1), 4), (page(2, 3), 6)]));
    for (n, next) in [(1, 1), (1, 2), (2, 0), (2, 6), (3, 4), (5, 6), (6, 2)] {
        fails(16, n, &changed_e(&[(node(n, 4), next)]));
    }
    // Two failures: the lower node or page of one check, and the lower of two checks.
    fails(6, 3, &changed_e(&[(node(3, 1), 6), (node(5, 1), 9)]));
    fails(6, 5, &changed_e(&[(node(3, 1), 0), (node(5, 1), 9)]));
    fails(8, 2, &changed_e(&[(node(2, 3), 2), (node(3, 3), 2)]));
    fails(8, 3, &changed_e(&[(node(3, 3), 3), (node(6, 3), 7)]));
    fails(10, 2, &changed_e(&[(page(2, 1), 0), (page(3, 1), 0)]));
    fails(11, 2, &changed_e(&[(page(2, 2), 5), (page(3, 2), 6)]));
    fails(13, 1, &changed_e(&[(page(1, 4), 3), (page(2, 4), 2)]));
    fails(14, 2, &changed_e(&[(page(2, 3), 5), (page(3, 3), 5)]));
    let heavy = [(2, 4), (4, 4)].map(|(n, weight)| (node(n, 1), weight));
    let sums = [(2, 6), (3, 6)].map(|(p, sum)| (page(p, 3), sum));
    fails(15, 2, &changed_e(&[heavy, sums].concat()));
    fails(16, 2, &changed_e(&[(node(2, 4), 6), (node(4, 4), 0)]));
    fails(8, 6, &changed_e(&[(node(2, 4), 0), (node(6, 3), 2)]));
    fails(14, 3, &changed_e(&[(page(3, 3), 5), (node(1, 4), 2)]));

    if edition == FIRST {
        fails(2, 0, &changed_e(&[(0, 2048)]));
        // Taken for edition 2, with N 5, K 3 and P 1.
        fails(5, 0, &changed_e(&[(0, 8194)]));
        all_accept(&changed_e(&[(node(3, 2), 0)]));
        return;
    }
    // Taken for the first edition.
    fails(2, 0, &changed_e(&[(0, 8193)]));
    fails(2, 0, &changed_e(&[(0, 8195)]));
    for (p, count) in [(1, 0), (1, 2), (2, 0), (2, 2), (2, 4), (3, 1), (3, 65535)] {
        fails(17, p, &changed_e(&[(page(p, 5), count)]));
    }
    for n in 1..=6 {
        fails(18, n, &changed_e(&[(node(n, 2), 0)]));
    }
    fails(17, 2, &changed_e(&[(page(2, 5), 2), (page(3, 5), 3)]));
    fails(18, 2, &changed_e(&[(node(2, 2), 0), (node(5, 2), 0)]));
    fails(16, 6, &changed_e(&[(node(6, 4), 1), (page(1, 5), 0)]));
    fails(17, 3, &changed_e(&[(page(3, 5), 0), (node(1, 2), 0)]));
    fails(6, 4, &changed_e(&[(node(4, 1), 6), (node(1, 2), 0)]));
}

fn marks_of(told: &Rebuilt) -> Vec<u8> {
    told.nodes.iter().map(|node| node.mark).collect()
}

/// The tree table of what the sheet gets back.
fn table_of(told: &Rebuilt) -> Vec<u8> {
    let mut next_sibling = vec![0; told.nodes.len() + 1];
    for two in told.nodes.iter().flat_map(|node| node.children.windows(2)) {
        next_sibling[two[0]] = two[1];
    }
    let mut words = vec![told.nodes.len(), told.limit];
    for (n, node) in (1..).zip(&told.nodes) {
        let first_child = node.children.first().copied().unwrap_or(0);
        words.extend([node.weight, node.label, first_child, next_sibling[n]]);
    }
    bytes_of(&words)
}

/// What the sheet gets back is the model's tree, marks and pages of this table and plan.
fn assert_told(told: &Rebuilt, table: &[u8], marks: &[u8], context: &[u8]) {
    assert_eq!(table_of(told), table, "{}", show(context));
    assert_eq!(marks_of(told), marks, "{}", show(context));
    let tree = read_as_before(table).expect("a table that is accepted but for labels");
    assert_eq!(told.limit, tree.limit as usize);
    assert_eq!(told.nodes.len(), tree.node_count());
    for (n, node) in (1..).zip(&told.nodes) {
        assert_eq!(node.weight, tree.weights[n] as usize);
        assert_eq!(node.label, tree.labels[n] as usize);
        assert_eq!(node.parent, tree.parents[n]);
        assert_eq!(node.children, tree.children[n]);
        assert!(told.pages[node.page - 1].nodes.contains(&n));
    }
    let has_counts = told.edition == rule_sheet::Edition::Two;
    let pages = model::pages(&tree, marks);
    assert_eq!(told.pages.len(), pages.len());
    for p in 1..=pages.len() {
        assert_eq!(list_nodes(told, p), told.pages[p - 1].nodes);
    }
    for (told, page) in told.pages.iter().zip(&pages) {
        assert_eq!(
            (told.first_node, told.last_sibling),
            (page.first, page.last)
        );
        assert_eq!(told.weight, page.weight as usize);
        assert_eq!(told.sum, page.weight as usize);
        assert_eq!(told.nodes, page.nodes);
        assert_eq!(told.node_count, has_counts.then_some(page.nodes.len()));
        let in_run: Vec<usize> = page
            .nodes
            .iter()
            .copied()
            .filter(|&node| marks[node - 1] != 0)
            .collect();
        assert_eq!(told.run, in_run);
    }
}

/// What the reader of an edition answers, and the table and the marks that it fills.
fn read_by(entries: &Entries, edition: Edition, archive: &[u8]) -> (Answer, Vec<u8>, Vec<u8>) {
    // Buffers of the right length for all archives that can be accepted.
    let count = match archive.len() < 2 * edition.page_at(1) {
        true => 0,
        false => edition.head(archive)[0].min(edition.most_nodes),
    };
    let (mut table, mut marks) = (vec![7; 4 + 8 * count], vec![7; count]);
    let answer = (entries.film(edition).read)(archive, &mut table, &mut marks);
    (answer, table, marks)
}

/// The sheet and the reader of the edition that it tells both accept the archive, with the same
/// tree, marks, pages and weights, or neither does. The reader of the other edition never does.
/// True where the archive is accepted.
fn agree(archive: &[u8], entries: &Entries) -> bool {
    let told = rebuild(archive);
    for edition in EDITIONS {
        let (answer, table, marks) = read_by(entries, edition, archive);
        match &told {
            Ok(told) if told.edition.number() == edition.number => {
                let verdict = Answer::accepted(told.pages.len(), told.pages[0].weight as u32);
                assert_eq!(answer, verdict, "{}", show(archive));
                assert_told(told, &table, &marks, archive);
            }
            told => {
                let (refusal, failed) = (Answer::refused(13, 0), told.as_ref().err());
                assert_eq!(answer, refusal, "{failed:?}: {}", show(archive));
            }
        }
    }
    told.is_ok()
}

/// The sheet, the model and the library accept the archive, all as the same.
fn all_accept(archive: &[u8]) {
    for entries in [&MODEL, &LIBRARY] {
        assert!(agree(archive, entries), "{}", show(archive));
    }
}

/// The sheet, the model and the library all find it unsound.
fn all_refuse(archive: &[u8]) {
    for entries in [&MODEL, &LIBRARY] {
        assert!(!agree(archive, entries), "{}", show(archive));
    }
}

/// Sheet and readers agree on all these archives, of which at least so many are accepted and so
/// many are not.
fn agree_on(
    archives: Archives,
    edition: Edition,
    entries: &Entries,
    accepted: usize,
    refused: usize,
) {
    let mut seen = [0, 0];
    archives(edition, &mut |archive| {
        seen[usize::from(agree(archive, entries))] += 1;
    });
    assert!(seen[1] >= accepted && seen[0] >= refused, "{seen:?}");
}

/// A table and a feasible plan, of at most so many nodes and that limit.
fn random_table_and_plan(random: &mut Random, most: usize, limit: usize) -> (Vec<u8>, Vec<u8>) {
    let table = any_table(random, most, limit).bytes();
    let tree = read(&table).expect("an accepted table");
    let marks = feasible_plan(random, &tree);
    (table, marks)
}

/// A sound archive, at times with labels 0 where the edition has such film.
fn sound_archive(random: &mut Random, edition: Edition, most: usize, limit: usize) -> Vec<u8> {
    let mut table = any_table(random, most, limit);
    if !edition.is_filed && random.once_in(4) {
        table = table.unfiled(random);
    }
    let tree = read_as_before(&table.bytes()).expect("a table that is accepted but for labels");
    let marks = feasible_plan(random, &tree);
    edition.bytes(&tree, &marks)
}

/// Case E and some random ones, of up to seven nodes.
fn small_archives(edition: Edition) -> Vec<Vec<u8>> {
    let random = &mut Random::new(2001);
    let mut archives = vec![film_of_e(edition)];
    archives.extend((0..8).map(|_| sound_archive(random, edition, 7, 12)));
    archives
}

/// All plans of small trees, feasible or not, and plans of trees that are refused for weight.
fn archives_of_all_plans(edition: Edition, visit: &mut dyn FnMut(&[u8])) {
    let mut visit_plans = |table: &[u8]| {
        let mut tree = read(table).expect("an accepted table");
        for_each_plan(&tree, |marks| visit(&edition.bytes(&tree, marks)));
        tree.limit = 1;
        visit(&edition.bytes(&tree, &vec![1; tree.node_count()]));
    };
    for_each_table(1..=5, &[1, 2], &[2, 3, 4], &mut visit_plans);
    for_each_table(1..=5, &[0, 1], &[1, 2, 3], &mut visit_plans);
    for_each_table(1..=4, &[0, 1, 2], &[2, 3], &mut visit_plans);
}

/// All plans of small trees with labels 0 and 1 in every order.
fn archives_of_all_labels(edition: Edition, visit: &mut dyn FnMut(&[u8])) {
    for_each_table(1..=4, &[0, 1], &[1, 2], |table| {
        for_each_labelling(table, |table| {
            let tree = read_as_before(table).expect("a table that is accepted but for labels");
            for_each_plan(&tree, |marks| visit(&edition.bytes(&tree, marks)));
        });
    });
}

fn sound_archives(edition: Edition, visit: &mut dyn FnMut(&[u8])) {
    let random = &mut Random::new(2002);
    for round in 0..2000 {
        let most = most_nodes(edition, round, 50, 30);
        let limit = random.pick(&[10, 60, 1024]);
        visit(&sound_archive(random, edition, most, limit));
    }
}

/// Archives of as many nodes as there can be with limit 1,024, and the same with a word or some
/// changed.
fn largest_archives(edition: Edition, visit: &mut dyn FnMut(&[u8])) {
    let random = &mut Random::new(2003);
    for form in FORMS {
        let count = edition.most_nodes;
        let table = random_table(random, form, count, 1024).bytes();
        let tree = read(&table).expect("an accepted table");
        for marks in [vec![1; count], feasible_plan(random, &tree)] {
            let archive = edition.bytes(&tree, &marks);
            visit(&archive);
            for _ in 0..10 {
                visit(&changed_words(random, edition, &archive));
            }
        }
    }
}

fn single_byte_changes(edition: Edition, visit: &mut dyn FnMut(&[u8])) {
    for archive in small_archives(edition) {
        for place in 0..archive.len() {
            for value in 0..=255 {
                let mut changed = archive.clone();
                changed[place] = value;
                visit(&changed);
            }
        }
    }
}

fn single_word_changes(edition: Edition, visit: &mut dyn FnMut(&[u8])) {
    for archive in small_archives(edition) {
        for_each_word_change(&archive, &mut *visit);
    }
}

fn other_lengths(edition: Edition, visit: &mut dyn FnMut(&[u8])) {
    let random = &mut Random::new(2004);
    for archive in small_archives(edition) {
        for length in 0..archive.len() {
            visit(&archive[..length]);
        }
        for more in 1..=24 {
            visit(&[&archive[..], &vec![0; more]].concat());
            visit(&[&archive[..], &random.bytes(more)].concat());
        }
    }
}

/// Where the records of an archive begin.
fn records_of(edition: Edition, archive: &[u8]) -> Vec<usize> {
    let [nodes, _, pages] = edition.head(archive);
    let of_pages = (1..=pages).map(|p| edition.page_at(p));
    let of_nodes = (1..=nodes).map(|n| edition.node_at(pages, n));
    of_pages.chain(of_nodes).collect()
}

/// Changed words, flipped bits and records whose first four words changed places.
fn changed_archives(edition: Edition, visit: &mut dyn FnMut(&[u8])) {
    let random = &mut Random::new(2005);
    for round in 0..20000 {
        let most = most_nodes(edition, round, 500, 6);
        let archive = sound_archive(random, edition, most, 12);
        visit(&changed_words(random, edition, &archive));
        let mut exchanged = archive.clone();
        let records = records_of(edition, &archive);
        let (first, second) = (random.pick(&records), random.pick(&records));
        for byte in 0..8 {
            exchanged.swap(2 * first + byte, 2 * second + byte);
        }
        visit(&exchanged);
        visit(&flipped(random, archive));
    }
}

/// All archives of one page and up to five nodes whose parents are 0 to one above the count, with
/// everything else as it should be.
fn all_parent_words(edition: Edition, visit: &mut dyn FnMut(&[u8])) {
    for count in 1..=5 {
        for_each_parenting(edition, count, &mut *visit);
    }
}

/// Small archives with one end of a run moved, and with the weights, node counts and next nodes
/// that are right for the new runs where these are runs and share no node.
fn changed_runs(edition: Edition, visit: &mut dyn FnMut(&[u8])) {
    let random = &mut Random::new(2006);
    for _ in 0..20000 {
        let (table, marks) = random_table_and_plan(random, 7, 20);
        let tree = read(&table).expect("an accepted table");
        let mut runs: Vec<[usize; 2]> = model::pages(&tree, &marks)
            .iter()
            .map(|page| [page.first, page.last])
            .collect();
        let (run, end) = (random.between(0, runs.len() - 1), random.between(0, 1));
        runs[run][end] = random.between(1, tree.node_count());

        // Of two runs with the same node, the later one has it.
        let mut run_of = vec![None; tree.node_count() + 1];
        for (page, &[first, last]) in runs.iter().enumerate() {
            let is_sibling = |&node: &usize| tree.parents[node] == tree.parents[first];
            for node in (first..=last).filter(is_sibling) {
                run_of[node] = Some(page);
            }
        }
        let mut page_of = vec![0; tree.node_count() + 1];
        let mut weights = vec![0; runs.len()];
        let mut counts = vec![0; runs.len()];
        let mut newest = vec![0; runs.len()];
        let mut next = vec![0; tree.node_count() + 1];
        for node in tree.nodes() {
            let page = run_of[node].unwrap_or(page_of[tree.parents[node]]);
            page_of[node] = page;
            weights[page] += tree.weights[node] as usize;
            counts[page] += 1;
            next[newest[page]] = node;
            newest[page] = node;
        }

        let mut archive = edition.bytes(&tree, &marks);
        for (page, &[first, last]) in runs.iter().enumerate() {
            let record = edition.page_at(page + 1);
            set_word(&mut archive, record, first);
            set_word(&mut archive, record + 1, last);
            set_word(&mut archive, record + 2, weights[page]);
            if edition.page_words == 5 {
                set_word(&mut archive, record + 4, counts[page]);
            }
        }
        for node in tree.nodes() {
            let record = edition.node_at(runs.len(), node);
            set_word(&mut archive, record + 3, next[node]);
        }
        visit(&archive);
    }
}

/// Heads with counts at or near the ends, and the lengths that they ask for.
fn heads(edition: Edition, visit: &mut dyn FnMut(&[u8])) {
    let values = [0, 1, 2, 3, 1023, 1024, 1025, 2048, 2049, 65535];
    for nodes in values {
        for limit in values {
            for pages in values {
                let head = bytes_of(&[edition.opening, &[nodes, limit, pages]].concat());
                let asked = edition.length(pages, nodes) - head.len();
                for length in [0, 1, 8, asked] {
                    visit(&[&head[..], &vec![0; length]].concat());
                }
            }
        }
    }
}

/// The opening of the one edition with all else of the other, and archives of the one edition whose
/// first word is any other one.
fn between_the_editions(edition: Edition, visit: &mut dyn FnMut(&[u8])) {
    let random = &mut Random::new(2009);
    let mut archives = small_archives(edition);
    archives.extend((0..50).map(|_| sound_archive(random, edition, 30, 1024)));
    for archive in archives {
        let rest = &archive[2 * edition.head_at()..];
        let other = edition.other();
        visit(&[&bytes_of(other.opening), rest].concat());
        for first in (0..=2049).chain(8192..=8196).chain([0x0220, 65535]) {
            let mut changed = archive.clone();
            set_word(&mut changed, 0, first);
            visit(&changed);
        }
    }
}

/// A tree of one parent and its children that weigh nothing but the first 1,023.
fn flat_tree(nodes: usize) -> Tree {
    let children: Vec<usize> = (2..=nodes).collect();
    let mut tree = Tree {
        limit: 1024,
        weights: (0..=nodes).map(|n| u32::from(n <= 1024)).collect(),
        labels: (0..=nodes as u32).collect(),
        parents: vec![1; nodes + 1],
        children: vec![vec![]; nodes + 1],
        before: (0..=nodes).map(|n| (n > 2).then(|| n - 1)).collect(),
        after: (0..=nodes)
            .map(|n| (n > 1 && n < nodes).then_some(n + 1))
            .collect(),
    };
    tree.parents[1] = 0;
    tree.children[1] = children;
    tree
}

/// Archives with one number of the head just outside its limits and all else as it should be, and
/// some with the number just inside.
fn around_the_limits(edition: Edition, visit: &mut dyn FnMut(&[u8])) {
    for nodes in [1024, 1025, 2048, 2049] {
        let tree = flat_tree(nodes);
        visit(&edition.bytes(&tree, &vec![1; nodes]));
        visit(&edition.bytes(&tree, &[&[1][..], &vec![0; nodes - 1]].concat()));
    }

    for limit in [1023, 1024, 1025] {
        visit(&changed_e(edition, &[(edition.head_at() + 1, limit)]));
    }
    let mut tree = read(&case_e().bytes()).expect("an accepted table");
    for limit in [4, 5] {
        tree.limit = limit;
        visit(&edition.bytes(&tree, &MARKS_OF_E));
    }

    // No pages, and then no nodes either.
    let head = |words: [usize; 3]| bytes_of(&[edition.opening, &words].concat());
    let nodes = &changed_e(edition, &[])[2 * edition.node_at(3, 1)..];
    visit(&[&head([6, 5, 0]), nodes].concat());
    visit(&head([0, 5, 0]));
    // No nodes, but a page record.
    let page = bytes_of(&[1, 1, 0, 0, 0][..edition.page_words]);
    visit(&[head([0, 5, 1]), page].concat());
}

/// What the writer makes of tables and plans is sound by the sheet, which gets both back.
fn gets_back_what_is_written_by(entries: &Entries, edition: Edition) {
    let random = &mut Random::new(2007);
    for round in 0..1000 {
        let most = most_nodes(edition, round, 50, 30);
        let limit = random.pick(&[10, 60, 1024]);
        let (table, marks) = random_table_and_plan(random, most, limit);
        let verdict = judge(&table, &marks);
        let mut archive = vec![7; edition.length(verdict.pages as usize, marks.len())];
        let answer = (entries.film(edition).write)(&table, &marks, &mut archive);
        assert_eq!(answer, verdict);
        let told = rebuild(&archive).expect("a sound archive");
        assert_eq!(told.edition.number(), edition.number);
        assert_told(&told, &table, &marks, &archive);
    }
}

/// What section 11 says of copies of different editions, of film that the converter makes of this
/// edition's film.
fn tells_the_same_of_copies_by(entries: &Entries, edition: Edition) {
    assert!(running(11).contains("So it is with the archives of sections 12 and 19."));
    let random = &mut Random::new(2010);
    for round in 0..1000 {
        // Film with labels from 1 on and of up to 1,024 nodes, which either edition has.
        let most = most_nodes(FIRST, round, 50, 30);
        let (table, marks) = random_table_and_plan(random, most, 60);
        let film = film_of(edition, &table, &marks);
        let pages = edition.head(&film)[2];
        let mut copy = vec![7; edition.other().length(pages, marks.len())];
        let answer = (entries.film(edition).convert)(&film, &mut copy);
        assert!(answer.is_accepted(), "{answer:?}: {}", show(&film));
        let [told, copy] = [film, copy].map(|film| rebuild(&film).expect("a sound archive"));
        match edition {
            FIRST => assert_told_the_same(&told, &copy),
            _ => assert_told_the_same(&copy, &told),
        }
    }
}

tests_of_editions!(
    bytes_of_case_e records_of_case_e weight_0 one_wrong_word a_wrong_first_word
    example_with_mark_0 place_of_check_12 each_check_can_fail
);

/// Tests of a side's readers, for each edition.
macro_rules! tests_of_readers {
    ($entries:expr) => {
        fn agree_on_all_plans(edition: Edition) {
            agree_on(archives_of_all_plans, edition, $entries, 10000, 10000);
        }

        fn agree_on_all_labels(edition: Edition) {
            let [accepted, refused] = [[10000, 1000], [1000, 10000]][edition.number - 1];
            agree_on(archives_of_all_labels, edition, $entries, accepted, refused);
        }

        fn agree_on_sound_archives(edition: Edition) {
            agree_on(sound_archives, edition, $entries, 2000, 0);
        }

        fn agree_on_largest_archives(edition: Edition) {
            agree_on(largest_archives, edition, $entries, 10, 50);
        }

        fn agree_on_single_byte_changes(edition: Edition) {
            agree_on(single_byte_changes, edition, $entries, 10000, 10000);
        }

        fn agree_on_single_word_changes(edition: Edition) {
            agree_on(single_word_changes, edition, $entries, 1000, 5000);
        }

        fn agree_on_other_lengths(edition: Edition) {
            agree_on(other_lengths, edition, $entries, 0, 500);
        }

        fn agree_on_changed_archives(edition: Edition) {
            agree_on(changed_archives, edition, $entries, 1000, 10000);
        }

        // There are 1, 1, 2, 5 and 14 trees of one to five nodes.
        fn agree_on_all_parent_words(edition: Edition) {
            agree_on(all_parent_words, edition, $entries, 23, 10000);
        }

        fn agree_on_changed_runs(edition: Edition) {
            agree_on(changed_runs, edition, $entries, 1000, 1000);
        }

        fn agree_on_heads(edition: Edition) {
            agree_on(heads, edition, $entries, 0, 1000);
        }

        fn agree_between_the_editions(edition: Edition) {
            agree_on(between_the_editions, edition, $entries, 59, 100000);
        }

        // Of 1,024, 1,025, 2,048 and 2,049 nodes, the first edition takes the first number and
        // edition 2 all but the last.
        fn agree_around_the_limits(edition: Edition) {
            let [accepted, refused] = [[5, 11], [9, 7]][edition.number - 1];
            agree_on(around_the_limits, edition, $entries, accepted, refused);
        }

        tests_of_editions!(
            agree_on_all_plans agree_on_all_labels agree_on_sound_archives
            agree_on_largest_archives agree_on_single_byte_changes agree_on_single_word_changes
            agree_on_other_lengths agree_on_changed_archives agree_on_all_parent_words
            agree_on_changed_runs agree_on_heads agree_between_the_editions
            agree_around_the_limits
        );
    };
}

/// Tests of a side's writers and converters, for each edition.
macro_rules! tests_of_writers {
    ($entries:expr) => {
        fn gets_back_what_is_written(edition: Edition) {
            gets_back_what_is_written_by($entries, edition);
        }

        fn tells_the_same_of_copies(edition: Edition) {
            tells_the_same_of_copies_by($entries, edition);
        }

        tests_of_editions!(gets_back_what_is_written tells_the_same_of_copies);
    };
}

mod with_readers_of_model {
    use super::*;

    tests_of_readers!(&MODEL);
}

mod with_writers_of_model {
    use super::*;

    tests_of_writers!(&MODEL);
}

mod with_readers_of_library {
    use super::*;

    tests_of_readers!(&LIBRARY);
}

mod with_writers_of_library {
    use super::*;

    tests_of_writers!(&LIBRARY);
}
