//! The list of the commands: what each takes, and the help.

use crate::commands::{self, Made};
use crate::stop::Stop;
use crate::usage::{Choice, Given, Role, Usage};

/// What makes of a command's words what it makes.
pub type Run = fn(&Usage, &Given) -> Result<Made, Stop>;

/// The help for whoever asks for no command.
pub fn help_of_all() -> String {
    let mut help =
        "Plans how a tree is laid on pages of film, and writes and reads the film.\n\n".to_string();
    for (usage, _) in COMMANDS {
        help += &format!("  balduqen {}\n      {}\n", usage.line(), usage.about);
    }
    help + "\n" + MORE + "\n" + FILES + "\n" + STATUS
}

const MORE: &str = "\
'balduqen help COMMAND' and 'balduqen COMMAND --help' tell more of a command, 'balduqen --version'
tells the version. Behind '--' no word is an option, and '-o=-x' is a value that begins with a dash.
";

const FILES: &str = "\
A TREE is an indented text ('limit K', then a node a line, 'weight label', two spaces of indent a
level; '#' begins a comment) or a table (N and K, then weight, label, first child and next sibling
of each node, in words of 16 bits, high byte first); which of the two, its content tells.
MARKS are a mark a node, as a text or a byte each, or the pages as 'plan' and 'read' list them.
'-' is standard input, and as an output standard output in place of the report.
--marks FILE is read, and --marks-out FILE is written. No file that is read is written over.
";

const STATUS: &str = "\
The exit status is 0 for acceptance, 1 for a refusal, and 2 where a command is not as it should be
or a file cannot be read or written. An output file is written whole or not at all.
";

const OUT: Choice = Choice {
    name: "-o",
    value: "FILE",
    role: Role::Output,
    needed: true,
};

const MAYBE_OUT: Choice = Choice {
    needed: false,
    ..OUT
};

const TREE_OUT: Choice = Choice {
    value: "TREE",
    ..MAYBE_OUT
};

const MARKS_OUT: Choice = Choice {
    name: "--marks-out",
    ..MAYBE_OUT
};

const MARKS: Choice = Choice {
    name: "--marks",
    role: Role::Input,
    ..MAYBE_OUT
};

const SVG: Choice = Choice {
    name: "--svg",
    ..MAYBE_OUT
};

const PAGE: Choice = Choice {
    name: "--page",
    value: "P",
    role: Role::Word,
    needed: false,
};

const PLANNER: Choice = Choice {
    name: "--planner",
    value: "NAME",
    ..PAGE
};

const EDITION: Choice = Choice {
    name: "--edition",
    value: "1|2",
    ..PAGE
};

pub const COMMANDS: &[(Usage, Run)] = &[
    (
        Usage {
            name: "plan",
            operands: &["TREE"],
            choices: &[PLANNER, MARKS, MARKS_OUT, SVG, PAGE],
            about: "plans a tree and lists the pages",
            help: "\
Plans the tree and lists its pages as the page program does: page count, weight of the root page and
limit, then first node, last sibling and weight of each page.

  --planner NAME    best (the fewest pages there can be; without this option), level, single, pair,
                    rightmost or depth-first
  --marks FILE      lists and draws this plan in place of a planner's
  --marks-out FILE  writes the plan as a mark a node: 0 stays with its parent, 1 begins a run, 2
                    continues the run of the sibling just before
  --svg FILE        draws the tree with the plan
  --page P          draws page P only, with the page it is cut from and those cut from it
",
        },
        commands::plan_tree,
    ),
    (
        Usage {
            name: "judge",
            operands: &["TREE", "MARKS"],
            choices: &[],
            about: "judges a plan and lists its pages",
            help: "\
Judges whether the marks are a plan of the tree with no page over the limit, and lists its pages.
",
        },
        commands::judge,
    ),
    (
        Usage {
            name: "write",
            operands: &["TREE"],
            choices: &[MARKS, EDITION, OUT],
            about: "writes the film's archive of a tree and a plan",
            help: "\
Writes the archive of the tree and a plan.

  --marks FILE   the plan; without this option the best plan
  --edition 1|2  1, which takes up to 1024 nodes, without this option; 2 takes up to 2048
  -o FILE        the archive
",
        },
        commands::write,
    ),
    (
        Usage {
            name: "read",
            operands: &["FILE"],
            choices: &[TREE_OUT, MARKS_OUT],
            about: "reads an archive back as its tree and plan",
            help: "\
Reads an archive of either edition, and lists its pages.

  -o TREE           writes the tree: a table where the name ends in '.table', else an indented text
  --marks-out FILE  writes the plan as a mark a node
",
        },
        commands::read,
    ),
    (
        Usage {
            name: "convert",
            operands: &["FILE"],
            choices: &[OUT],
            about: "converts an archive to the other edition",
            help: "\
Writes the tree and the plan of an archive as an archive of the other edition.
",
        },
        commands::convert,
    ),
    (
        Usage {
            name: "sheet",
            operands: &["TREE"],
            choices: &[MARKS, MAYBE_OUT],
            about: "prints a plan as leader sheets",
            help: "\
Prints the leader sheets of a plan: 60 lines of 80 columns each.

  --marks FILE   the plan; without this option the best plan
  -o FILE        writes them to a file
",
        },
        commands::sheet,
    ),
    (
        Usage {
            name: "price",
            operands: &["TREE"],
            choices: &[MARKS],
            about: "tells what a plan costs",
            help: "\
Tells what the film maker asks for a plan's pages, in cents.

  --marks FILE   the plan; without this option the best plan
",
        },
        commands::price,
    ),
    (
        Usage {
            name: "saving",
            operands: &["TREE"],
            choices: &[],
            about: "tells what the best plan costs less than the single-cut plan",
            help: "\
Tells what the best plan costs less than the single planner's, in cents: below 0 where it costs
more, since fewest pages is not lowest price.
",
        },
        commands::saving,
    ),
    (
        Usage {
            name: "verify",
            operands: &["FILE"],
            choices: &[],
            about: "walks an archive by the rule sheet",
            help: "\
Makes the checks of docs/RULE-SHEET.txt on an archive, in their order and by their numbers, and tells
what each found, up to the first that fails. Where all hold, it ends with what no check sees.
",
        },
        commands::verify,
    ),
    (
        Usage {
            name: "dump",
            operands: &["FILE"],
            choices: &[],
            about: "tells each word of an archive with its meaning",
            help: "\
Tells each word of an archive with its meaning, as docs/RULE-SHEET.txt shows it. Where the head or
the length is not that of an archive, the words are told all the same, by what the head says and as
far as an archive can go, and the exit status is 1.
",
        },
        commands::dump,
    ),
    (
        Usage {
            name: "text",
            operands: &["TREE"],
            choices: &[MAYBE_OUT],
            about: "writes a tree as an indented text",
            help: "\
Writes the tree as an indented text, on standard output or to a file. A node over the limit and a
label 0 are written like others.
",
        },
        commands::make_text,
    ),
    (
        Usage {
            name: "table",
            operands: &["TREE"],
            choices: &[MAYBE_OUT],
            about: "writes a tree as a table",
            help: "\
Writes the tree as a table, on standard output or to a file. A node over the limit and a label 0 are
written like others.
",
        },
        commands::make_table,
    ),
    (
        Usage {
            name: "svg",
            operands: &["TREE", "MARKS"],
            choices: &[PAGE, MAYBE_OUT],
            about: "draws a tree with a plan",
            help: "\
Draws the tree with a plan, on standard output or to a file. Pages over the limit are flagged.

  --page P   draws page P only, with the page it is cut from and those cut from it
  -o FILE    writes the picture to a file
",
        },
        commands::make_svg,
    ),
];
