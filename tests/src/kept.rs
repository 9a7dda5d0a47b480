//! Film kept as bytes, with the tables and plans that the library wrote it from and its verdicts:
//! film with labels 0 from before 14 was refused, which no library since then can make anew, and
//! film from before weights of 0 were taken, which every library since then has to make as it is.
//! Some of the latter is there in edition 2, too, worked out by hand from request Six before there
//! was a library that writes it.

use crate::model::Answer;

pub struct Kept {
    pub name: &'static str,
    pub table: Vec<u8>,
    pub marks: Vec<u8>,
    pub archive: Vec<u8>,
    pub verdict: Answer,
    /// The first node with label 0; zero if there is none.
    pub unfiled: usize,
}

/// The bytes of words in base 16. Below, a head has a line of its own, page records and node
/// records begin a line, and a wider gap stands between two records.
fn bytes(words: &str) -> Vec<u8> {
    let word = |word| u16::from_str_radix(word, 16).expect("a word in base 16");
    let words = words.split_whitespace().map(word);
    words.flat_map(u16::to_be_bytes).collect()
}

/// Film with labels 0: at the only node, at one in the middle, at the last one, and at several with
/// node 1 among them. The plan of the third is the level planner's, the others are best's.
pub fn kept() -> [Kept; 4] {
    [
        Kept {
            name: "one node",
            table: bytes(
                "
                0001 0005
                0004 0000 0000 0000
            ",
            ),
            marks: vec![1],
            archive: bytes(
                "
                0001 0005 0001
                0001 0001 0004 0000
                0004 0000 0000 0000
            ",
            ),
            verdict: Answer::accepted(1, 4),
            unfiled: 1,
        },
        Kept {
            name: "the example of two pages on the rule sheet",
            table: bytes(
                "
                0007 000e
                0003 012c 0002 0000  0004 0014 0003 0005  0001 0000 0000 0004  0005 0007 0000 0000
                0002 0014 0006 0007  0001 0009 0000 0000  0002 002c 0000 0000
            ",
            ),
            marks: vec![1, 1, 0, 0, 2, 0, 0],
            archive: bytes(
                "
                0007 000e 0002
                0001 0001 0005 0002  0002 0005 000d 0000
                0003 012c 0000 0007  0004 0014 0001 0003  0001 0000 0002 0004  0005 0007 0002 0005
                0002 0014 0001 0006  0001 0009 0005 0000  0002 002c 0001 0000
            ",
            ),
            verdict: Answer::accepted(2, 5),
            unfiled: 3,
        },
        Kept {
            name: "the last node of case E",
            table: bytes(
                "
                0006 0005
                0005 0001 0002 0000  0002 0002 0000 0003  0001 0003 0004 0006  0002 0004 0000 0005
                0002 0005 0000 0000  0001 0000 0000 0000
            ",
            ),
            marks: vec![1, 1, 1, 0, 0, 1],
            archive: bytes(
                "
                0006 0005 0004
                0001 0001 0005 0002  0002 0002 0002 0003  0003 0003 0005 0004  0006 0006 0001 0000
                0005 0001 0000 0000  0002 0002 0001 0000  0001 0003 0001 0004  0002 0004 0003 0005
                0002 0005 0003 0000  0001 0000 0001 0000
            ",
            ),
            verdict: Answer::accepted(4, 5),
            unfiled: 6,
        },
        Kept {
            name: "forty nodes",
            table: bytes(
                "
                0028 0014
                0005 0000 0002 0000  0001 0000 0000 0003  0003 0100 0004 000a  0003 00ff 0000 0005
                0008 35e8 0000 0006  0008 da16 0000 0007  0004 0f43 0000 0008  0008 c899 0000 0009
                0007 7368 0000 0000  0001 ca82 000b 000c  0004 31a2 0000 0000  0005 8df1 000d 0010
                0006 ae2c 000e 0000  0005 7af2 0000 000f  0009 9b91 0000 0000  0005 a730 0011 0012
                0005 0000 0000 0000  0009 9b56 0000 0013  0009 5eed 0014 0015  0006 512f 0000 0000
                0007 abc0 0016 0019  0005 039d 0000 0017  0006 030d 0000 0018  0003 3a04 0000 0000
                0003 9d4e 0000 001a  0008 76bf 0000 001b  0009 82c1 0000 001c  0002 2cad 001d 001e
                0009 cc95 0000 0000  0007 aa0a 001f 0022  0005 838b 0000 0020  0005 8efd 0021 0000
                0004 5ff4 0000 0000  0006 bcaf 0023 0025  0004 621b 0000 0024  0008 7dc6 0000 0000
                0004 436f 0026 0000  0009 8b8e 0000 0027  0004 f00f 0000 0028  0007 0000 0000 0000
            ",
            ),
            marks: vec![
                1, 1, 2, 1, 2, 2, 1, 2, 2, 2, 0, 2, 1, 0, 0, 1, 0, 2, 1, 0, 1, 1, 2, 2, 2, 2, 1, 2,
                0, 0, 1, 2, 0, 1, 0, 0, 0, 1, 2, 2,
            ],
            archive: bytes(
                "
                0028 0014 000d
                0001 0001 0010 0002  0002 000c 000e 0003  0004 0006 0013 0004  0007 0009 0013 0005
                000d 000d 0014 0006  0010 0012 0013 0007  0013 0013 000f 0008  0015 001a 0012 0009
                0016 0018 000e 000a  001b 001c 0014 000b  001f 0020 000e 000c  0022 0022 0012 000d
                0026 0028 0014 0000
                0005 0000 0000 001e  0001 0000 0001 0003  0003 0100 0001 000a  0003 00ff 0003 0005
                0008 35e8 0003 0006  0008 da16 0003 0000  0004 0f43 0003 0008  0008 c899 0003 0009
                0007 7368 0003 0000  0001 ca82 0001 000b  0004 31a2 000a 000c  0005 8df1 0001 0000
                0006 ae2c 000c 000e  0005 7af2 000d 000f  0009 9b91 000d 0000  0005 a730 0001 0011
                0005 0000 0010 0012  0009 9b56 0001 0000  0009 5eed 0001 0014  0006 512f 0013 0000
                0007 abc0 0001 0019  0005 039d 0015 0017  0006 030d 0015 0018  0003 3a04 0015 0000
                0003 9d4e 0001 001a  0008 76bf 0001 0000  0009 82c1 0001 001c  0002 2cad 0001 001d
                0009 cc95 001c 0000  0007 aa0a 0001 0025  0005 838b 001e 0020  0005 8efd 001e 0021
                0004 5ff4 0020 0000  0006 bcaf 0001 0023  0004 621b 0022 0024  0008 7dc6 0022 0000
                0004 436f 0001 0000  0009 8b8e 0025 0027  0004 f00f 0025 0028  0007 0000 0025 0000
            ",
            ),
            verdict: Answer::accepted(13, 16),
            unfiled: 1,
        },
    ]
}

/// Film without a label 0. The plan of the last is the rightmost planner's, the others are best's.
pub fn kept_filed() -> [Kept; 5] {
    [
        Kept {
            name: "case E",
            table: bytes(
                "
                0006 0005
                0005 0001 0002 0000  0002 0002 0000 0003  0001 0003 0004 0006  0002 0004 0000 0005
                0002 0005 0000 0000  0001 0006 0000 0000
            ",
            ),
            marks: vec![1, 1, 2, 1, 2, 2],
            archive: bytes(
                "
                0006 0005 0003
                0001 0001 0005 0002  0002 0006 0004 0003  0004 0005 0004 0000
                0005 0001 0000 0000  0002 0002 0001 0003  0001 0003 0001 0006  0002 0004 0003 0005
                0002 0005 0003 0000  0001 0006 0001 0000
            ",
            ),
            verdict: Answer::accepted(3, 5),
            unfiled: 0,
        },
        Kept {
            name: "one node of the highest limit",
            table: bytes(
                "
                0001 0400
                0400 ffff 0000 0000
            ",
            ),
            marks: vec![1],
            archive: bytes(
                "
                0001 0400 0001
                0001 0001 0400 0000
                0400 ffff 0000 0000
            ",
            ),
            verdict: Answer::accepted(1, 1024),
            unfiled: 0,
        },
        Kept {
            name: "a page for each of a chain",
            table: bytes(
                "
                0004 0001
                0001 0100 0002 0000  0001 0001 0003 0000  0001 ff00 0004 0000  0001 0002 0000 0000
            ",
            ),
            marks: vec![1, 1, 1, 1],
            archive: bytes(
                "
                0004 0001 0004
                0001 0001 0001 0002  0002 0002 0001 0003  0003 0003 0001 0004  0004 0004 0001 0000
                0001 0100 0000 0000  0001 0001 0001 0000  0001 ff00 0002 0000  0001 0002 0003 0000
            ",
            ),
            verdict: Answer::accepted(4, 1),
            unfiled: 0,
        },
        Kept {
            name: "sixteen nodes",
            table: bytes(
                "
                0010 000c
                0004 012c 0002 0000  0003 0011 0003 0005  0005 ffff 0000 0004  0002 0100 0000 0000
                0006 00ff 0006 000a  0001 1234 0007 0009  0007 0008 0000 0008  0002 0009 0000 0000
                0003 0fff 0000 0000  0001 0001 000b 000e  0009 8000 0000 000c  0004 000c 0000 000d
                0002 004d 0000 0000  0005 0014 000f 0010  0008 0014 0000 0000  0006 0015 0000 0000
            ",
            ),
            marks: vec![1, 1, 0, 0, 1, 1, 0, 0, 0, 1, 1, 0, 0, 2, 1, 0],
            archive: bytes(
                "
                0010 000c 0007
                0001 0001 000a 0002  0002 0002 000a 0003  0005 0005 0009 0004  0006 0006 000a 0005
                000a 000e 000c 0006  000b 000b 0009 0007  000f 000f 0008 0000
                0004 012c 0000 0010  0003 0011 0001 0003  0005 ffff 0002 0004  0002 0100 0002 0000
                0006 00ff 0001 0009  0001 1234 0005 0007  0007 0008 0006 0008  0002 0009 0006 0000
                0003 0fff 0005 0000  0001 0001 0001 000c  0009 8000 000a 0000  0004 000c 000a 000d
                0002 004d 000a 000e  0005 0014 0001 0000  0008 0014 000e 0000  0006 0015 0001 0000
            ",
            ),
            verdict: Answer::accepted(7, 10),
            unfiled: 0,
        },
        Kept {
            name: "sixteen nodes, runs of last children",
            table: bytes(
                "
                0010 000c
                0004 012c 0002 0000  0003 0011 0003 0005  0005 ffff 0000 0004  0002 0100 0000 0000
                0006 00ff 0006 000a  0001 1234 0007 0009  0007 0008 0000 0008  0002 0009 0000 0000
                0003 0fff 0000 0000  0001 0001 000b 000e  0009 8000 0000 000c  0004 000c 0000 000d
                0002 004d 0000 0000  0005 0014 000f 0010  0008 0014 0000 0000  0006 0015 0000 0000
            ",
            ),
            marks: vec![1, 1, 0, 0, 1, 1, 0, 0, 1, 1, 0, 1, 2, 1, 1, 2],
            archive: bytes(
                "
                0010 000c 0009
                0001 0001 0004 0002  0002 0002 000a 0003  0005 0005 0006 0004  0006 0006 000a 0005
                0009 0009 0003 0006  000a 000a 000a 0007  000c 000d 0006 0008  000e 0010 000b 0009
                000f 000f 0008 0000
                0004 012c 0000 0000  0003 0011 0001 0003  0005 ffff 0002 0004  0002 0100 0002 0000
                0006 00ff 0001 0000  0001 1234 0005 0007  0007 0008 0006 0008  0002 0009 0006 0000
                0003 0fff 0005 0000  0001 0001 0001 000b  0009 8000 000a 0000  0004 000c 000a 000d
                0002 004d 000a 0000  0005 0014 0001 0010  0008 0014 000e 0000  0006 0015 0001 0000
            ",
            ),
            verdict: Answer::accepted(9, 4),
            unfiled: 0,
        },
    ]
}

/// Film of `kept_filed` in edition 2. On that of sixteen nodes, pages have nodes in their runs and
/// below these.
pub fn by_hand() -> [(Kept, Vec<u8>); 3] {
    let film = |name: &str| {
        let mut kept = kept_filed().into_iter();
        kept.find(|film| film.name == name).expect(name)
    };
    [
        (
            film("one node of the highest limit"),
            bytes(
                "
                2002 0001 0400 0001
                0001 0001 0400 0000 0001
                0400 ffff 0000 0000
            ",
            ),
        ),
        (
            film("a page for each of a chain"),
            bytes(
                "
                2002 0004 0001 0004
                0001 0001 0001 0002 0001  0002 0002 0001 0003 0001  0003 0003 0001 0004 0001
                0004 0004 0001 0000 0001
                0001 0100 0000 0000  0001 0001 0001 0000  0001 ff00 0002 0000  0001 0002 0003 0000
            ",
            ),
        ),
        (
            film("sixteen nodes"),
            bytes(
                "
                2002 0010 000c 0007
                0001 0001 000a 0002 0002  0002 0002 000a 0003 0003  0005 0005 0009 0004 0002
                0006 0006 000a 0005 0003  000a 000e 000c 0006 0004  000b 000b 0009 0007 0001
                000f 000f 0008 0000 0001
                0004 012c 0000 0010  0003 0011 0001 0003  0005 ffff 0002 0004  0002 0100 0002 0000
                0006 00ff 0001 0009  0001 1234 0005 0007  0007 0008 0006 0008  0002 0009 0006 0000
                0003 0fff 0005 0000  0001 0001 0001 000c  0009 8000 000a 0000  0004 000c 000a 000d
                0002 004d 000a 000e  0005 0014 0001 0000  0008 0014 000e 0000  0006 0015 0001 0000
            ",
            ),
        ),
    ]
}
