//! The tutorial's two pairs, and changed ones. What is expected are the numbers of `docs/TUTORIAL.md` and `docs/FORMATS.md`.

use crate::{verify, Accepted, BadImage, Reason, Rejection, Rule};
use std::thread;

const IMAGE: &[u8] = include_bytes!("../../../tests/pairs/visitors.img");
const GRAPH: &[u8] = include_bytes!("../../../tests/pairs/visitors.graph");
const LISTED_IMAGE: &[u8] = include_bytes!("../../../tests/pairs/plugin.img");
const LISTED_GRAPH: &[u8] = include_bytes!("../../../tests/pairs/plugin.graph");
const LEAF_IMAGE: &[u8] = include_bytes!("../../../tests/pairs/leaf.img");
const LEAF_GRAPH: &str = include_str!("../../../tests/pairs/leaf.graph");
const CODE: u64 = 0x4000_0000;
const CODE_AT: usize = 0x1000;
const CODE_LENGTH: usize = 2420;
const LISTED_LENGTH: usize = 2532;

/// The visitors' image with the bytes from an offset on changed.
fn changed(offset: usize, bytes: &[u8]) -> Vec<u8> {
    let mut image = IMAGE.to_vec();
    image[offset..offset + bytes.len()].copy_from_slice(bytes);
    image
}

/// Their graph with a text in place of another one.
fn with(text: &str, other: &str) -> Vec<u8> {
    let graph = String::from_utf8(GRAPH.to_vec()).unwrap();
    assert!(graph.contains(text));
    graph.replacen(text, other, 1).into_bytes()
}

/// Why a pair is rejected, and that its words are these.
fn rejection(image: &[u8], graph: &[u8], words: &str) -> Rejection {
    let rejection = verify(image, graph).unwrap_err();
    assert_eq!(rejection.to_string(), words);
    rejection
}

#[test]
fn accepted_pair_has_the_parts_of_its_file() {
    let accepted = verify(IMAGE, GRAPH).unwrap();
    assert_eq!(accepted.code().address, CODE);
    assert_eq!(
        accepted.code().bytes,
        &IMAGE[CODE_AT..CODE_AT + CODE_LENGTH]
    );
    assert_eq!(accepted.data().address, 0x10000);
    assert_eq!(accepted.data().bytes, &IMAGE[0x2000..0x2000 + 151]);
    assert_eq!(accepted.code_region(), CODE..0x4010_0000);
    assert_eq!(accepted.data_region(), 0..0x1000_1000);
    assert_eq!(accepted.shadow_region(), 0x6000_0000..0x6001_0000);
    assert_eq!(accepted.entry(), 0x4000_000c);
    assert_eq!((accepted.version(), accepted.harts()), (1, 1));
}

#[test]
fn lean_pair_is_accepted_or_told_by_its_own_rule() {
    verify(LEAF_IMAGE, LEAF_GRAPH.as_bytes()).unwrap();
    // The leaf begins inside a unit.
    let graph = LEAF_GRAPH.replace("leaf 40000074", "leaf 40000070");
    let rejection = rejection(LEAF_IMAGE, graph.as_bytes(), "rejected Leaf 40000070");
    let rule = Rule::Leaf;
    let address = 0x4000_0070;
    assert_eq!(rejection, Rejection::Rule { rule, address });
}

#[test]
fn image_without_data_has_an_empty_part() {
    let image = &changed(96, &[0])[..0x2000];
    let accepted = verify(image, GRAPH).unwrap();
    assert_eq!(accepted.data().bytes, &[]);
    assert_eq!(accepted.code().bytes.len(), CODE_LENGTH);
}

#[test]
fn image_for_eight_harts_is_of_version_2() {
    let image = changed(218, &[8]);
    let plan = crate::ffi::plan(&image).unwrap();
    let accepted = Accepted {
        image: &image,
        plan,
        calls: None,
    };
    assert_eq!((accepted.version(), accepted.harts()), (2, 8));
    assert_eq!(accepted.shadow_region(), 0x6000_0000..0x6008_0000);
}

#[test]
fn list_is_the_graphs() {
    assert_eq!(verify(IMAGE, GRAPH).unwrap().calls(), None);
    let plugin = verify(LISTED_IMAGE, LISTED_GRAPH).unwrap();
    assert_eq!(plugin.calls(), Some(&[63, 64, 93][..]));
}

#[test]
fn images_that_are_none() {
    let short = Rejection::Image(BadImage::Short(231));
    assert_eq!(
        rejection(&IMAGE[..231], GRAPH, "refused 22 Short 231"),
        short
    );
    rejection(b"", b"", "refused 22 Short 0");
    let byte = Rejection::Image(BadImage::Byte(124));
    assert_eq!(
        rejection(&changed(124, &[7]), GRAPH, "refused 22 Byte 124"),
        byte
    );
    let longer = [IMAGE, b"\0"].concat();
    let long = Rejection::Image(BadImage::Long(8344));
    assert_eq!(rejection(&longer, GRAPH, "refused 22 Long 8344"), long);
}

#[test]
fn graphs_that_are_none() {
    let cases = [
        (with("rvcfi-graph 1", "rvcfi-graph 4"), 1, Reason::Form),
        (with("00000974", "00000975"), 2, Reason::Range),
        (
            with("4000042c 400004bc", "400004bc 4000042c"),
            3,
            Reason::Order,
        ),
    ];
    for (graph, line, reason) in cases {
        let words = format!("refused 23 Graph {line} {reason:?}");
        assert_eq!(
            rejection(IMAGE, &graph, &words),
            Rejection::Graph { line, reason }
        );
    }
}

#[test]
fn lengths_that_differ() {
    let length = Rejection::Length {
        code: 2532,
        graph: 2420,
    };
    assert_eq!(
        rejection(LISTED_IMAGE, GRAPH, "rejected Length 2532 2420"),
        length
    );
}

/// A stop, which is `jal x0` to the first address of the code, at an address.
fn stop_at(address: u64) -> [u8; 4] {
    let offset = (CODE.wrapping_sub(address)) as u32;
    let word = 0x6f
        | (offset >> 12 & 0xff) << 12
        | (offset >> 11 & 1) << 20
        | (offset >> 1 & 0x3ff) << 21
        | (offset >> 20 & 1) << 31;
    word.to_le_bytes()
}

/// Where the bytes of an address stand in the file.
fn at(address: u64) -> usize {
    CODE_AT + (address - CODE) as usize
}

/// That a pair is rejected by a rule at an address.
fn is_rejected(image: &[u8], graph: &[u8], rule: Rule, address: u64) {
    let words = format!("rejected {rule:?} {address:08x}");
    let rejected = rejection(image, graph, &words);
    assert_eq!(rejected, Rejection::Rule { rule, address });
}

#[test]
fn rules_that_fail_by_a_word_of_code() {
    let last = CODE + CODE_LENGTH as u64 - 4;
    assert_eq!(&IMAGE[at(last)..at(last) + 4], &stop_at(last));
    let (nop, gate_of_class_1) = (0x0000_0013u32, 0x0000_1037u32);
    for (address, word, rule) in [
        (0x4000_0038, nop, Rule::Prologue),
        (0x4000_0040, 0, Rule::Unit),
        (0x4000_0040, gate_of_class_1, Rule::Astray),
        (last, nop, Rule::End),
    ] {
        let image = changed(at(address), &word.to_le_bytes());
        is_rejected(&image, GRAPH, rule, address);
    }
}

#[test]
fn rules_that_fail_by_a_line_of_the_graph() {
    let targets = "4000042c 400004bc";
    for (text, other, rule, address) in [
        ("edge 40000968 40000758\n", "", Rule::Unlisted, 0x4000_0968),
        (
            "end\n",
            "edge 40000970 40000040\nend\n",
            Rule::Unused,
            0x4000_0970,
        ),
        ("site 400006fc call 00001\n", "", Rule::Site, 0x4000_06fc),
        (
            targets,
            "40000214 4000042c 400004bc",
            Rule::Gate,
            0x4000_0214,
        ),
    ] {
        is_rejected(IMAGE, &with(text, other), rule, address);
    }
}

#[test]
fn each_bit_of_code_has_a_verdict() {
    let code = CODE..CODE + CODE_LENGTH as u64;
    let mut image = IMAGE.to_vec();
    let (mut accepted, mut rejected) = (0, 0);
    for bit in 0..CODE_LENGTH * 8 {
        image[CODE_AT + bit / 8] ^= 1 << (bit % 8);
        match verify(&image, GRAPH) {
            Ok(_) => accepted += 1,
            Err(Rejection::Rule { address, .. }) if code.contains(&address) => rejected += 1,
            Err(other) => panic!("bit {bit}: {other}"),
        }
        image[CODE_AT + bit / 8] ^= 1 << (bit % 8);
    }
    assert_eq!(accepted + rejected, 19_360);
    assert!(accepted > 0 && rejected > accepted);
}

#[test]
fn threads_of_small_stacks() {
    let ask = |turn: usize| {
        for _ in 0..100 {
            match turn % 2 {
                0 => assert!(verify(IMAGE, GRAPH).is_ok()),
                _ => assert!(verify(&LISTED_IMAGE[..LISTED_LENGTH], LISTED_GRAPH).is_err()),
            }
        }
    };
    let threads: Vec<_> = (0..4)
        .map(|turn| {
            thread::Builder::new()
                .stack_size(64 << 10)
                .spawn(move || ask(turn))
                .unwrap()
        })
        .collect();
    for thread in threads {
        thread.join().unwrap();
    }
}

#[test]
fn want_of_memory_says_nothing_of_the_texts() {
    let verdict = crate::ffi::Verdict {
        outcome: 4,
        ..Default::default()
    };
    assert_eq!(Rejection::of(&verdict), Some(Rejection::NoMemory));
    assert_eq!(Rejection::NoMemory.to_string(), "no memory");
}
