//! A part of a tree as an image of its own, which costs the library no more than the part: it reads an image in full.

use crate::tree::{word, ATTRIBUTE, HEADER, NODE, NO_NODE};
use std::collections::HashMap;

/// A node's record.
fn record(image: &[u8], node: u32) -> [u32; 12] {
    let at = HEADER + node as usize * NODE;
    std::array::from_fn(|k| word(image, at + 4 * k))
}

fn push(bytes: &mut Vec<u8>, words: &[u32]) {
    for it in words {
        bytes.extend_from_slice(&it.to_le_bytes());
    }
}

/// The numbers of a node and of all nodes in it, the contents of a template just behind it; none if they are more than `most`.
pub(crate) fn inside(image: &[u8], top: u32, most: usize) -> Option<Vec<u32>> {
    let (mut found, mut waiting) = (Vec::new(), vec![top]);
    while let Some(node) = waiting.pop() {
        if found.len() > most {
            return None;
        }
        found.push(node);
        let words = record(image, node);
        let mut children = |holder: &[u32; 12]| {
            let mut child = holder[2];
            while child != NO_NODE {
                waiting.push(child);
                child = record(image, child)[5];
            }
        };
        children(&words);
        if words[0] & 255 == 1 && words[10] != NO_NODE {
            found.push(words[10]);
            children(&record(image, words[10]));
        }
    }
    Some(found)
}

/// The image of a document in which there are these nodes alone, the first of them as its child. `bare`: without its attributes.
pub(crate) fn copy(image: &[u8], nodes: &[u32], bare: bool) -> Vec<u8> {
    let news: HashMap<u32, u32> = nodes.iter().zip(1..).map(|(&node, new)| (node, new)).collect();
    let new = |node: u32| news.get(&node).copied().unwrap_or(NO_NODE);
    let old_attributes = HEADER + word(image, 8) as usize;
    let old_texts = old_attributes + word(image, 12) as usize;
    let (mut records, mut attributes, mut texts) = (Vec::new(), Vec::new(), Vec::new());
    push(&mut records, &[9, NO_NODE, 1, 1, NO_NODE, NO_NODE, 0, 0, 0, 0, 0, 0]);
    for &node in nodes {
        let mut words = record(image, node);
        let (kind, begin) = (words[0] & 255, words[6]);
        let place = texts.len() as u32;
        let moved = |at: u32| at - begin + place;
        let mut end = begin + words[7];
        match kind {
            1 => {
                let from = old_attributes + words[8] as usize;
                let count = if bare && node == nodes[0] { 0 } else { words[9] };
                (words[8], words[9], words[10]) = (attributes.len() as u32, count, new(words[10]));
                for k in 0..count as usize {
                    let [name_at, name, value_at, value, namespace, prefix] =
                        std::array::from_fn(|word_of| word(image, from + k * ATTRIBUTE + 4 * word_of));
                    push(&mut attributes, &[moved(name_at), name, moved(value_at), value, namespace, prefix]);
                    end = value_at + value;
                }
            }
            7 => {
                end = words[8] + words[9];
                words[8] = moved(words[8]);
            }
            10 => {
                end = words[10] + words[11];
                words[8] = moved(words[8]);
                words[10] = moved(words[10]);
            }
            _ => {}
        }
        for link in &mut words[1..6] {
            *link = new(*link);
        }
        if node == nodes[0] {
            words[1] = 0;
        }
        words[6] = if kind == 11 { 0 } else { place };
        push(&mut records, &words);
        texts.extend_from_slice(&image[old_texts + begin as usize..old_texts + end as usize]);
    }
    let mut made = b"FIGT".to_vec();
    push(&mut made, &[1, records.len() as u32, attributes.len() as u32, texts.len() as u32, 0, 0, 0]);
    for part in [records, attributes, texts] {
        made.extend_from_slice(&part);
    }
    made
}
