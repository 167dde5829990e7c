//! Random calls, compared with a list and a map of std.

mod support;

use lasso_proved::{Key, Rodeo, Spur};
use std::collections::HashMap;
use support::{text_of, Numbers};

/// The texts by their positions, and the positions by their texts.
#[derive(Clone, Default)]
struct Model {
    texts: Vec<String>,
    positions: HashMap<String, usize>,
}

impl Model {
    fn intern(&mut self, text: &str) -> usize {
        if let Some(position) = self.positions.get(text) {
            return *position;
        }
        self.positions.insert(text.to_owned(), self.texts.len());
        self.texts.push(text.to_owned());
        self.texts.len() - 1
    }

    fn key(&self, text: &str) -> Option<Spur> {
        self.positions
            .get(text)
            .and_then(|position| Spur::try_from_usize(*position))
    }
}

const LENGTHS: [usize; 9] = [0, 3, 13, 14, 15, 16, 40, 300, 5000];

/// One of 4001 texts: the empty one, and 500 of each of eight lengths.
fn some_text(numbers: &mut Numbers) -> String {
    let number = 100 + numbers.below(500);
    text_of(number, LENGTHS[numbers.below(LENGTHS.len())])
}

fn same_lists(rodeo: &Rodeo, model: &Model) {
    assert_eq!(rodeo.len(), model.texts.len());
    assert!(rodeo.strings().eq(model.texts.iter()));
    assert!(rodeo
        .iter()
        .rev()
        .map(|(key, _)| key.into_usize())
        .eq((0..model.texts.len()).rev()));
}

// Looks a text up, and a position, which may lie past the last text.
fn read(rodeo: &Rodeo, model: &Model, numbers: &mut Numbers) {
    let text = some_text(numbers);
    assert_eq!(rodeo.get(&text), model.key(&text));
    assert_eq!(rodeo.contains(&text), model.positions.contains_key(&text));
    let position = numbers.below(model.texts.len() + 3);
    let key = Spur::try_from_usize(position).unwrap();
    assert_eq!(
        rodeo.try_resolve(&key),
        model.texts.get(position).map(String::as_str)
    );
    assert_eq!(rodeo.contains_key(&key), position < model.texts.len());
}

// A reader and a resolver of the same texts have them, and the reader finds their keys.
fn freeze(rodeo: &Rodeo, model: &Model, numbers: &mut Numbers) {
    let (reader, resolver) = (rodeo.clone().into_reader(), rodeo.clone().into_resolver());
    assert!(reader.strings().eq(model.texts.iter()));
    assert!(reader == *rodeo && resolver == reader);
    for _ in 0..20 {
        let text = some_text(numbers);
        assert_eq!(reader.get(&text), model.key(&text));
    }
    for (key, text) in &reader {
        assert_eq!((reader.resolve(&key), resolver.resolve(&key)), (text, text));
    }
}

#[test]
fn random_calls_do_what_a_list_and_a_map_do() {
    let mut numbers = Numbers(0x1a550);
    let (mut rodeo, mut model) = (Rodeo::default(), Model::default());
    let (mut other, mut other_model) = (Rodeo::default(), Model::default());
    for _ in 0..30_000 {
        match numbers.below(1000) {
            0..=599 => {
                let text = some_text(&mut numbers);
                assert_eq!(rodeo.get_or_intern(&text).into_usize(), model.intern(&text));
            }
            600..=980 => read(&rodeo, &model, &mut numbers),
            981..=986 => same_lists(&rodeo, &model),
            987..=990 => {
                (other, other_model) = (rodeo.clone(), model.clone());
            }
            991..=993 => {
                rodeo.clone_from(&other);
                model = other_model.clone();
            }
            994..=996 => {
                std::mem::swap(&mut rodeo, &mut other);
                std::mem::swap(&mut model, &mut other_model);
            }
            997 => freeze(&rodeo, &model, &mut numbers),
            998 => {
                rodeo.extend(model.texts.iter().rev());
                assert_eq!(rodeo == other, model.texts == other_model.texts);
            }
            _ => {
                rodeo.clear();
                model = Model::default();
            }
        }
    }
    same_lists(&rodeo, &model);
    same_lists(&other, &other_model);
}
