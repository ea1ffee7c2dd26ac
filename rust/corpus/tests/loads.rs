//! Inputs for measurements are what they are said to be.

use corpus::format::{H, I, MAX_FILE};
use corpus::loads::{grown, scenes, slow};
use corpus::tree::File;
use corpus::Rng;

fn number(file: &[u8]) -> u32 {
    let mut table = vec![0; reference::TABLE_NUMBERS];
    reference::read(file, &mut table).number
}

#[test]
fn scenes_have_as_many_nodes_as_asked_for() {
    let mut rng = Rng::new(1);
    for nodes in [128, 1_024] {
        let files: [File; 6] = [
            scenes::bare(nodes),
            scenes::unknown(nodes, 16),
            scenes::mixed(&mut rng, nodes),
            scenes::descending_bones(&mut rng, nodes),
            scenes::many_targets(&mut rng, nodes),
            scenes::curves(nodes, 20),
        ];
        for file in files {
            assert_eq!(file.nodes().len(), nodes);
            assert_eq!(number(&file.bytes()), 0);
        }
    }
}

#[test]
fn grown_files_are_as_long_as_asked_for() {
    let mut rng = Rng::new(2);
    let length = 1 << 20;
    let files: [File; 4] = [
        grown::vertices(length),
        grown::faces(&mut rng, H, length),
        grown::faces(&mut rng, I, length),
        grown::string(length),
    ];
    for file in files {
        let bytes = file.bytes();
        assert!(bytes.len() <= length && bytes.len() > length - 400);
        assert_eq!(number(&bytes), 0);
        assert_eq!(number(&grown::noted(file).bytes()), 0);
    }
}

#[test]
fn slow_files_are_refused_where_their_names_say_so() {
    for (name, make) in slow::ALL {
        let bytes = make(&mut Rng::new(3)).bytes();
        assert!(bytes.len() <= MAX_FILE, "{name}");
        assert_eq!(number(&bytes) != 0, name.ends_with(": refused"), "{name}");
    }
}
