//! Samples A to G of document 01, D's wet entries as W-201 has them: lists, records and the call, and
//! F's bytes and text.

use second::ground::{Basin, Cell, Ground, Size};
use second::network::{network, network_of_lists, Network};
use second::{call, network_record, record, text};

/// A sample: the ground, then the network.
struct Sample {
    name: &'static str,
    size: (usize, usize),
    heights: &'static [i32],
    outlets: &'static [usize],
    water: &'static [u16],
    receivers: &'static [u16],
    basins: &'static [u16],
    order: &'static [u16],
    levels: &'static [i32],
    drainage: &'static [u32],
    wet: &'static [u8],
}

const SAMPLES: [Sample; 7] = [
    Sample {
        name: "A",
        size: (1, 1),
        heights: &[5],
        outlets: &[0],
        water: &[1],
        receivers: &[0],
        basins: &[0],
        order: &[0],
        levels: &[5],
        drainage: &[1],
        wet: &[0],
    },
    Sample {
        name: "B",
        size: (5, 1),
        heights: &[0, 3, 1, 4, 2],
        outlets: &[0],
        water: &[1; 5],
        receivers: &[0, 0, 1, 2, 3],
        basins: &[0, 0, 1, 1, 2],
        order: &[0, 1, 2, 3, 4],
        levels: &[0, 3, 3, 4, 4],
        drainage: &[5, 4, 3, 2, 1],
        wet: &[0, 0, 1, 0, 1],
    },
    Sample {
        name: "C",
        size: (4, 1),
        heights: &[2, 5, 1, 0],
        outlets: &[0],
        water: &[1; 4],
        receivers: &[0, 0, 1, 2],
        basins: &[0, 1, 1, 1],
        order: &[0, 1, 2, 3],
        levels: &[2, 5, 5, 5],
        drainage: &[4, 3, 2, 1],
        wet: &[0, 0, 1, 1],
    },
    Sample {
        name: "D",
        size: (3, 3),
        heights: &[0; 9],
        outlets: &[0, 8],
        water: &[1; 9],
        receivers: &[0, 0, 1, 0, 1, 2, 3, 4, 8],
        basins: &[0, 1, 2, 3, 4, 5, 6, 7, 8],
        order: &[0, 1, 2, 5, 4, 7, 3, 6, 8],
        levels: &[0; 9],
        drainage: &[8, 5, 2, 2, 2, 1, 1, 1, 1],
        wet: &[0; 9],
    },
    Sample {
        name: "E",
        size: (3, 1),
        heights: &[0, 5, 0],
        outlets: &[0, 2],
        water: &[1; 3],
        receivers: &[0, 0, 2],
        basins: &[0, 0, 1],
        order: &[0, 1, 2],
        levels: &[0, 5, 0],
        drainage: &[2, 1, 1],
        wet: &[0, 0, 0],
    },
    Sample {
        name: "F",
        size: (2, 1),
        heights: &[-3, 4],
        outlets: &[1],
        water: &[2, 3],
        receivers: &[1, 1],
        basins: &[0, 1],
        order: &[1, 0],
        levels: &[4, 4],
        drainage: &[2, 5],
        wet: &[1, 0],
    },
    Sample {
        name: "G",
        size: (6, 1),
        heights: &[7, 1, 3, 2, 5, 0],
        outlets: &[0, 5],
        water: &[1; 6],
        receivers: &[0, 2, 3, 4, 5, 5],
        basins: &[0, 1, 1, 2, 3, 3],
        order: &[0, 5, 4, 3, 2, 1],
        levels: &[7, 5, 5, 5, 5, 0],
        drainage: &[1, 1, 2, 3, 4, 5],
        wet: &[0, 1, 1, 1, 0, 0],
    },
];

const F_RECORD: [u8; 30] = [
    0xFD, 0xFF, 0xFF, 0xFF, 0x04, 0x00, 0x00, 0x00, 0x00, 0x01, 0x02, 0x00, 0x03, 0x00, 0x02, 0x00,
    0x01, 0x00, 0x0E, 0x00, 0x00, 0x00, 0x06, 0x00, 0x00, 0x00, 0x04, 0x00, 0x00, 0x00,
];

impl Sample {
    fn ground(&self) -> Ground {
        let (width, height) = self.size;
        let mut marks = vec![0; width * height];
        for &outlet in self.outlets {
            marks[outlet] = 1;
        }
        Ground {
            size: Size { width, height },
            heights: self.heights.to_vec(),
            marks,
            water: self.water.to_vec(),
        }
    }

    fn network(&self) -> Network {
        Network {
            receivers: self.receivers.iter().map(|&cell| Cell(cell)).collect(),
            basins: self.basins.iter().map(|&basin| Basin(basin)).collect(),
            order: self.order.iter().map(|&cell| Cell(cell)).collect(),
            levels: self.levels.to_vec(),
            drainage: self.drainage.to_vec(),
            wet: self.wet.to_vec(),
        }
    }
}

fn sample(name: &str) -> &'static Sample {
    SAMPLES.iter().find(|sample| sample.name == name).unwrap()
}

#[test]
fn each_sample_has_the_network_of_document_01() {
    for sample in &SAMPLES {
        let found = network_of_lists(&sample.ground());
        assert_eq!(found, Ok(sample.network()), "sample {}", sample.name);
    }
}

#[test]
fn each_sample_goes_through_its_record_and_back() {
    for sample in &SAMPLES {
        let ground = sample.ground();
        let mut bytes = vec![0; record::length(ground.size)];
        assert_eq!(record::write(&ground, &mut bytes), Ok(bytes.len()));
        assert_eq!(record::check(&bytes), Ok(ground.size));
        assert_eq!(record::read(&bytes), Ok(ground), "sample {}", sample.name);
    }
}

#[test]
fn each_sample_is_written_by_the_call() {
    for sample in &SAMPLES {
        let ground = sample.ground();
        let wanted = network_record::bytes(&sample.network(), ground.size);
        let mut room = vec![0xA5; wanted.len() + 3];
        let answer = call(&record::bytes(&ground), &mut room);
        assert_eq!(answer as usize, wanted.len(), "sample {}", sample.name);
        assert_eq!(room[..wanted.len()], wanted, "sample {}", sample.name);
        assert_eq!(room[wanted.len()..], [0xA5; 3], "sample {}", sample.name);
    }
}

#[test]
fn f_is_the_record_of_document_01() {
    assert_eq!(record::bytes(&sample("F").ground()), F_RECORD);
    assert_eq!(record::read(&F_RECORD), Ok(sample("F").ground()));
}

#[test]
fn f_is_printed_as_in_document_01() {
    let wanted = "tile 2 1\n0 1 4 2\n1 1 4 5\nout 5 of 5\n";
    assert_eq!(text::text(&F_RECORD), wanted);
}

#[test]
fn the_network_record_of_f_byte_for_byte() {
    let mut room = [0; 58];
    assert_eq!(call(&F_RECORD, &mut room), 58);
    let sections = [
        1, 0, 1, 0, // receivers
        0, 0, 1, 0, // basins
        1, 0, 0, 0, // order
        4, 0, 0, 0, 4, 0, 0, 0, // levels
        2, 0, 0, 0, 5, 0, 0, 0, // drainage
        1, 0, // wet
    ];
    let trailer = [
        2, 0, 1, 0, // width, height
        30, 0, 0, 0, 26, 0, 0, 0, 22, 0, 0, 0, 18, 0, 0, 0, 10, 0, 0, 0, 2, 0, 0, 0,
    ];
    assert_eq!(room[..30], sections);
    assert_eq!(room[30..], trailer);
}

#[test]
fn an_inner_basin_between_two_outlets_has_one_way_out() {
    let ground = Ground {
        size: Size {
            width: 3,
            height: 1,
        },
        heights: vec![1, 0, 1],
        marks: vec![1, 0, 1],
        water: vec![1; 3],
    };
    let receivers = network(&ground).receivers;
    assert_eq!(receivers, [Cell(0), Cell(0), Cell(2)]);
}
