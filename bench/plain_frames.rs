// Frames of 512 by 512 pixels by plain loops over one array: `bench/teams.py` builds it and times it beside viewrun.
//
//     plain_frames THREADS FRAMES
//
// The array has 8 bytes a voxel, as the frames of viewrun's slots. Each pixel is placed by the matrix, bounded, and shown from 0 to 255;
// each picture is written to views/pT_N.pgm, as viewrun does.
use std::env;
use std::fs;
use std::hint::black_box;
use std::thread;

const SIDE: i64 = 512;

fn shown(value: u64, low: u64, high: u64) -> u8 {
    match value {
        v if v <= low => 0,
        v if v >= high => 255,
        v => ((v - low) * 255 / (high - low)) as u8,
    }
}

/// The pixel at x, y by a matrix over a denominator.
fn pixel(voxels: &[u64], matrix: &[[i64; 3]; 3], q: i64, x: i64, y: i64) -> u8 {
    let place = matrix.map(|row| (2 * (row[0] * x + row[1] * y + row[2]) + q).div_euclid(2 * q));
    match place {
        [x, y, 0] if (0..SIDE).contains(&x) && (0..SIDE).contains(&y) => shown(voxels[(y * SIDE + x) as usize], 0, 255),
        _ => 0,
    }
}

fn paint(voxels: &[u64], hand: usize, frames: usize) {
    let matrix = black_box([[1, 0, 0], [0, 1, 0], [0, 0, 0]]);
    for frame in 0..frames {
        let mut picture = b"P5\n512 512\n255\n".to_vec();
        for y in 0..SIDE {
            picture.extend((0..SIDE).map(|x| pixel(voxels, &matrix, black_box(1), x, y)));
        }
        fs::write(format!("views/p{hand}_{frame}.pgm"), picture).expect("a picture");
    }
}

fn main() {
    let counts: Vec<usize> = env::args().skip(1).map(|word| word.parse().expect("a number")).collect();
    let (hands, frames) = (counts[0], counts[1]);
    let voxels = vec![0; (SIDE * SIDE) as usize];
    fs::create_dir_all("views").expect("a folder");
    thread::scope(|scope| {
        for hand in 0..hands {
            let voxels = &voxels;
            scope.spawn(move || paint(voxels, hand, frames));
        }
    });
}
