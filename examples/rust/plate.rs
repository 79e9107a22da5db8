//! One plate, two bars that cross: forward, a step at a time, and back; and a stream file, whose corners go forward.

mod panbuckle;

use panbuckle::{backward, forward, read_gdsii, step, Refused, Sums};

fn main() {
    let points = [3, 1, 5, 1, 3, 5, 5, 5, 0, 2, 10, 2, 0, 4, 10, 4];
    let (mut work, mut rects) = ([0; 16], [0; 16]);
    assert_eq!(forward(&points, &mut work, &mut rects), Ok(Sums { count: 4, area: 20, edge: 36 }));
    assert_eq!(rects, [3, 1, 2, 1, 0, 2, 3, 2, 5, 2, 5, 2, 3, 4, 2, 1]);
    assert_eq!(work, [0; 16]);

    let (mut stepped, mut left) = (points, 8);
    for rect in rects.chunks(4) {
        let (made, more) = step(&mut stepped, left).unwrap();
        assert_eq!(made, rect);
        left = more;
    }
    assert_eq!(step(&mut stepped, left), Err(Refused { number: 10, place: 0 }));

    let mut corners = [7; 18];
    assert_eq!(backward(&rects, &mut corners), Ok(8));
    assert_eq!(corners, [3, 1, 5, 1, 0, 2, 10, 2, 0, 4, 10, 4, 3, 5, 5, 5, 7, 7]);

    let mut room = [7; 12];
    assert_eq!(forward(&points, &mut work, &mut room), Err(Refused { number: 8, place: 4 }));
    assert_eq!(room, [7; 12]);
    assert_eq!(forward(&points[..15], &mut work, &mut rects), Err(Refused { number: 1, place: 0 }));
    // A ring: 16 around it and 8 around its hole; where its rectangles abut there is no edge.
    let ring = [0, 0, 4, 0, 0, 4, 4, 4, 1, 1, 3, 1, 1, 3, 3, 3];
    assert_eq!(forward(&ring, &mut work, &mut rects), Ok(Sums { count: 4, area: 12, edge: 24 }));
    // Two squares that meet at a corner, which both list: it cancels.
    let touching = [0, 0, 1, 0, 0, 1, 1, 1, 1, 1, 2, 1, 1, 2, 2, 2];
    assert_eq!(forward(&touching, &mut work, &mut rects), Ok(Sums { count: 2, area: 2, edge: 8 }));
    assert_eq!(rects[..8], [0, 0, 1, 1, 1, 1, 1, 1]);
    assert_eq!(forward(&[], &mut [], &mut []), Ok(Sums { count: 0, area: 0, edge: 0 }));
    println!("{:?}", rects);
    stream();
}

fn stream() {
    let bytes = include_bytes!("../pads.gds");
    let (mut scratch, mut corners, mut list) = ([7; 8192], [7; 64], [0; 64]);
    assert_eq!(read_gdsii(bytes, b"PADS", 1, &mut scratch, &mut corners), Ok(28));
    assert_eq!(scratch, [0; 8192]);
    assert_eq!(corners[56..], [7; 8]);
    assert_eq!(forward(&corners[..56], &mut scratch, &mut list), Ok(Sums { count: 8, area: 6600, edge: 780 }));
    assert_eq!(list[..4], [0, 0, 60, 20]);
    assert_eq!(read_gdsii(bytes, b"PADS", 1, &mut scratch, &mut []), Err(Refused { number: 8, place: 28 }));
    assert_eq!(read_gdsii(bytes, b"NONE", 1, &mut scratch, &mut []), Err(Refused { number: 16, place: 0 }));
    assert_eq!(read_gdsii(&[], &[], 1, &mut scratch, &mut []), Err(Refused { number: 12, place: 0 }));
}
