//! Network images: round trips, refusals, and the repository's examples.

mod common;

use common::{FIVE, X, Z, bits, network, pair, repository, sight, told};
use std::fmt::Write;
use std::fs;
use vobzeile::{
    Counts, Error, Network, Route, Workspace, image_counts, image_length, parts, read_image, solve,
    write_image, write_image_into,
};

fn larger() -> Network<'static> {
    network(
        4,
        &[
            (0, 1, Z, 1.0, 0.5),
            (3, 0, [0.6, -0.8, -0.0], 0.0, 1e-300),
            (1, 1, [5e-324, 1e300, 0.1], f64::MAX, f64::MIN_POSITIVE),
        ],
        &[(2, 1, X, -0.0, 3.0), (0, 3, [0.0; 3], 1e-12, 1.0)],
        &[FIVE, [-0.0, 1e-300, -1e300]],
    )
}

/// The bits of every number.
fn numbers(network: &Network) -> Vec<u64> {
    let rays = network.rays().as_flattened().iter();
    let rows = rays.chain(network.weights()).chain(network.scales());
    let points = network.points().as_flattened();
    rows.chain(points).map(|number| number.to_bits()).collect()
}

#[test]
fn round_trips() {
    let empty = Network::builder(4096).build().unwrap();
    for network in [sight(1.0, 0.5), pair(1e300, 1e10), larger(), empty] {
        let bytes = write_image(&network).unwrap();
        let counts = network.counts();
        assert_eq!(bytes.len(), 52 + 48 * counts.rows() + 24 * counts.points);
        assert_eq!(image_length(&network), Ok(bytes.len()));
        assert_eq!(image_counts(&bytes), Ok(counts));
        let back = read_image(&bytes).unwrap();
        assert_eq!(back, network);
        assert_eq!(numbers(&back), numbers(&network));
        assert_eq!(write_image(&back).unwrap(), bytes);
    }
}

/// The whole case, byte by byte.
#[test]
fn layout() {
    let mut wanted = vec![1, 0, 4, 0];
    let mut put = |numbers: &[u32]| {
        wanted.extend(numbers.iter().flat_map(|number| number.to_le_bytes()));
    };
    put(&[36, 16, 52, 48, 100, 0, 100, 24]);
    put(&[1, 1, 1, 0]);
    put(&[0, 0]);
    for number in [0.0, 0.0, 1.0, 1.0, 0.5, 5.0, 5.0, 5.0f64] {
        wanted.extend(number.to_le_bytes());
    }
    assert_eq!(wanted.len(), 124);
    assert_eq!(write_image(&sight(1.0, 0.5)).unwrap(), wanted);
}

#[test]
fn room() {
    let network = sight(1.0, 0.5);
    let mut out = [0xa5; 130];
    for length in [0, 36, 123] {
        let error = write_image_into(&network, &mut out[..length]).unwrap_err();
        assert_eq!(error, Error::ImageRoom { needed: 124 });
        assert_eq!((error.number(), error.place()), (23, 124));
        assert_eq!(out, [0xa5; 130]);
    }
    assert_eq!(write_image_into(&network, &mut out), Ok(124));
    assert_eq!(out[124..], [0xa5; 6]);
    assert_eq!(out[..124], write_image(&network).unwrap());
}

#[test]
fn refused() {
    let image = write_image(&larger()).unwrap();
    let spoiled = |spoil: &dyn Fn(&mut Vec<u8>)| {
        let mut bytes = image.clone();
        spoil(&mut bytes);
        let error = read_image(&bytes).unwrap_err();
        (error.number(), error.place(), error.to_string())
    };
    let told = |number, place, words: &str| (number, place, words.to_string());
    let head = "image: under 36 bytes, version not 1 or section count not 4";
    assert_eq!(spoiled(&|bytes| bytes.clear()), told(20, 0, head));
    assert_eq!(spoiled(&|bytes| bytes.truncate(35)), told(20, 0, head));
    assert_eq!(spoiled(&|bytes| bytes[0] = 2), told(20, 0, head));
    assert_eq!(spoiled(&|bytes| bytes[2] = 5), told(20, 0, head));
    let pair = "image: pair 3: offset or length breaks the image rule";
    assert_eq!(spoiled(&|bytes| bytes.push(0)), told(21, 3, pair));
    assert_eq!(spoiled(&|bytes| bytes.truncate(339)), told(21, 3, pair));
    let pair = "image: pair 1: offset or length breaks the image rule";
    assert_eq!(spoiled(&|bytes| bytes[12] = 53), told(21, 1, pair));
    let section = "image: section 1 (bearings): length differs from what the counts say";
    assert_eq!(spoiled(&|bytes| bytes[44] = 2), told(22, 1, section));
    assert_eq!(spoiled(&|bytes| bytes[47] = 255), told(22, 1, section));
    let section = "image: section 3 (points): length differs from what the counts say";
    assert_eq!(spoiled(&|bytes| bytes[40] = 3), told(22, 3, section));
    let cameras = "no camera, or over 4096 cameras";
    assert_eq!(spoiled(&|bytes| bytes[36] = 0), told(1, 0, cameras));
    let range = "bearing 1: camera or point out of range";
    assert_eq!(spoiled(&|bytes| bytes[100] = 4), told(4, 1, range));
    let range = "direction 0: source or target out of range";
    assert_eq!(spoiled(&|bytes| bytes[196] = 4), told(4, 3, range));
    let ends = "direction 0: source = target";
    assert_eq!(spoiled(&|bytes| bytes[196] = 1), told(5, 3, ends));
    // the top byte of a double: infinite or a NaN
    let nan = |bytes: &mut Vec<u8>, at: usize| bytes[at..at + 8].fill(0xff);
    let domain = "bearing 2: weight, scale or ray outside the domain";
    assert_eq!(
        spoiled(&|bytes| nan(bytes, 52 + 96 + 16)),
        told(7, 2, domain)
    );
    let domain = "direction 1: weight, scale or direction outside the domain";
    assert_eq!(
        spoiled(&|bytes| nan(bytes, 52 + 192 + 40)),
        told(7, 4, domain)
    );
    let domain = "point 1: position outside the domain";
    assert_eq!(
        spoiled(&|bytes| nan(bytes, 52 + 240 + 32)),
        told(7, 6, domain)
    );
}

/// Limits over the counts are found without a byte being asked for.
#[test]
fn huge_counts() {
    let mut bytes = vec![1, 0, 4, 0];
    let mut put = |numbers: &[u32]| {
        bytes.extend(numbers.iter().flat_map(|number| number.to_le_bytes()));
    };
    // 65,537 points would be right by the length, and are over the limit
    let points = 24 * 65537;
    put(&[36, 16, 52, 0, 52, 0, 52, points]);
    put(&[1, 65537, 0, 0]);
    bytes.resize(52 + points as usize, 0);
    assert_eq!(read_image(&bytes), Err(Error::RowCount));
    bytes[36] = 0;
    assert_eq!(image_counts(&bytes), Err(Error::CameraCount));
}

/// What the solve program writes: at most 16,384 bytes and 64 cameras, route 3, dense limit 48.
fn program(bytes: &[u8]) -> String {
    placed(bytes).unwrap_or_else(|error| {
        let n = image_counts(bytes).map_or(0, |counts| counts.cameras);
        let names = ["refused", " place", " camera"];
        let told = names.iter().zip(told(&error, n));
        let words: String = told
            .map(|(name, number)| format!("{name} {number}"))
            .collect();
        words + "\n"
    })
}

fn placed(bytes: &[u8]) -> Result<String, Error> {
    if bytes.len() > 16384 {
        return Err(Error::RowCount);
    }
    if image_counts(bytes)?.cameras > 64 {
        return Err(Error::CameraCount);
    }
    let network = read_image(bytes)?;
    let mut workspace = Workspace::new();
    let placement = solve(&network, &mut workspace, Route::IterativeThenDense, 48)?;
    let parts = parts(&network, &mut workspace)?;
    let Counts {
        cameras,
        points,
        bearings,
        directions,
    } = network.counts();
    let mut text =
        format!("cameras {cameras} points {points} bearings {bearings} directions {directions}\n");
    let (anchor, route, rounds) = (placement.anchor, placement.route, placement.rounds);
    let route = route.number();
    writeln!(text, "parts {}", parts.count).unwrap();
    writeln!(text, "anchor {anchor} route {route} rounds {rounds}").unwrap();
    writeln!(text, "few {}", placement.few).unwrap();
    for (kind, positions) in [("c", placement.cameras), ("p", placement.points)] {
        for (number, [x, y, z]) in positions.into_iter().enumerate() {
            let [x, y, z] = [bits(x), bits(y), bits(z)];
            writeln!(text, "{kind} {number} {x:016x} {y:016x} {z:016x}").unwrap();
        }
    }
    Ok(text)
}

#[test]
fn program_on_the_whole_case() {
    let image = write_image(&sight(1.0, 0.5)).unwrap();
    let wanted = "\
cameras 1 points 1 bearings 1 directions 0
parts 1
anchor 0 route 2 rounds 0
few 1
c 0 0000000000000000 0000000000000000 0000000000000000
p 0 0000000000000000 0000000000000000 4000000000000000
";
    assert_eq!(program(&image), wanted);
    assert_eq!(program(&image[..35]), "refused 20 place 0\n");
    assert_eq!(program(&[0; 16385]), "refused 2 place 0\n");
    let crowd = Network::builder(65).build().unwrap();
    assert_eq!(
        program(&write_image(&crowd).unwrap()),
        "refused 1 place 0\n"
    );
}

/// Every examples/NAME.image of the repository, beside its NAME.expected.
#[test]
fn examples() {
    let Some(folder) = repository().map(|root| root.join("examples")) else {
        return;
    };
    let Ok(entries) = fs::read_dir(&folder) else {
        return;
    };
    let mut count = 0;
    for entry in entries {
        let path = entry.unwrap().path();
        if path
            .extension()
            .is_none_or(|extension| extension != "image")
        {
            continue;
        }
        let bytes = fs::read(&path).unwrap();
        let wanted = fs::read_to_string(path.with_extension("expected")).unwrap();
        assert_eq!(program(&bytes), wanted, "{}", path.display());
        if let Ok(network) = read_image(&bytes) {
            assert_eq!(write_image(&network).unwrap(), bytes, "{}", path.display());
        }
        count += 1;
    }
    println!("{count} examples");
}
