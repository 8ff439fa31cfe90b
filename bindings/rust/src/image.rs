//! The network image.

use crate::{Counts, Error, Network, ffi};

/// The counts of an image.
pub fn image_counts(bytes: &[u8]) -> Result<Counts, Error> {
    let mut report = [0; 4];
    let code = ffi::counts(bytes, &mut report);
    Error::check(code, &report, Counts::default())?;
    let [cameras, points, bearings, directions] = report;
    Ok(Counts {
        cameras,
        points,
        bearings,
        directions,
    })
}

/// The network of an image, or its refusal by 20 to 22, then 1, 2, 4, 5 and 7.
pub fn read_image(bytes: &[u8]) -> Result<Network<'static>, Error> {
    let counts = image_counts(bytes)?;
    Network::of_image(counts, bytes)
}

/// The bytes that the image of a network needs, or its refusal by 1 to 5 or 7.
pub fn image_length(network: &Network<'_>) -> Result<usize, Error> {
    network.check()
}

/// The image of a network, or its refusal by 1 to 5 or 7.
pub fn write_image(network: &Network<'_>) -> Result<Vec<u8>, Error> {
    let mut bytes = vec![0; image_length(network)?];
    write_image_into(network, &mut bytes)?;
    Ok(bytes)
}

/// Writes the image of a network to the front of the caller's buffer and returns its length; refused by 1 to 5 or 7, and by 23 with the
/// bytes needed where there is no room.
pub fn write_image_into(network: &Network<'_>, out: &mut [u8]) -> Result<usize, Error> {
    let mut report = [0];
    let code = ffi::write(&network.lent(), out, &mut report);
    Error::check(code, &report, network.counts())?;
    Ok(report[0])
}
