//! How parts of a package are compressed.

use crate::error::PackageError;
use flate2::read::MultiGzDecoder;
use std::io::{self, Read};
use xz2::read::XzDecoder;
use xz2::stream::{Stream, CONCATENATED};

/// The most memory that xz may take: its presets need at most 65 MB.
const XZ_MEMORY: u64 = 128 << 20;

/// What a part with this name holds, such as `data.tar.xz`.
pub(crate) fn unpacked<'r>(name: &str, packed: impl Read + 'r) -> Result<Box<dyn Read + 'r>, PackageError> {
    let (_, ending) = name.split_once(".tar").unwrap_or((name, name));
    Ok(match ending {
        "" => Box::new(packed),
        ".gz" => Box::new(MultiGzDecoder::new(packed)),
        ".xz" => {
            let stream = Stream::new_stream_decoder(XZ_MEMORY, CONCATENATED).map_err(io::Error::from)?;
            Box::new(XzDecoder::new_stream(packed, stream))
        }
        ".zst" => Box::new(dwcheck_zstd::Reader::new(packed)?),
        _ => return Err(PackageError::Compression(name.to_string())),
    })
}
