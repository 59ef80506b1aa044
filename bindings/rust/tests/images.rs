//! Each call on images of examples/, and on broken ones.

use std::fs;
use uimg::{Error, Need};

const NONE: Error = Error::Fault {
    letter: 'F',
    number: 4,
    place: 0,
};

fn example(name: &str) -> Vec<u8> {
    fs::read(format!(
        "{}/../../examples/{name}",
        env!("CARGO_MANIFEST_DIR")
    ))
    .unwrap()
}

/// kernel.itb with one byte of its payload changed.
fn changed() -> Vec<u8> {
    let mut image = example("kernel.itb");
    image[168] = b'X';
    image
}

#[test]
fn lists_and_verifies() {
    let image = example("kernel.itb");
    let listing = uimg::list(&image);
    assert_eq!(listing.result, Ok(()));
    assert!(listing.text.starts_with(b"FIT description: demo\n"));
    let report = uimg::verify(&image);
    assert_eq!(report.result, Ok(()));
    assert!(report.text.ends_with(b"kernel hash-4 sha256 ok\n"));
    let report = uimg::verify(&changed());
    assert_eq!(report.result, Err(Error::NotRight));
    assert!(report.text.starts_with(b"kernel hash-1 crc32 bad\n"));
}

#[test]
fn checks() {
    let (image, legacy) = (example("kernel.itb"), example("abc-kernel.img"));
    for check in [uimg::check, uimg::check_strict] {
        assert_eq!(check(&image, Need::Sha256), Ok(()));
        assert_eq!(check(&image, Need::Sha512), Err(Error::NotRight));
        assert_eq!(check(&changed(), Need::Crc32), Err(Error::NotRight));
        assert_eq!(check(&legacy, Need::Crc32), Ok(()));
        assert_eq!(check(&legacy, Need::Md5), Err(Error::NotRight));
    }
}

/// A public key of 2048 bits, by OpenSSL 3.0, which has signed nothing here.
const OTHER: &str = "\
-----BEGIN PUBLIC KEY-----\n\
MIIBIjANBgkqhkiG9w0BAQEFAAOCAQ8AMIIBCgKCAQEAxFKhn/DXFaEXihRGcgrr\n\
1K0rfarUvKg8vtVPUYG9JqqgPc4AKRxIyumfQfcAG7EKrtyQl4AdOmvFLK5nrKKh\n\
KLO924XwezCR4gm4hwOOhPK1kDpfyA1rDhlzvvdG/VOE84fqcqJatE0j2soyv6HO\n\
DtNjz21DKsQ/5tkMgZGLypNcGfnvmMV3uCsIqhKr0USk07Y5xf+F4TRMRONNaAPw\n\
ymMZzqfR83fDP0tOEOE8IdpFXQkXiYe1TbK8IQg3sdMOZlGi+b6mi6npObjyDIk+\n\
dBVjBO9B51V9jNb1px8GSweM4MtFvrRViFNBctMFUVbmq3CGGihqGEKcg/OBZ6tP\n\
/QIDAQAB\n\
-----END PUBLIC KEY-----\n\
";

fn unsigned(number: u8) -> Result<(), Error> {
    Err(Error::Fault {
        letter: 'S',
        number,
        place: 0,
    })
}

#[test]
fn checks_signatures() {
    let (image, keys) = (example("signed.itb"), example("dev.pem"));
    let legacy = example("abc-kernel.img");
    for (config, wanted) in [
        (None, Ok(())),
        (Some("conf"), Ok(())),
        (Some("con"), unsigned(17)),
    ] {
        let found = uimg::check_signed(&image, &keys, config, Need::Sha256);
        assert_eq!(found, wanted);
    }
    for (image, keys, need, wanted) in [
        (&image, &keys[..], Need::Sha512, Err(Error::NotRight)),
        (&image, OTHER.as_bytes(), Need::Sha256, unsigned(24)),
        (&image, &keys[1..], Need::Sha256, Err(Error::BadKeys)),
        (&image, b"", Need::Sha256, Err(Error::BadKeys)),
        (&example("kernel.itb"), &keys, Need::Sha256, unsigned(17)),
        (&legacy, &keys, Need::Crc32, unsigned(17)),
        (&legacy, b"", Need::Crc32, Err(Error::BadKeys)),
        (&changed(), &keys, Need::Crc32, Err(Error::NotRight)),
    ] {
        assert_eq!(uimg::check_signed(image, keys, None, need), wanted);
    }
}

#[test]
fn finds_payloads() {
    let image = example("kernel.itb");
    assert_eq!(uimg::payload_count(&image), Ok(1));
    assert_eq!(uimg::payload_name(&image, 0), Ok(&b"kernel"[..]));
    let payload = uimg::payload_at(&image, 0).unwrap();
    assert_eq!(
        (payload, payload.as_ptr()),
        (&b"abc"[..], image[168..].as_ptr())
    );
    assert_eq!(uimg::payload_named(&image, "kernel"), Ok(payload));
    for none in [
        uimg::payload_at(&image, 1),
        uimg::payload_named(&image, "kerne"),
        uimg::payload_name(&image, 1),
    ] {
        assert_eq!(none, Err(NONE));
    }
    let three = example("three-part.img");
    assert_eq!(uimg::payload_count(&three), Ok(3));
    assert_eq!(uimg::payload_at(&three, 1), Ok(&b"defg"[..]));
}

#[test]
fn reports_faults() {
    let short = Error::Fault {
        letter: 'L',
        number: 1,
        place: 0,
    };
    assert_eq!(uimg::payload_count(b""), Err(short));
    assert_eq!(short.to_string(), "L1 too short");
    assert_eq!(NONE.to_string(), "F4 no such image");
    let legacy = uimg::payload_named(&example("abc-kernel.img"), "kernel").unwrap_err();
    assert_eq!(
        legacy,
        Error::Fault {
            letter: 'B',
            number: 2,
            place: 0
        }
    );
    assert_eq!(legacy.to_string(), "B2 bad magic at 0");
    assert_eq!(
        Error::Fault {
            letter: 'S',
            number: 3,
            place: 0
        }
        .to_string(),
        "S3 unit-address"
    );
    assert_eq!(
        Error::Fault {
            letter: 'Z',
            number: 0,
            place: 0
        }
        .to_string(),
        ""
    );
}

/// kernel.itb with a description of 8196 bytes: its property and the structure block are longer, and
/// the strings block is further on.
fn long() -> Vec<u8> {
    let mut image = example("kernel.itb");
    let at = image.windows(5).position(|it| it == b"demo\0").unwrap();
    for field in [4, 12, 36, at - 8] {
        let value = u32::from_be_bytes(image[field..][..4].try_into().unwrap()) + 8192;
        image[field..][..4].copy_from_slice(&value.to_be_bytes());
    }
    image.splice(at..at, [b'd'; 8192]);
    image
}

#[test]
fn lists_a_text_longer_than_its_first_buffer() {
    let listing = uimg::list(&long());
    assert_eq!(listing.result, Ok(()));
    assert!(listing.text.len() > 8192 && listing.text.starts_with(b"FIT description: ddd"));
}

#[test]
fn has_the_version_of_the_crate() {
    assert_eq!(uimg::version(), env!("CARGO_PKG_VERSION"));
}
