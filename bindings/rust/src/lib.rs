//! Lists and verifies U-Boot images in memory, legacy images and FIT images, and locates their
//! payloads, with libuimg.
//!
//! ```
//! # fn main() -> Result<(), Box<dyn std::error::Error>> {
//! let image = std::fs::read("../../examples/kernel.itb")?;
//! uimg::check_strict(&image, uimg::Need::Sha256)?;
//! let payload = uimg::payload_named(&image, "kernel")?;
//! assert_eq!(payload, b"abc");
//! # Ok(())
//! # }
//! ```
//!
//! [`check_strict`] is the check for an image that U-Boot is to boot. Right hashes say that the image
//! is undamaged, not who made it: that needs keys, and [`check_signed`]. No call checks the hash nodes
//! of configurations.
//!
//! The code behind the calls is proved to return, and to stay within its buffers, for every image,
//! well formed or not. This crate is tested, not proved.
#![deny(missing_docs)]
#![deny(clippy::undocumented_unsafe_blocks)]

mod ffi;

use std::{error, fmt, str};

/// The weakest algorithm that a check accepts, in order of strength. CRC-32, MD5 and SHA-1 detect
/// damage, but not forgery.
#[derive(Clone, Copy, Debug, PartialEq, Eq, PartialOrd, Ord)]
pub enum Need {
    /// CRC-32, the only checksum of a legacy image.
    Crc32 = 1,
    /// MD5.
    Md5 = 2,
    /// SHA-1.
    Sha1 = 3,
    /// SHA-256.
    Sha256 = 4,
    /// SHA-384.
    Sha384 = 5,
    /// SHA-512.
    Sha512 = 6,
}

/// Why a call failed. Its text is the line of the program `uimg`.
#[derive(Clone, Copy, Debug, PartialEq, Eq)]
pub enum Error {
    /// The image is refused, or has no such payload.
    Fault {
        /// The fault's letter: L for legacy images, B for the blob of a FIT image, F for the images in
        /// it, S for what only [`check_strict`] and [`check_signed`] refuse.
        letter: char,
        /// The fault's number, as 8 in L8. uimg-faults(7) explains each.
        number: u8,
        /// The offset in the image of a fault with the letter B, else 0.
        place: u64,
    },
    /// A hash is wrong, missing or too weak, payloads overlap, or a FIT has no image.
    NotRight,
    /// The keys of [`check_signed`] are refused: nothing is known of the image.
    BadKeys,
    /// Memory was refused: nothing is known of the image.
    NoMemory,
}

impl fmt::Display for Error {
    fn fmt(&self, out: &mut fmt::Formatter<'_>) -> fmt::Result {
        match *self {
            Error::Fault {
                letter,
                number,
                place,
            } => {
                let fault = u32::from(letter) << 8 | u32::from(number);
                // SAFETY: the text has the size.
                let line = |text, size| unsafe { ffi::uimg_fault_line(fault, text, size) };
                out.write_str(&short_text(line))?;
                if letter == 'B' {
                    write!(out, " at {place}")?;
                }
                Ok(())
            }
            Error::NotRight => out.write_str("not right, or without a strong hash"),
            Error::BadKeys => out.write_str("no keys that U-Boot takes"),
            Error::NoMemory => out.write_str("out of memory"),
        }
    }
}

impl error::Error for Error {}

/// The result of a listing or a verification.
#[derive(Clone, Debug, PartialEq, Eq)]
pub struct Report {
    /// The text, byte for byte that of the program: all that was printed before an error, too.
    pub text: Vec<u8>,
    /// Whether the image was listed, or each of its hashes is right.
    pub result: Result<(), Error>,
}

/// Lists an image, like `uimg dumpimage -l`.
pub fn list(image: &[u8]) -> Report {
    report(ffi::uimg_list, image)
}

/// Verifies an image's checksums, like `uimg verify`.
///
/// The result is `Ok` if and only if the image is not refused and each line of the text ends with `ok`
/// or, for an image without hash nodes, with `unhashed`. That includes a FIT without images: use
/// [`check`] to require more.
pub fn verify(image: &[u8]) -> Report {
    report(ffi::uimg_verify, image)
}

/// Checks an image, like `uimg check --need`.
///
/// Succeeds only if the FIT has an image, each hash of its images is right, each has a right hash by
/// `need` or a stronger algorithm, and their payloads together are not longer than the file; of a
/// legacy image, only if [`verify`] succeeds, `need` is CRC-32, and its table of parts fits its data.
pub fn check(image: &[u8], need: Need) -> Result<(), Error> {
    check_by(ffi::uimg_check, image, need)
}

/// Checks an image as [`check`] does and, if that finds all right, whether U-Boot reads what was
/// checked.
///
/// U-Boot searches a FIT more loosely than a check: by a name up to an @, or by the first of two
/// properties. So it may load bytes that no hash covers. After this call succeeded, U-Boot 2023.01
/// finds exactly the images that were checked, each with the payload whose hashes are right.
pub fn check_strict(image: &[u8], need: Need) -> Result<(), Error> {
    check_by(ffi::uimg_check_strict, image, need)
}

/// Checks an image as [`check_strict`] does and, if that finds all right, whether each configuration of
/// the FIT is signed, as U-Boot 2023.01 verifies it.
///
/// `keys` is the text of a public key in PEM with nothing before or after it, as `openssl rsa -pubout`
/// writes it, or a control devicetree of U-Boot, as `mkimage -K` completes it. The keys of a devicetree
/// are the nodes in `/signature` whose `required` is `conf`: each of them must have signed each
/// configuration, or one of them if `required-mode` is `any`. A key is RSA of 2048, 3072 or 4096 bits,
/// with an odd exponent above 2. With `config` only the configuration of this name must be signed. The
/// error is [`Error::BadKeys`] if there is no such key. The fault is one of S17 to S24 if a
/// configuration is not signed, S17 if there is none of this name, and S17 for a legacy image.
pub fn check_signed(
    image: &[u8],
    keys: impl AsRef<[u8]>,
    config: Option<&str>,
    need: Need,
) -> Result<(), Error> {
    let keys = keys.as_ref();
    let config = config.unwrap_or("");
    let mut report = ffi::Report::default();
    // SAFETY: the image, the keys, the name and the report are valid for the call, the report apart.
    unsafe {
        ffi::uimg_check_signed(
            image.as_ptr(),
            image.len(),
            keys.as_ptr(),
            keys.len(),
            config.as_ptr(),
            config.len(),
            need as u32,
            &mut report,
        )
    };
    done(report.status, report.fault, report.place)
}

/// Returns the part of a legacy image, or the payload of an image in a FIT, at a position, counted
/// from 0.
///
/// The checksums of a legacy image are verified; the payload of a FIT is not read, so check it first.
/// The fault is L8 or F4 if there is no such position.
pub fn payload_at(image: &[u8], position: u32) -> Result<&[u8], Error> {
    // SAFETY: the image and the payload are valid for the call, and apart.
    found(image, |payload| unsafe {
        ffi::uimg_payload_at(image.as_ptr(), image.len(), position, payload)
    })
}

/// Returns the payload of the first image with a name in a FIT.
///
/// The fault is F4 if no image has the name, and B2 for a legacy image, whose parts have no names.
pub fn payload_named(image: &[u8], name: impl AsRef<[u8]>) -> Result<&[u8], Error> {
    let name = name.as_ref();
    // SAFETY: the image, the name and the payload are valid for the call, the payload apart.
    found(image, |payload| unsafe {
        ffi::uimg_payload_named(
            image.as_ptr(),
            image.len(),
            name.as_ptr(),
            name.len(),
            payload,
        )
    })
}

/// Returns the name of the image at a position, counted from 0, in a FIT.
pub fn payload_name(image: &[u8], position: u32) -> Result<&[u8], Error> {
    // SAFETY: the image and the name's place are valid for the call, and apart.
    found(image, |name| unsafe {
        ffi::uimg_payload_name(image.as_ptr(), image.len(), position, name)
    })
}

/// Returns the number of images of a FIT, or of parts of a legacy image.
pub fn payload_count(image: &[u8]) -> Result<usize, Error> {
    let mut count = ffi::Count::default();
    // SAFETY: the image and the count are valid for the call, and apart.
    unsafe { ffi::uimg_payload_count(image.as_ptr(), image.len(), &mut count) };
    done(count.status, count.fault, count.place)?;
    Ok(count.count)
}

/// Returns the version of the library, as `0.1.0`.
pub fn version() -> String {
    // SAFETY: the text has the size.
    short_text(|text, size| unsafe { ffi::uimg_version(text, size) })
}

/// Calls a listing or a verification, again with enough room if the text was truncated.
fn report(call: ffi::Reporting, image: &[u8]) -> Report {
    let mut text = vec![0; 4096];
    loop {
        let mut report = ffi::Report::default();
        // SAFETY: the image, the text and the report are valid for the call, and apart.
        unsafe {
            call(
                image.as_ptr(),
                image.len(),
                text.as_mut_ptr(),
                text.len(),
                &mut report,
            )
        };
        if report.needed <= text.len() {
            text.truncate(report.written);
            let result = done(report.status, report.fault, report.place);
            return Report { text, result };
        }
        text.resize(report.needed, 0);
    }
}

fn check_by(call: ffi::Checking, image: &[u8], need: Need) -> Result<(), Error> {
    let mut report = ffi::Report::default();
    // SAFETY: the image and the report are valid for the call, and apart.
    unsafe { call(image.as_ptr(), image.len(), need as u32, &mut report) };
    done(report.status, report.fault, report.place)
}

/// Returns the bytes of an image that a call locates. The library promises that they are inside.
fn found(image: &[u8], call: impl FnOnce(&mut ffi::Payload) -> u32) -> Result<&[u8], Error> {
    let mut payload = ffi::Payload::default();
    call(&mut payload);
    done(payload.status, payload.fault, payload.place)?;
    Ok(&image[payload.start..][..payload.size])
}

fn done(status: u32, fault: u32, place: u64) -> Result<(), Error> {
    let [_, _, letter, number] = fault.to_be_bytes();
    match status {
        ffi::DONE => Ok(()),
        ffi::BAD_KEYS => Err(Error::BadKeys),
        ffi::NO_MEMORY => Err(Error::NoMemory),
        _ if fault == 0 => Err(Error::NotRight),
        _ => Err(Error::Fault {
            letter: letter.into(),
            number,
            place,
        }),
    }
}

/// Returns a text of at most 64 bytes, which a call writes.
fn short_text(call: impl FnOnce(*mut u8, usize) -> usize) -> String {
    let mut text = [0; 64];
    let length = call(text.as_mut_ptr(), text.len());
    str::from_utf8(&text[..length])
        .unwrap_or_default()
        .to_owned()
}
