//! Records that `tools/read-records make` printed, by Python's `cryptography`.

use std::error::Error;

use deerlapse::aead::{AES_128_GCM, AES_256_GCM, Algorithm};
use deerlapse_protocols_vectors::tls::{IV, KEY};
use key_derivation::{Secret, Suite};
use records::ContentType::{Alert, ApplicationData, Handshake};
use records::{ContentType, Reader, RecordError, RecordKey, Writer};
use vectors::hex;

/// The type, the content and the padding of a record, and the record.
type Printed = (ContentType, &'static [u8], usize, &'static str);

/// The key, the IV and the records of a run.
type Run = (&'static Algorithm, &'static [u8], [u8; 12], [Printed; 3]);

const RUNS: [Run; 2] = [
    (
        &AES_128_GCM,
        KEY.first_chunk::<16>().expect("16 bytes"),
        IV,
        [
            (
                Handshake,
                b"hello",
                0,
                "1703030016fb09cba2090d58e73c31563352433d33c8bfd9f986eb",
            ),
            (
                ApplicationData,
                b"",
                0,
                "1703030011d67694b177740aedfba37ae58563153ae0",
            ),
            (
                ApplicationData,
                b"with zeros\0\0",
                7,
                "170303002486c888335ae8b7f06f0e8904bdb50a40532cb7cae9b995b53e555eec6fce9f8e8d77b915",
            ),
        ],
    ),
    (
        &AES_256_GCM,
        &KEY,
        [255; 12],
        [
            (
                Alert,
                &[2, 50],
                1,
                "170303001438b3fac9f5ef2883dbf4b5e9d29a66668f3dd85a",
            ),
            (
                Handshake,
                &[b'x'; 33],
                14,
                "17030300402f5255253d5775ebf4dc77b86889f0f7eba907ffa1a82fdbd9f4c8df9c6fd0b76bc472c3d1a24a346746e014\
                 83030bdfd9a1f1bc17b9b047980d9ca4891f7c1d",
            ),
            (
                ApplicationData,
                b"",
                3,
                "1703030014b589a82976661c9db8fc622cd89f183d1e2d2e9f",
            ),
        ],
    ),
];

/// The content is then at the front of the buffer, its type and its padding after it, and the bytes after these are unchanged.
#[test]
fn records_are_written_and_read() -> Result<(), Box<dyn Error>> {
    for (algorithm, key, iv, printed) in RUNS {
        let mut writer = Writer::new(algorithm, key, iv)?;
        let mut sealing = Writer::new(algorithm, key, iv)?;
        let mut reader = Reader::new(algorithm, key, iv)?;
        for (content_type, content, padding, record) in printed {
            let record = hex::bytes(record);
            let mut bytes = Vec::new();
            writer.write(content_type, content, padding, &mut bytes)?;
            assert_eq!(bytes, record);
            let mut sealed = [&[9; 5][..], content, &vec![9; padding + 17 + 3]].concat();
            let len = sealing.seal(content_type, &mut sealed, content.len(), padding)?;
            assert_eq!(len, record.len());
            assert_eq!(sealed, [&record[..], &[9; 3]].concat());
            assert_eq!(sealing.number(), writer.number());
            assert_eq!(reader.read(&mut bytes)?, (content_type, content));
            let inner = [content, &[content_type.code()], &vec![0; padding]].concat();
            assert_eq!(bytes, [&inner[..], &record[inner.len()..]].concat());
        }
    }
    Ok(())
}

/// The type, the length, the padding and the records of a content of the bytes 0, 1 and so on, at a size limit of 64 bytes.
const CUT: [(ContentType, u8, usize, &str); 5] = [
    (
        ApplicationData,
        130,
        0,
        "1703030050936da5cd621ef15343db6b813aae7e07a33708f547f8ebe1fe38eb360859bc73a585f9d4d0a591c468dd23\
         cceca4f9bdfcae26c330b2004c167748e9967128f3a50ecb573f7d1b3ba8fc43d2e9fab9ff1703030050fe7957d0275b\
         3a3ac0ec96e077250de7a92857ea95e832748ead8958fbc5abb3a12f6cb38dc5a0836872577bc2c45f6c6efb3291d938\
         9e5ff2370f96dbfec190794bc1a0207cd92fa2c8eee234a7f6d917030300158fde7cda6dfb7c2de52efdafa034f2f46c\
         7096babf",
    ),
    (
        Handshake,
        126,
        0,
        "1703030050936da5cd621ef15343db6b813aae7e07a33708f547f8ebe1fe38eb360859bc73a585f9d4d0a591c468dd23\
         cceca4f9bdfcae26c330b2004c167748e9967128f2b682c53438dd297cc7d62d3f33bf02f61703030050fe7957d0275b\
         3a3ac0ec96e077250de7a92857ea95e832748ead8958fbc5abb3a12f6cb38dc5a0836872577bc2c45f6c6efb3291d938\
         9e5ff2370f96dbfec1916ac7cfc327dceb68cde2800feee24dd0",
    ),
    (
        Handshake,
        7,
        60,
        "1703030050936da5d8661bf7544bd2618a36a37008b3261ae653edfdf6e621f12d1444a26c85a4dbf7f480b7e340f409\
         e7c089d792cc9f14f00487367b2e4e72d2aa4c16e4edf19ba1a6a813499955880905df903a1703030050c23d1384641f\
         7f7c87a4dfaa3c6940a9e67806b8c6bc6722d9f5d002a099f6edfe4f0dd1eea1c5e50f1a3e11a9a83202018b43e3aa4c\
         eb29854f76eca082bc8771f444e76b08f116f0a0b2d16f5440a9170303004ef7b7fc5b7a92d282007d8904aab50a4053\
         2cb7ca06ee8d44f7c42dd4c9d61092564eec4d6a00da1697cc5a78bcfd30aa3fbe6fea352230751ffd0cce1eb727b1a3\
         799b113fd3bfa1b0b11840c020",
    ),
    (
        ApplicationData,
        0,
        63,
        "1703030050846ca7ce661bf7544bd2618a36a37008b3261ae653edfdf6e621f12d1444a26c85a4dbf7f480b7e340f409\
         e7c089d792cc9f14f00487367b2e4e72d2aa4c16e410e1589316e526eaf638a315058b6db4",
    ),
    (
        Alert,
        2,
        61,
        "1703030050936db2ce661bf7544bd2618a36a37008b3261ae653edfdf6e621f12d1444a26c85a4dbf7f480b7e340f409\
         e7c089d792cc9f14f00487367b2e4e72d2aa4c16e4077468aa94f311e7a4a7b9c23902576d",
    ),
];

#[test]
fn a_content_is_cut_into_its_records() -> Result<(), Box<dyn Error>> {
    for (content_type, len, padding, records) in CUT {
        let content: Vec<_> = (0..len).collect();
        let records = hex::bytes(records);
        let mut writer = Writer::new(&AES_128_GCM, &KEY[..16], IV)?;
        writer.set_size_limit(64)?;
        let mut sealed = vec![9; records.len() - 1];
        let refused = writer.seal_content(content_type, &content, padding, &mut sealed);
        assert_eq!(refused, Err(RecordError::NoRoom));
        assert!(sealed.iter().all(|byte| *byte == 9));
        let mut appended = b"before".to_vec();
        writer.write_content(content_type, &content, padding, &mut appended)?;
        assert_eq!(appended, [b"before", &records[..]].concat());
    }
    Ok(())
}

/// A suite, the length of a secret of the bytes 0, 1 and so on, and the first record under it and under each of the three secrets
/// after it, whose content is `hello`.
const OVER_UPDATES: [(Suite, u8, [&str; 4]); 2] = [
    (
        Suite::Aes128Gcm,
        32,
        [
            "17030300164d6d8b52c4219f73abf497337bed8c6d80d86f23fcba",
            "1703030016b251030a7625182ab0d04a821756401b6593ef4e2eea",
            "1703030016a68e2d354e9f1f4b6beab99bc8a40ee405f57cc5812e",
            "17030300161303205604dd611524c9a3cb6dc8928d118c4799da0e",
        ],
    ),
    (
        Suite::Aes256Gcm,
        48,
        [
            "1703030016205213507a1ab2a128abae5928a72bee1710dead4c7b",
            "170303001644f0cfebe8116f596c306a34678202da56b8f5da1d6a",
            "17030300163f1dd2ecbc2d498c4e8e95c06042a308bb7d43437376",
            "1703030016157cd487200c0864ab9303188f93a1164d78be8f2097",
        ],
    ),
];

#[test]
fn a_secret_gives_those_after_it() -> Result<(), Box<dyn Error>> {
    for (suite, len, records) in OVER_UPDATES {
        let secret: Vec<_> = (0..len).collect();
        let mut writer = Writer::from_secret(Secret::new(suite, &secret)?);
        let mut reader = Reader::from_secret(Secret::new(suite, &secret)?);
        for record in records {
            let mut bytes = Vec::new();
            writer.write(ApplicationData, b"hello", 0, &mut bytes)?;
            assert_eq!(hex::text(&bytes), record);
            assert_eq!(reader.read(&mut bytes)?, (ApplicationData, &b"hello"[..]));
            writer.update()?;
            reader.update()?;
        }
    }
    Ok(())
}

/// Numbers, and their records of `last`: one past the writer's default limit, the last that a reader reads, and the last.
const NUMBERED: [(u64, &str); 3] = [
    (
        1 << 24,
        "1703030015c9fe435a1a697eecad76a4c1665cb1743d58ad11bd",
    ),
    (
        u64::MAX - 1,
        "1703030015e238123fefd7cea0052137e396f15bb2570a1387a8",
    ),
    (
        u64::MAX,
        "17030300151ebc8ad8e3b12c91d4263ea37368226008651065e6",
    ),
];

#[test]
fn a_key_takes_every_number() -> Result<(), Box<dyn Error>> {
    let key = RecordKey::new(&AES_128_GCM, &KEY[..16], IV)?;
    for (number, record) in NUMBERED {
        let mut bytes = [0; 26];
        key.seal_to(number, ApplicationData, b"last", 0, &mut bytes)?;
        assert_eq!(hex::text(&bytes), record);
        let mut reader = Reader::new(&AES_128_GCM, &KEY[..16], IV)?.starting_at(number);
        let read = reader.read(&mut bytes);
        if number == u64::MAX {
            assert_eq!(read, Err(RecordError::KeyUsedUp));
        } else {
            assert_eq!(read, Ok((ApplicationData, &b"last"[..])));
            assert_eq!(reader.number(), number + 1);
        }
    }
    Ok(())
}
