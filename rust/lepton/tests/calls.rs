//! The crate on small files that are made here: one block, and 4,096 blocks that become smaller.
use lepton::{chunk, decode, encode, index, length, migrate, read_range, Error, MOST_OF_A_FILE};
use std::thread;

/// A grey picture; each of its blocks is two bits.
fn photograph(rows: u16, columns: u16, scan: &[u8]) -> Vec<u8> {
    let mut file = vec![0xff, 0xd8, 0xff, 0xc0, 0, 11, 8];
    file.extend(rows.to_be_bytes());
    file.extend(columns.to_be_bytes());
    file.extend([1, 1, 0x11, 0]);
    for class in [0, 0x10] {
        file.extend([0xff, 0xc4, 0, 20, class, 1]);
        file.extend([0; 16]);
    }
    file.extend([0xff, 0xda, 0, 8, 1, 1, 0, 0, 0x3f, 0]);
    file.extend(scan);
    file.extend([0xff, 0xd9]);
    file
}

fn flat() -> Vec<u8> {
    photograph(512, 512, &[0; 1024])
}

fn line(refused: Result<Vec<u8>, Error>) -> String {
    refused.unwrap_err().to_string()
}

#[test]
fn there_and_back() {
    for file in [photograph(8, 8, &[0x3f]), flat(), photograph(4096, 4096, &[0; 65536])] {
        for segments in [1, 8, 64] {
            let container = encode(&file, segments).unwrap();
            assert_eq!(decode(&container, MOST_OF_A_FILE).unwrap(), file);
            assert_eq!(decode(&container, file.len()).unwrap(), file);
            assert_eq!(decode(&container, file.len() - 1), Err(Error::TooLong));
            assert_eq!(length(&container).unwrap(), file.len() as u64);
            assert_eq!(migrate(&container).unwrap(), container);
            let placed = index(&container).unwrap();
            assert_eq!(decode(&placed, MOST_OF_A_FILE).unwrap(), file);
            for (from, to) in [(0, file.len()), (0, 0), (1, 2), (file.len(), file.len()), (file.len() / 2, file.len() - 1)] {
                assert_eq!(read_range(&placed, from as u64..to as u64).unwrap(), file[from..to]);
            }
        }
    }
}

#[test]
fn chunks_are_the_file() {
    let file = flat();
    let mut back = Vec::new();
    for number in 0..4 {
        back.extend(decode(&chunk(&file, number, 300, 1).unwrap(), 300).unwrap());
    }
    assert_eq!(back, file);
    assert_eq!(line(chunk(&file, 4, 300, 1)), "refused 51 NoChunk");
    assert_eq!(decode(&chunk(&file, 0, u64::MAX, 1).unwrap(), MOST_OF_A_FILE).unwrap(), file);
}

#[test]
fn refused() {
    let file = flat();
    let mut progressive = file.clone();
    progressive[3] = 0xc2;
    for (bytes, wanted) in [
        (&b""[..], "refused 1 NotJpeg"),
        (&progressive, "refused 4 NotBaseline code 194"),
        (&file[..700], "refused 16 ScanCut at 700"),
    ] {
        assert_eq!(line(encode(bytes, 1)), wanted);
        assert_eq!(line(chunk(bytes, 0, 9, 1)), wanted);
        assert!(matches!(encode(bytes, 1), Err(Error::Refused(_))));
    }
    for segments in [0, 65, 255] {
        assert_eq!(encode(&file, segments), Err(Error::BadCall));
    }
    assert_eq!(chunk(&file, 0, 0, 1), Err(Error::BadCall));
    let container = encode(&file, 1).unwrap();
    let placed = index(&container).unwrap();
    let past = file.len() as u64 + 1;
    for range in [0..past, past..past, 0..u64::MAX, u64::MAX..0] {
        assert_eq!(line(read_range(&placed, range)), "refused 54 RangeBad");
    }
    assert_eq!(line(read_range(&container, 0..1)), "refused 31 BoxVersion");
    assert_eq!(line(migrate(&placed)), "refused 31 BoxVersion");
}

#[test]
fn damaged() {
    let container = encode(&flat(), 1).unwrap();
    let cut = &container[..container.len() - 1];
    for damaged in [decode(cut, 9999), migrate(cut), index(cut)] {
        assert_eq!(line(damaged.clone()), "damaged: refused 32 BoxCut");
        assert!(matches!(damaged, Err(Error::Damaged { .. })));
    }
    assert_eq!(length(b"").unwrap_err().to_string(), "damaged: refused 30 BoxMagic");
    let mut header = container.clone();
    header[41] = 0;
    assert_eq!(line(decode(&header, 9999)), "damaged: refused 33 BoxHeader 1 NotJpeg");

    // The bytes before a fault in the second segment.
    let file = photograph(4096, 4096, &[0; 65536]);
    let mut two = encode(&file, 2).unwrap();
    *two.last_mut().unwrap() ^= 0xff;
    match decode(&two, MOST_OF_A_FILE) {
        Err(Error::Damaged { refusal, before }) => {
            assert_eq!(refusal.place(), Some(1));
            assert!(!before.is_empty() && before.len() < file.len() && file.starts_with(&before));
        }
        other => panic!("{other:?}"),
    }
}

#[test]
fn threads() {
    let file = flat();
    thread::scope(|scope| {
        for _ in 0..8 {
            scope.spawn(|| {
                for _ in 0..20 {
                    assert_eq!(decode(&encode(&file, 1).unwrap(), MOST_OF_A_FILE).unwrap(), file);
                }
            });
        }
    });
}
