//! The exported label checks against plain Rust: every byte, random fields, every offset of short slices.
use against::{plain, Driver};
use compare::random::Random;

fn below(random: &mut Random, n: usize) -> usize {
    random.within(0, n as u64 - 1) as usize
}

fn one_of(random: &mut Random, bytes: &[u8]) -> u8 {
    bytes[below(random, bytes.len())]
}

/// The bytes of the list, and those that are neither listed nor a space.
fn on_and_off_the_list() -> (Vec<u8>, Vec<u8>) {
    let (on, off): (Vec<u8>, Vec<u8>) = (0..=255).partition(|&b| plain::listed(b));
    (on, off.into_iter().filter(|&b| b != b' ').collect())
}

#[test]
fn every_byte_is_listed_as_the_ranges_say() {
    let bytes: Vec<u8> = (0..=255).collect();
    for (&b, ours) in bytes.iter().zip(Driver::start().listed(&bytes)) {
        assert_eq!(ours, plain::listed(b), "byte {b}");
    }
}

#[test]
fn random_fields_have_the_length_of_the_plain_check() {
    let mut random = Random(0x5eed_1abe_1000_0001);
    let (on, off) = on_and_off_the_list();
    let mut of_length = [0; 9];
    let (mut empty, mut space_inside, mut off_the_list) = (0, 0, 0);
    // A label of `len` bytes; then, half of the time, one byte is overwritten, which may break it.
    let mut draw = || {
        let len = below(&mut random, 9);
        let mut field = [b' '; 8];
        for b in &mut field[..len] {
            *b = one_of(&mut random, &on);
        }
        let overwritten = below(&mut random, 2) == 1;
        if overwritten {
            field[below(&mut random, 8)] = match below(&mut random, 3) {
                0 => b' ',
                1 => one_of(&mut random, &on),
                _ => one_of(&mut random, &off),
            };
        }
        (field, (!overwritten).then_some(len))
    };
    let mut driver = Driver::start();
    for _ in 0..400 {
        let fields: Vec<_> = (0..1_000).map(|_| draw()).collect();
        let slices: Vec<_> = fields.iter().map(|(field, _)| (&field[..], vec![0])).collect();
        for ((field, len), ours) in fields.iter().zip(driver.label_lens(&slices)) {
            let [ours] = ours[..] else { panic!("one answer, not {ours:?}") };
            assert_eq!(ours, plain::label_len(field, 0), "field {field:?}");
            assert_eq!(ours, len.unwrap_or(ours), "field {field:?}");
            of_length[ours] += 1;
            let ends = field.iter().rposition(|&b| b != b' ').map_or(0, |last| last + 1);
            empty += usize::from(ends == 0);
            space_inside += usize::from(field[..ends].contains(&b' '));
            off_the_list += usize::from(field.iter().any(|b| off.contains(b)));
        }
    }
    for seen in of_length.into_iter().chain([empty, space_inside, off_the_list]) {
        assert!(
            seen > 10_000,
            "lengths {of_length:?}, empty {empty}, space inside {space_inside}, off the list {off_the_list}"
        );
    }
}

#[test]
fn every_offset_of_short_slices_agrees() {
    let mut random = Random(0x5eed_1abe_1000_0002);
    let (on, off) = on_and_off_the_list();
    // Mostly listed bytes or mostly spaces, so that labels of every length stand at some offset.
    let mut draw = |len: usize| -> Vec<u8> {
        let spaces = 1 + below(&mut random, 8);
        (0..len)
            .map(|_| match below(&mut random, 40) {
                0 => one_of(&mut random, &off),
                k if k <= 4 * spaces => b' ',
                _ => one_of(&mut random, &on),
            })
            .collect()
    };
    let mut driver = Driver::start();
    let mut of_length = [0; 9];
    for len in 0..=20 {
        let far = [usize::MAX / 2, usize::MAX - 8, usize::MAX - 7, usize::MAX - 1, usize::MAX];
        let ats: Vec<usize> = (0..=len + 9).chain(far).collect();
        let drawn: Vec<_> = (0..2_000).map(|_| draw(len)).collect();
        let slices: Vec<_> = drawn.iter().map(|bytes| (&bytes[..], ats.clone())).collect();
        for (bytes, ours) in drawn.iter().zip(driver.label_lens(&slices)) {
            for (&at, ours) in ats.iter().zip(ours) {
                assert_eq!(ours, plain::label_len(bytes, at), "bytes {bytes:?} at {at}");
                assert!(ours == 0 || at + 8 <= len, "bytes {bytes:?} at {at}");
                of_length[ours] += 1;
            }
        }
    }
    assert!(of_length.into_iter().all(|seen| seen > 100), "lengths {of_length:?}");
}
