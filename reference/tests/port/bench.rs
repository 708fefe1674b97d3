//! The bench program's text.

use crate::support::{barely_blank, woken, ID_PACKET, WORKED_EXAMPLE, WRONG_ID_PACKET};
use reference::bench::text;
use reference::sessions::image;

#[test]
fn worked_example() {
    let input = woken(&[0x70, 0xFB]);
    assert_eq!(text(Some(&image()), &input), WORKED_EXAMPLE);
}

#[test]
fn missing_or_wrong_sized_image() {
    assert_eq!(text(None, &woken(&[0x70])), "refused 1\n");
    assert_eq!(text(Some(&[]), &[]), "refused 1\n");
    assert_eq!(text(Some(&[0xFF; 20_479]), &woken(&[])), "refused 1\n");
    assert_eq!(text(Some(&[0xFF; 20_481]), &woken(&[])), "refused 1\n");
}

#[test]
fn no_input() {
    assert_eq!(text(Some(&image()), &[]), "end 80 00\n");
    // A blank image's unit is open from the start.
    assert_eq!(text(Some(&[0xFF; 20_480]), &[]), "end 80 0C\n");
}

#[test]
fn a_page_is_one_line_and_the_last_line_shows_the_registers() {
    let mut blank = vec![0xFF; 20_480];
    blank[0] = 0x5A;
    blank[255] = 0x0B;
    let input = woken(&[0xFF, 0x20, 0x00, 0x20, 0xC0, 0x00, 0xD1]);
    let page = format!("20: 5A{} 0B", " FF".repeat(254));
    assert_eq!(
        text(Some(&blank), &input),
        format!("17: B0\n{page}\nend B0 0C\n")
    );
}

#[test]
fn the_right_id_opens_after_two_wrong_ones_and_not_after_three() {
    for (count, expected) in [
        (2, "17: B0\n40: 80 0C\nend 80 0C\n"),
        (3, "17: B0\n45: 80 04\nend 80 04\n"),
    ] {
        let packets = [&WRONG_ID_PACKET.repeat(count)[..], &ID_PACKET, &[0x70]].concat();
        assert_eq!(text(Some(&image()), &woken(&packets)), expected);
    }
}

#[test]
fn only_the_first_4096_bytes_count() {
    let mut input = woken(&[]);
    input.resize(4095, 0x00);
    input.extend_from_slice(&[0x70, 0x70, 0x70]);
    assert_eq!(
        text(Some(&image()), &input),
        "17: B0\n4096: 80 00\nend 80 00\n"
    );
}

#[test]
fn the_bench_protects_nothing_and_does_not_write_the_image_back() {
    let mut nearly = vec![0x00; 20_480];
    nearly[20_477..].fill(0xFF);
    // 0FFFC holds 00 here, 0FFFD to 0FFFF FF: not blank.
    assert_eq!(text(Some(&nearly), &[]), "end 80 00\n");
    let blank = barely_blank();
    // Erase all, then page 02000.
    let input = woken(&[0xA7, 0xD0, 0xFF, 0x20, 0x00]);
    let page = format!("22:{}", " FF".repeat(256));
    assert_eq!(
        text(Some(&blank), &input),
        format!("17: B0\n{page}\nend 80 0C\n")
    );
    assert_eq!(blank[0], 0x00);
}
