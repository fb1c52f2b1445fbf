//! The wrapper against the paper's sessions, and what it refuses.

use am33c93a::{auxiliary, code, command, line, register, Answer, Controller, NoImage, Parity, Phase, IMAGE_LENGTH};

fn read_at(chip: &mut Controller, address: u8) -> Answer {
    chip.set_pointer(address);
    chip.read_register()
}

fn write_at(chip: &mut Controller, address: u8, byte: u8) -> Answer {
    chip.set_pointer(address);
    chip.write_register(byte)
}

fn good(chip: &mut Controller, phase: Phase, byte: u8) -> Answer {
    chip.request(phase, byte, Parity::Good)
}

/// Transfer Info of this phase with this count.
fn transferring(phase: Phase, count: u8) -> Controller {
    let mut chip = Controller::fresh();
    write_at(&mut chip, register::COMMAND, command::SELECT);
    assert_eq!(chip.answer(), Answer::Done(0));
    assert_eq!(read_at(&mut chip, register::SCSI_STATUS), Answer::Done(code::SELECTED.into()));
    assert_eq!(good(&mut chip, phase, 0), Answer::Reported);
    read_at(&mut chip, register::SCSI_STATUS);
    write_at(&mut chip, register::COUNT_LOW, count);
    assert_eq!(write_at(&mut chip, register::COMMAND, command::TRANSFER_INFO), Answer::Done(0));
    chip
}

fn session_1() -> Controller {
    let mut chip = Controller::fresh();
    write_at(&mut chip, register::TIMEOUT, 2);
    write_at(&mut chip, register::COMMAND, command::SELECT_TRANSFER_WITH_ATN);
    assert_eq!(chip.lines(), Answer::Done(line::SELECTING));
    assert_eq!(chip.time(1), Answer::Done(0));
    assert_eq!(chip.answer(), Answer::Done(0));
    assert_eq!(chip.lines(), Answer::Done(line::CONNECTED | line::ATN));
    assert_eq!(good(&mut chip, Phase::MessageOut, 0), Answer::Done(0x80));
    for _ in 0..6 {
        assert_eq!(good(&mut chip, Phase::Command, 0), Answer::Done(0));
    }
    assert_eq!(good(&mut chip, Phase::Status, 2), Answer::Done(2));
    assert_eq!(good(&mut chip, Phase::MessageIn, 0), Answer::Done(0));
    assert_eq!(chip.auxiliary(), Answer::Done(auxiliary::INT.into()));
    assert_eq!(chip.free(), Answer::Held);
    assert_eq!(read_at(&mut chip, register::SCSI_STATUS), Answer::Done(code::COMPLETE.into()));
    assert_eq!(read_at(&mut chip, register::TARGET_LUN), Answer::Done(2));
    assert_eq!(chip.free(), Answer::Done(0));
    assert_eq!(read_at(&mut chip, register::SCSI_STATUS), Answer::Done(code::DISCONNECTED.into()));
    chip
}

#[test]
fn a_whole_command() {
    session_1();
}

#[test]
fn every_answer_but_bad_number() {
    let mut chip = Controller::fresh();
    assert_eq!(chip.read_pointer(), Answer::Done(0));
    assert_eq!(chip.free(), Answer::OutOfPlace);
    assert_eq!(read_at(&mut chip, 0xff), Answer::Blind);
    assert_eq!(chip.read_pointer(), Answer::Done(0));
    assert_eq!(read_at(&mut chip, register::DATA), Answer::NoDataNow);
    assert_eq!(chip.reselection(0x81), Answer::ReselectionIgnored);
    write_at(&mut chip, register::COMMAND, command::RESET);
    assert_eq!(write_at(&mut chip, register::COMMAND, command::TRANSFER_INFO), Answer::CommandIgnored);
    assert_eq!(chip.auxiliary(), Answer::Done((auxiliary::INT | auxiliary::LCI).into()));
    let mut chip = transferring(Phase::DataOut, 3);
    assert_eq!(good(&mut chip, Phase::DataOut, 0), Answer::Held);
    assert_eq!(good(&mut chip, Phase::Status, 0), Answer::Reported);
    for (answer, number, value) in
        [(Answer::Done(5), 0, 5), (Answer::Held, 1, 0), (Answer::Blind, 4, 0xff), (Answer::NoDataNow, 7, 0xff)]
    {
        assert_eq!((answer.number(), answer.value()), (number, value));
    }
}

#[test]
fn blocks_in_move_what_waits_and_leave_the_rest() {
    for waiting in 0..=12 {
        for length in 0..=20 {
            let mut chip = transferring(Phase::DataIn, 200);
            (0..waiting).for_each(|n| assert_eq!(good(&mut chip, Phase::DataIn, 0x40 + n), Answer::Done(u32::from(0x40 + n))));
            let mut data = vec![0xee; length];
            let moved = length.min(waiting.into());
            assert_eq!(chip.read_block(&mut data), Answer::Done(moved as u32));
            assert!(data[..moved].iter().enumerate().all(|(n, byte)| *byte == 0x40 + n as u8));
            assert!(data[moved..].iter().all(|byte| *byte == 0xee));
        }
    }
}

#[test]
fn blocks_out_move_what_there_is_room_for() {
    static CONSTANT: [u8; 4096] = [0x33; 4096];
    for length in (0..=40).chain([4096]) {
        let mut chip = transferring(Phase::DataOut, 200);
        let mut one_by_one = chip.clone();
        assert_eq!(chip.write_block(&CONSTANT[..length]), Answer::Done(length.min(12) as u32));
        one_by_one.set_pointer(register::DATA);
        CONSTANT[..length.min(12)].iter().for_each(|byte| assert_eq!(one_by_one.write_register(*byte), Answer::Done(0)));
        one_by_one.set_pointer(register::COMMAND);
        assert_eq!(chip, one_by_one);
    }
}

#[test]
fn a_kept_image_comes_back() {
    let mut chip = transferring(Phase::DataIn, 200);
    good(&mut chip, Phase::DataIn, 0x77);
    let mut back = Controller::from_image(chip.image()).unwrap();
    assert_eq!(back, chip);
    assert_eq!(read_at(&mut back, register::DATA), Answer::Done(0x77));
    assert_ne!(back, chip);
    assert_eq!(Controller::from_image(&[0; IMAGE_LENGTH]), Ok(Controller::default()));
}

#[test]
fn bytes_that_are_no_image_are_refused() {
    for length in (0..=100).filter(|length| *length != IMAGE_LENGTH) {
        assert_eq!(Controller::from_image(&vec![0; length]), Err(NoImage));
    }
    // Byte and first value out of range (docs/IMAGE.md).
    let limits = [(26, 2), (27, 2), (30, 4), (32, 3), (33, 2), (34, 2), (35, 2), (36, 9), (37, 9), (38, 8), (40, 13), (41, 12)];
    for (at, limit) in limits {
        for value in 0..=255 {
            let mut image = [0; IMAGE_LENGTH];
            image[at] = value;
            assert_eq!(Controller::from_image(&image).is_ok(), value < limit, "byte {at} is {value}");
        }
    }
    // Bytes 28 and 31 together: INT (1) only where no command runs, an ending or a read-out (2, 3) only where one does.
    for pending in 0..=255 {
        for command in 0..=255 {
            let mut image = [0; IMAGE_LENGTH];
            (image[28], image[31]) = (pending, command);
            let is_state = matches!((pending, command), (0 | 1, 0) | (0 | 2 | 3, 1..=5));
            assert_eq!(Controller::from_image(&image).is_ok(), is_state, "byte 28 is {pending}, byte 31 is {command}");
        }
    }
    let mut image = [0; IMAGE_LENGTH];
    image[29] = 1;
    assert_eq!(Controller::from_image(&image), Err(NoImage), "a code, and no ending");
}

#[test]
fn places_of_the_fifo_hold_any_byte() {
    for at in 42..IMAGE_LENGTH {
        for value in 0..=255 {
            let mut image = [0; IMAGE_LENGTH];
            image[at] = value;
            assert_eq!(Controller::from_image(&image).map(|chip| *chip.image()), Ok(image), "byte {at} is {value}");
        }
    }
}

/// The same waiting bytes from this place on, and this byte in the other places (docs/IMAGE.md).
fn moved(chip: &Controller, oldest: usize, unused: u8) -> Controller {
    let (old, waiting) = (chip.image(), usize::from(chip.image()[40]));
    let mut image = *old;
    image[41] = oldest as u8;
    image[42..].fill(unused);
    (0..waiting).for_each(|n| image[42 + (oldest + n) % 12] = old[42 + (usize::from(old[41]) + n) % 12]);
    Controller::from_image(&image).unwrap()
}

#[test]
fn nobody_is_told_where_a_byte_stands() {
    for waiting in 0..=12 {
        let mut chip = transferring(Phase::DataIn, 200);
        (0..waiting).for_each(|n| assert_eq!(good(&mut chip, Phase::DataIn, 0x40 + n), Answer::Done(u32::from(0x40 + n))));
        chip.set_pointer(register::DATA);
        for (oldest, unused) in (0..12).flat_map(|oldest| [(oldest, 0), (oldest, 0xff)]) {
            let (mut one, mut other) = (chip.clone(), moved(&chip, oldest, unused));
            let (mut of_one, mut of_other) = ([0xee; 7], [0xee; 7]);
            assert_eq!(good(&mut one, Phase::DataIn, 0x99), good(&mut other, Phase::DataIn, 0x99));
            assert_eq!(one.read_register(), other.read_register());
            assert_eq!(one.read_block(&mut of_one), other.read_block(&mut of_other));
            assert_eq!(of_one, of_other);
            assert_eq!((one.auxiliary(), one.lines()), (other.auxiliary(), other.lines()));
            assert_eq!(one.image()[..=40], other.image()[..=40]);
        }
    }
}

#[test]
fn an_image_of_53_bytes_comes_back_with_a_0_behind_byte_40() {
    let mut chip = transferring(Phase::DataIn, 200);
    good(&mut chip, Phase::DataIn, 0x77);
    let before: Vec<u8> = [&chip.image()[..41], &chip.image()[42..]].concat();
    assert_eq!(Controller::from_image(&before), Err(NoImage));
    assert_eq!(Controller::from_image(&[&before[..41], &[0], &before[41..]].concat()), Ok(chip));
}

#[test]
fn looking_changes_nothing() {
    let chip = session_1();
    let before = chip.clone();
    for _ in 0..3 {
        (chip.auxiliary(), chip.read_pointer(), chip.lines());
    }
    assert_eq!(chip, before);
}

#[test]
fn each_thread_has_its_own() {
    let threads: Vec<_> = (0..4).map(|_| std::thread::spawn(|| (0..2000).map(|_| session_1()).last().unwrap())).collect();
    for thread in threads {
        assert_eq!(thread.join().unwrap(), session_1());
    }
}
