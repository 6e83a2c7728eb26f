//! The layer of types: each thing used once, and the words of every refusal.

mod common;

use common::{but, first_roll, laser, plan_p, FILE_LASER, FILE_P, FIRST_LISTING};
use wilatkhun::{check, find, listing, read_file, write_file};
use wilatkhun::{Base, Device, Down, Letter, Place, Plan, Record, Refusal, Yard};

const REQUEST: Record = Record { command: 1, flags: 1, willing: 1, lost: 0 };

fn refused<T>(number: u8, index: usize) -> Result<T, Refusal> {
    Err(Refusal { number, index })
}

#[test]
fn plans_are_checked() {
    assert_eq!(check(&plan_p()), Ok(()));
    assert_eq!(check(&but(|p| p.slots[0].r = 6)), refused(8, 1));
    assert_eq!(check(&but(|p| p.slots[1].e = 2)), refused(7, 1));
    assert_eq!(check(&but(|p| p.n = 9)), refused(1, 0));
    assert_eq!(Plan::from_bytes(&plan_p().to_bytes()), plan_p());
}

#[test]
fn a_yard_is_fresh_and_ticks() {
    let mut yard = Yard::fresh(&plan_p()).unwrap();
    assert_eq!((yard.base(), yard.place_clock(), yard.lease_clock()), (Base::FallBack, 0, 0));
    assert_eq!(yard.tick(&plan_p(), REQUEST), Ok(Down::LeaseReq(1)));
    assert_eq!(yard.base(), Base::Lease(1));
    assert_eq!(yard.device(1), Some(Device { place: Place::Entering, clock: 0, letter: Some(Letter::Approve) }));
    assert_eq!(yard.device(2), Some(Device { place: Place::Requesting, clock: 0, letter: None }));
    assert_eq!((yard.device(0), yard.device(9)), (None, None));
    let before = yard;
    assert_eq!(yard.tick(&plan_p(), Record { flags: 4, ..REQUEST }), refused(10, 1));
    assert_eq!(yard.tick(&but(|p| p.w = 5), REQUEST), refused(4, 0));
    assert_eq!(yard, before);
    assert_eq!(Yard::fresh(&but(|p| p.q = 10)), refused(5, 0));
}

#[test]
fn a_yard_is_kept_as_bytes() {
    let mut yard = Yard::fresh(&plan_p()).unwrap();
    yard.tick(&plan_p(), REQUEST).unwrap();
    assert_eq!(Yard::from_bytes(yard.to_bytes()), Ok(yard));
    for (at, byte) in [(0, 4), (10, 6), (39, 6)] {
        let mut bytes = yard.to_bytes();
        bytes[at] = byte;
        assert_eq!(Yard::from_bytes(bytes), refused(11, 0));
    }
}

#[test]
fn a_run_and_its_refusals() {
    let (mut yard, mut engaged) = (Yard::fresh(&plan_p()).unwrap(), [0; 10]);
    assert_eq!(yard.run(&plan_p(), &first_roll(), 10, &mut engaged[..9]), refused(13, 0));
    assert_eq!(yard.run(&plan_p(), &first_roll()[..39], 10, &mut engaged), refused(12, 0));
    assert_eq!(yard.run(&plan_p(), &first_roll(), 10, &mut engaged), Ok(10));
    assert_eq!(engaged, [0, 1, 1, 1, 3, 3, 3, 1, 1, 0]);
}

#[test]
fn files_are_read_and_pieces_found() {
    let (file, roll) = (FILE_P, first_roll());
    assert_eq!(read_file(&file), Ok(plan_p()));
    assert_eq!(read_file(&file[1..]), refused(14, 0));
    assert_eq!(find(&file[1..], &roll), &file[32..]);
    assert_eq!(find(&file, &roll[..38]), &roll[36..38]);
    assert!(find(&file, &roll).is_empty());
}

#[test]
fn plans_are_written_and_read_back() {
    for (plan, by_hand) in [(plan_p(), FILE_P), (laser(), FILE_LASER)] {
        let mut file = [0xA5; 50];
        assert_eq!(write_file(&plan, &mut file), Ok(42));
        assert_eq!((&file[..42], &file[42..]), (&by_hand[..], &[0xA5; 8][..]));
        assert_eq!(read_file(&file[..42]), Ok(plan));
    }
    let mut file = [0xA5; 42];
    assert_eq!(write_file(&plan_p(), &mut file[..41]), refused(20, 0));
    assert_eq!(write_file(&but(|p| p.slots[0].r = 6), &mut file[..41]), refused(8, 1));
    assert_eq!(file, [0xA5; 42]);
}

#[test]
fn the_first_listing() {
    assert_eq!(listing(&plan_p(), &first_roll()).as_deref(), Ok(FIRST_LISTING));
    assert_eq!(listing(&plan_p(), &[]).as_deref(), Ok("tick sup d1 d2 down\n"));
    assert_eq!(listing(&plan_p(), &[7; 8]), refused(10, 1));
    assert_eq!(listing(&but(|p| p.n = 1), &[]), refused(1, 0));
    // More than a page: every line is there, and the numbers go on.
    let text = listing(&plan_p(), &first_roll().repeat(2_000)).unwrap();
    assert_eq!(text.lines().count(), 20_001);
    assert!(text.lines().last().is_some_and(|line| line.starts_with("20000 ")));
}

#[test]
fn refusals_have_words() {
    let said = |number, index| Refusal { number, index }.to_string();
    assert_eq!(
        said(8, 1),
        "refused 8 1: a device may exit before the next has left (c6) (index: the device before); \
         what to do: lengthen its running, or shorten the next device's stay"
    );
    assert_eq!(
        said(10, 7),
        "refused 10 7: a record of the roll has a bit or command that means nothing (index: its number from 1); \
         what to do: mend or drop that record"
    );
    for number in (1..=20).chain([27]) {
        assert!(!said(number, 0).contains("no refusal has"), "{number}");
    }
    assert!(said(21, 0).contains("no refusal has this number"));
    let error: Box<dyn std::error::Error> = Box::new(Refusal { number: 14, index: 0 });
    assert!(error.to_string().starts_with("refused 14 0: "));
}
