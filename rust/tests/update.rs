//! A whole update and a way back, as a device does them: each call's stores done in order, then start-up. And what the
//! types keep a caller from.

use meanderpeg::{
    repair, start_up, Acceptance, Answer, BankIndex, Guid, Refusal, Refused, Session, SessionState, AREA_BYTES,
    REPORT_BYTES, STORE_NUMBERS,
};
use second::make::{make_area, make_record, type_guid_for};

/// A device: its area, and the numbers lent to each call.
struct Device {
    area: Vec<u8>,
    numbers: Vec<u32>,
}

impl Device {
    fn new() -> Device {
        let record = make_record(2, 2, 0, 1);
        Device { area: make_area(&record, &record, 9), numbers: vec![0; STORE_NUMBERS] }
    }

    /// Does a call and its stores.
    fn call<F>(&mut self, call: F) -> Result<Session, Refused>
    where
        F: for<'n> FnOnce(&[u8], &'n mut [u32]) -> Result<Answer<'n>, Refused>,
    {
        let answer = call(&self.area, &mut self.numbers)?;
        let area = &mut self.area;
        Ok(answer.perform(|offset, word| area[offset..offset + 4].copy_from_slice(&word.to_le_bytes())))
    }

    fn report_line(&self, name: &str) -> String {
        let mut text = [0; REPORT_BYTES];
        let report = meanderpeg::report(&self.area, &mut text).expect("room for a report");
        report.lines().find(|line| line.starts_with(name)).expect("such a line").to_string()
    }
}

fn guid(image: usize) -> Guid {
    Guid::from_bytes(type_guid_for(image, 15))
}

#[test]
fn an_update_and_the_way_back() -> Result<(), Refusal> {
    let mut device = Device::new();
    assert_eq!(device.area.len(), AREA_BYTES);

    // Two images into bank 1, one of them still to be accepted.
    let session = start_up(&device.area, BankIndex::new(0))?;
    assert_eq!(session.state(), SessionState::Regular);
    let session = device.call(|area, numbers| session.begin(area, numbers))?;
    let session = device.call(|area, numbers| session.commit(area, guid(0), Acceptance::Accepted, numbers))?;
    assert_eq!(session.state(), SessionState::Staging { bank: BankIndex::new(1), set: 0b01 });
    // End is refused, and hands the session back.
    let before = device.area.clone();
    let refused = device.call(|area, numbers| session.end(area, numbers)).expect_err("an image is missing");
    assert_eq!(refused.refusal, Refusal::ImagesMissing(1));
    assert!(device.area == before);
    let session = refused.session;
    let session = device.call(|area, numbers| session.commit(area, guid(1), Acceptance::Unaccepted, numbers))?;
    let session = device.call(|area, numbers| session.end(area, numbers))?;
    assert_eq!((session.state(), &device.report_line("bank\t1")[..]), (SessionState::Restart, "bank\t1\t254"));

    // Bank 1 boots on trial and is accepted.
    let session = start_up(&device.area, BankIndex::new(1))?;
    assert_eq!(session.state(), SessionState::Trial);
    let before = device.area.clone();
    let session = device.call(|area, numbers| session.accept(area, guid(1), numbers))?;
    assert_eq!((session.state(), &device.report_line("bank\t1")[..]), (SessionState::Regular, "bank\t1\t252"));

    // Or bank 0 boots in its place, and the update is taken back.
    device.area = before;
    let session = start_up(&device.area, BankIndex::new(0))?;
    assert_eq!(session.state(), SessionState::Fallback);
    let session = device.call(|area, numbers| session.select_previous(area, numbers))?;
    assert_eq!((session.state(), &device.report_line("active")[..]), (SessionState::Restart, "active\t0"));
    assert_eq!(start_up(&device.area, BankIndex::new(0))?.state(), SessionState::Regular);
    Ok(())
}

/// A write that fails at any store: the session is gone, start-up reads the old record or the new, and repair mends.
#[test]
fn a_write_that_fails() -> Result<(), Refusal> {
    let device = Device::new();
    let mut numbers = [0; STORE_NUMBERS];
    let stores = start_up(&device.area, BankIndex::new(0))?.begin(&device.area, &mut numbers)?.stores().len();
    assert!(stores > 4);
    for failing in 0..stores {
        let mut area = device.area.clone();
        let answer = start_up(&area, BankIndex::new(0))?.begin(&area, &mut numbers)?;
        let mut done = 0;
        let failed = answer.try_perform(|offset, word| {
            if done == failing {
                return Err("worn out");
            }
            done += 1;
            area[offset..offset + 4].copy_from_slice(&word.to_le_bytes());
            Ok(())
        });
        assert_eq!((failed, done), (Err("worn out"), failing));
        repair(&area, &mut numbers)?.perform_in(&mut area)?;
        assert!(meanderpeg::soundness(&area)?.equal);
        assert_eq!(start_up(&area, BankIndex::new(0))?.state(), SessionState::Regular);
    }
    Ok(())
}

/// An area of another length than the one that the list was made for stays as it was.
#[test]
fn another_area() -> Result<(), Refusal> {
    let device = Device::new();
    let mut numbers = [0; STORE_NUMBERS];
    for length in [0, 1, AREA_BYTES - 1, AREA_BYTES + 1] {
        let mut other = vec![7; length];
        let answer = start_up(&device.area, BankIndex::new(0))?.begin(&device.area, &mut numbers)?;
        assert_eq!(answer.perform_in(&mut other), Err(Refusal::AreaLength));
        let mut spoilt = device.area.clone();
        spoilt[4] = 0;
        let repair = repair(&spoilt, &mut numbers)?;
        assert!(!repair.stores().is_empty());
        assert_eq!(repair.perform_in(&mut other), Err(Refusal::AreaLength));
        assert!(other.iter().all(|&byte| byte == 7));
    }
    Ok(())
}
