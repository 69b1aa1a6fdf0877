//! The clauses of the control form by name, and forms that break one of them alone.

use crate::control::{bit, count, has, kept, rail_mark, serial_of, table_mark, Form, FORM, HIGHEST_SERIAL, SERIAL};
use crate::image::{CONTROL, MOST_ACTIVE};
use crate::images::whole_control;
use crate::random::Random;
use crate::sites::unpack_pairs;
use std::ops::Range;
use Clause::*;

#[derive(Clone, Copy, Debug, PartialEq, Eq, PartialOrd, Ord)]
pub enum Clause {
    CountZero,
    CountOverFour,
    FirstByteZeros,
    UnusedMask,
    MarkBeyondCount,
    TableMarkBeyondCount,
    BothMarks,
    PairOfEqualCards,
    PairNotOfMembers,
    KeptWithoutTable,
    KeptBeyondCount,
    OpenTransactionZeros,
    ClosedTransaction,
    LastBytes,
    SerialBelowCount,
    SerialTooHigh,
    WorkingAndFailed,
    FewMembers,
    MemberUnknown,
    ThirdLacksMember,
    ThirdIsFourth,
    ThirdHasSeveralMore,
    ThirdHasWorkingMore,
    NewestMemberIdle,
    TwoFailed,
    FewWorking,
    HomeNotWorking,
    StoppedAndOpen,
}

pub const CLAUSES: [Clause; 28] = [
    CountZero, CountOverFour, FirstByteZeros, UnusedMask, MarkBeyondCount, TableMarkBeyondCount, BothMarks,
    PairOfEqualCards, PairNotOfMembers, KeptWithoutTable, KeptBeyondCount, OpenTransactionZeros, ClosedTransaction,
    LastBytes, SerialBelowCount, SerialTooHigh, WorkingAndFailed, FewMembers, MemberUnknown, ThirdLacksMember,
    ThirdIsFourth, ThirdHasSeveralMore, ThirdHasWorkingMore, NewestMemberIdle, TwoFailed, FewWorking, HomeNotWorking,
    StoppedAndOpen,
];

/// The clauses that the bytes break. Clauses on placements speak of those that there are.
pub fn broken(bytes: &Form) -> Vec<Clause> {
    let number = (bytes[0] >> 4 & 7) as usize;
    let (active, unused) = bytes[1..5].split_at(number.min(4));
    let mut found = Vec::new();
    let mut add = |clause: Clause, holds: bool| if holds { found.push(clause) };
    add(CountZero, number == 0);
    add(CountOverFour, number > 4);
    add(FirstByteZeros, bytes[0] & 0x0F != 0);
    add(UnusedMask, unused.iter().any(|mask| *mask != 0));
    let transactions = &bytes[8..23];
    add(OpenTransactionZeros, transactions.iter().any(|byte| byte & 0x80 != 0 && byte & 0x0F != 0));
    add(ClosedTransaction, transactions.iter().any(|byte| byte & 0x80 == 0 && *byte != 0));
    add(LastBytes, bytes[SERIAL.end..CONTROL].iter().any(|byte| *byte != 0));
    let (serial, newest) = (serial_of(&bytes[SERIAL]), active.last().map_or(0, |mask| count(*mask)));
    add(SerialBelowCount, serial < number as u32);
    add(SerialTooHigh, serial + newest as u32 > HIGHEST_SERIAL);
    let (working, failed) = (bytes[5], bytes[6]);
    add(WorkingAndFailed, working & failed != 0);
    add(FewMembers, active.iter().any(|mask| count(*mask) < 2));
    add(MemberUnknown, active.iter().any(|mask| mask & !(working | failed) != 0));
    found.extend(faults_of_tables(bytes, active));
    if number == 4 {
        found.extend(fault_of_third(active[2], active[3], failed));
    }
    found.extend(faults_of_state(bytes[0] & 0x80 != 0, active, working, failed, transactions));
    found
}

/// What is wrong with the marks, and with what is kept for placements.
fn faults_of_tables(bytes: &Form, active: &[u8]) -> Vec<Clause> {
    let mut faults = Vec::new();
    for place in 0..MOST_ACTIVE {
        let (rails, table) = (bytes[7] & rail_mark(place) != 0, bytes[7] & table_mark(place) != 0);
        let keeps = kept(bytes, place).iter().any(|byte| *byte != 0);
        let Some(mask) = active.get(place) else {
            let beyond = [(MarkBeyondCount, rails), (TableMarkBeyondCount, table), (KeptBeyondCount, keeps)];
            faults.extend(beyond);
            continue;
        };
        let pairs = unpack_pairs(kept(bytes, place));
        let outside = |pair: &[u8; 2]| pair.iter().any(|card| !has(*mask, (*card).into()));
        faults.extend([
            (BothMarks, rails && table),
            (KeptWithoutTable, !table && keeps),
            (PairOfEqualCards, table && pairs.iter().any(|pair| pair[0] == pair[1])),
            (PairNotOfMembers, table && pairs.iter().any(outside)),
        ]);
    }
    let mut found: Vec<Clause> = faults.into_iter().filter(|(_, holds)| *holds).map(|(clause, _)| clause).collect();
    found.sort();
    found.dedup();
    found
}

/// What keeps the third mask from being the fourth plus exactly one failed card.
fn fault_of_third(third: u8, fourth: u8, failed: u8) -> Option<Clause> {
    let more = third & !fourth;
    match count(more) {
        _ if fourth & !third != 0 => Some(ThirdLacksMember),
        0 => Some(ThirdIsFourth),
        1 if more & failed == 0 => Some(ThirdHasWorkingMore),
        1 => None,
        _ => Some(ThirdHasSeveralMore),
    }
}

/// The clauses that depend on whether the store is stopped.
fn faults_of_state(stopped: bool, active: &[u8], working: u8, failed: u8, transactions: &[u8]) -> Vec<Clause> {
    let mut open = transactions.iter().filter(|byte| **byte & 0x80 != 0);
    let faults = if stopped {
        vec![(StoppedAndOpen, open.next().is_some())]
    } else {
        vec![
            (NewestMemberIdle, active.last().is_some_and(|mask| mask & !working != 0)),
            (TwoFailed, active.iter().any(|mask| count(mask & failed) > 1)),
            (FewWorking, active.iter().any(|mask| count(mask & working) < 2)),
            (HomeNotWorking, open.any(|byte| !has(working, (byte >> 4 & 7) as usize))),
        ]
    };
    faults.into_iter().filter(|(_, holds)| *holds).map(|(clause, _)| clause).collect()
}

/// The bytes in which a fault of the clause lies.
fn bytes_of(clause: Clause) -> Range<usize> {
    match clause {
        CountZero | CountOverFour | FirstByteZeros => 0..1,
        UnusedMask => 1..5,
        MarkBeyondCount | TableMarkBeyondCount | BothMarks => 7..8,
        PairOfEqualCards | PairNotOfMembers | KeptWithoutTable | KeptBeyondCount => CONTROL..FORM,
        OpenTransactionZeros | ClosedTransaction | HomeNotWorking | StoppedAndOpen => 8..23,
        LastBytes => SERIAL.end..CONTROL,
        SerialBelowCount | SerialTooHigh => SERIAL,
        _ => 1..7,
    }
}

/// The serial's bytes, at a bound of the clause where it speaks of the serial.
fn serial_for(random: &mut Random, clause: Clause, bytes: &Form) -> [u8; 3] {
    let number = u32::from(bytes[0] >> 4 & 7);
    let serial = match clause {
        SerialBelowCount => random.below(number.max(1) as usize) as u32,
        SerialTooHigh => HIGHEST_SERIAL - random.below(9) as u32 + random.one_of(&[0, 1, 7, 100]),
        _ => return [bytes[23], bytes[24], bytes[25]],
    };
    let [_, high, middle, low] = serial.to_be_bytes();
    [high, middle, low]
}

/// The bytes of a form that breaks this clause and no other.
pub fn broken_control(random: &mut Random, clause: Clause) -> Form {
    loop {
        let number = 1 + random.below(4);
        let stopped = random.chance(500);
        let mut bytes = whole_control(random, number, stopped);
        for _ in 0..1 + random.below(2) {
            let faulty = random.one_of(&bytes_of(clause).collect::<Vec<usize>>());
            bytes[faulty] ^= if random.chance(500) { bit(random.below(8)) } else { random.byte() };
        }
        let serial = serial_for(random, clause, &bytes);
        bytes[SERIAL].copy_from_slice(&serial);
        if clause == CountZero {
            bytes[1..5].fill(0);
            bytes[7] = 0;
            bytes[CONTROL..].fill(0);
        }
        if broken(&bytes) == [clause] {
            return bytes;
        }
    }
}
