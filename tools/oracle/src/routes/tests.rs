use super::assumed::{self, first_broken, ASSUMED};
use super::listed::wrong::{self, Wrong};
use super::listed::{says, Reader, Says};
use super::processor::Processor;
use super::*;
use crate::model::TokenKind::{Keyword, Punct, Register, Symbol, Text};
use crate::record::{example, Record};
use crate::rng::Rng;
use crate::rows::Token;
use crate::{gen, listing, model::TokenKind, questions};

fn line(tokens: &[(TokenKind, &str)]) -> Row {
    let tokens = tokens.iter().map(|(kind, text)| Token { kind: *kind as u8, text: text.as_bytes().to_vec() });
    Row { tokens: tokens.collect(), ..Row::default() }
}

fn lines(record: &Record) -> Vec<Row> {
    lines_of(&listing::list_record(record, 0, record.blocks.len()).unwrap())
}

/// Both routes of a record.
fn both(record: &Record, outcomes: &[bool], most: usize) -> (Route, Route) {
    (Reader::new(&lines(record)).route(outcomes, most), Processor::new(record).unwrap().route(outcomes, most))
}

#[test]
fn what_lines_say() {
    let x = (Register, "eax");
    let condition = [(Keyword, "if"), (Punct, " ("), x, (Punct, " == 0) ")];
    let with = |more: &[(TokenKind, &'static str)]| line(&[&condition[..], more].concat());
    assert_eq!(says(&line(&[(Symbol, "loc_10"), (Punct, ":")])), Says::Label(b"loc_10"));
    assert_eq!(says(&line(&[(Keyword, "do"), (Punct, " {")])), Says::Do);
    assert_eq!(says(&line(&[(Punct, "}")])), Says::Brace);
    assert_eq!(says(&line(&[(Punct, "} "), (Keyword, "while"), (Punct, " ("), x, (Punct, ");")])), Says::While);
    assert_eq!(says(&line(&[(Keyword, "if"), (Punct, " ("), x, (Punct, ")) {")])), Says::If);
    assert_eq!(says(&with(&[(Keyword, "goto"), (Text, " "), (Symbol, "loc_10"), (Punct, ";")])), Says::BranchTo(b"loc_10"));
    assert_eq!(says(&with(&[x, (Punct, " = "), x, (Punct, ";")])), Says::Plain);
    assert_eq!(says(&line(&[(Keyword, "goto"), (Text, " "), (Symbol, "loc_10"), (Punct, ";")])), Says::Goto(b"loc_10"));
    assert_eq!(says(&line(&[(Keyword, "goto"), (Punct, " *"), x, (Punct, ";")])), Says::Leave);
    assert_eq!(says(&line(&[(Keyword, "return"), (Punct, ";")])), Says::Return);
    assert_eq!(says(&line(&[(Keyword, "return"), (Text, " "), x, (Punct, ";")])), Says::Return);
    assert_eq!(says(&line(&[(Keyword, "return"), (Text, " "), (Symbol, "f"), (Punct, "();")])), Says::Leave);
}

/// A name is no word of the listing's own, whatever its text: tokens tell them apart.
#[test]
fn names_say_nothing() {
    assert_eq!(says(&line(&[(Symbol, "loc_10"), (Punct, " = "), (Register, "eax"), (Punct, ";")])), Says::Plain);
    for word in ["do", "if", "goto", "return"] {
        assert_eq!(says(&line(&[(Symbol, word), (Punct, " {")])), Says::Plain);
    }
}

/// Document 01's example: the branch over `eax = 5;`, taken and not.
#[test]
fn the_example_both_ways() {
    let taken = Route { met: vec![(0, 0x1002), (2, 0x1010)], stop: Stop::Returned };
    let not = Route { met: vec![(0, 0x1002), (1, 0x1004), (2, 0x1010)], stop: Stop::Returned };
    let cut = |most: usize| Route { met: not.met[..most].to_vec(), stop: Stop::Enough };
    assert_eq!(both(&example(), &[true], 9), (taken.clone(), taken));
    assert_eq!(both(&example(), &[false], 9), (not.clone(), not.clone()));
    for most in 0..3 {
        assert_eq!(both(&example(), &[false], most), (cut(most), cut(most)));
    }
    let dry = Route { stop: Stop::Dry, ..cut(1) };
    assert_eq!(both(&example(), &[], 9), (dry.clone(), dry));
    assert_eq!(first_broken(&example()), Ok(0));
}

#[test]
fn a_number_comes_with_no_assumption() {
    let mut broken = [7, 7];
    assert_eq!((assumed::check(&[], &mut broken), broken), (1, [0, 7]));
    assert_eq!((assumed::check(&example().to_bytes(), &mut broken), broken), (0, [0, 7]));
    assert_eq!(assumed::check(&Record { bits: 64, ..Record::default() }.to_bytes(), &mut broken), 0);
    assert_eq!(broken, [1, 7]);
    assert_eq!(assumed::check(&example().to_bytes(), &mut []), 0);
    assert_eq!(ASSUMED.len(), 12);
}

/// The record of `examples/follow-N.txt`, which breaks assumption N.
fn breaking(number: usize) -> Record {
    let file = format!("{}/../../examples/follow-{number}.txt", env!("CARGO_MANIFEST_DIR"));
    Record::parse(&notation::assemble(&std::fs::read(file).unwrap()).unwrap().to_bytes())
}

/// Each breaks its own assumption and no other. Of 6 and 11 the goto's name is no label's either, since it is none to a block or by another name.
#[test]
fn each_assumption_is_broken_alone() {
    for number in 1..=12 {
        let record = breaking(number);
        assert_eq!(questions::first_no(&record.to_bytes(), 0, record.blocks.len()), 0);
        assert_eq!(first_broken(&record), Ok(number));
        let broken: Vec<usize> = (1..12).filter(|n| !assumed::holds(&record, *n)).collect();
        assert!(broken.is_empty() && number == 12 || broken == [number], "{number}: {broken:?}");
        let stand = assumed::labels_stand(&listing::list_record(&record, 0, record.blocks.len()).unwrap());
        assert_eq!(stand, ![6, 11, 12].contains(&number));
    }
}

/// The addresses that both routes meet with these outcomes, and how they end.
fn met(number: usize, outcomes: &[bool]) -> [(Vec<u64>, Stop); 2] {
    let (listed, processor) = both(&breaking(number), outcomes, 9);
    [listed, processor].map(|route| (route.met.into_iter().map(|(_, address)| address).collect(), route.stop))
}

#[test]
fn what_differs_then() {
    use Stop::*;
    let parts = |listed: (&[u64], Stop), processor: (&[u64], Stop)| {
        [listed, processor].map(|(addresses, stop)| (addresses.to_vec(), stop))
    };
    assert_eq!(met(2, &[]), parts((&[0x1002, 0x1010], Returned), (&[0x1010], Returned)));
    assert_eq!(met(3, &[]), parts((&[0x1000, 0x1010, 0x1015], Returned), (&[0x1000], Returned)));
    assert_eq!(met(4, &[true]), parts((&[0x1003, 0x1010], Returned), (&[0x1003, 0x1008, 0x1010], Returned)));
    assert_eq!(met(4, &[]), parts((&[0x1003], Dry), (&[0x1003, 0x1008, 0x1010], Returned)));
    assert_eq!(met(6, &[]), parts((&[0x1000, 0x1020], Lost), (&[0x1000, 0x1020, 0x1010, 0x1015], Returned)));
    assert_eq!(met(9, &[]), parts((&[0x1000, 0x1020], Returned), (&[0x1000, 0x1010, 0x1015], Returned)));
    assert_eq!(met(10, &[]), parts((&[0x1000, 0x1010, 0x1015], Returned), (&[0x1000, 0x1020], Returned)));
    assert_eq!(met(12, &[]), parts((&[0x1000], Lost), (&[0x1000, 0x1020], Returned)));
}

/// 1 and 11 lead nowhere in either. Of 5, 7 and 8 the tokens still tell.
#[test]
fn what_does_not() {
    let same = |addresses: &[u64], stop: Stop| [(addresses.to_vec(), stop), (addresses.to_vec(), stop)];
    assert_eq!(met(1, &[]), same(&[], Stop::Lost));
    assert_eq!(met(11, &[true]), same(&[0x1002], Stop::Lost));
    assert_eq!(met(11, &[false]), same(&[0x1002, 0x1004], Stop::Returned));
    assert_eq!(met(5, &[]), same(&[0x1000], Stop::Left));
    assert_eq!(met(7, &[false]), same(&[0x1002, 0x1004], Stop::Left));
    assert_eq!(met(8, &[]), same(&[0x1000, 0x1001, 0x1006], Stop::Returned));
}

/// Of some records that are as assumed, how many have another route if the listing is read so.
fn differ(wrong: Wrong) -> usize {
    let mut rng = Rng::new(7);
    let records = (0..600).map(|_| gen::followed(&mut rng)).filter(|r| first_broken(r) == Ok(0));
    let outcomes = [[true; 20], [false; 20], std::array::from_fn(|n| n % 3 == 0), std::array::from_fn(|n| n % 3 != 0)];
    let differs = |record: &Record| {
        let (lines, processor) = (lines(record), Processor::new(record).unwrap());
        let reader = Reader::new(&lines);
        outcomes.iter().any(|o| wrong::route(&reader, o, 50, wrong) != processor.route(o, 50))
    };
    records.filter(differs).count()
}

#[test]
fn wrong_readings_are_noticed() {
    use Wrong::*;
    assert_eq!(differ(Nothing), 0);
    let wrong = [
        IfEnteredWhenTaken, IfToNextBrace, WhileBackWhenNot, WhileTooFar, GotoOn, BranchOn, BranchWhenNot, LabelsMet, DosMet,
        BracesMet, MovesDecide, CallsReturn,
    ];
    for wrong in wrong {
        let count = differ(wrong);
        println!("{wrong:?}: {count} differ");
        assert!(count > 0, "{wrong:?} is not noticed");
    }
}
