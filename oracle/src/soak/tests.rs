//! A side that is wrong in one way is found out, and the case is cut down to the smallest that shows it.

use super::*;
use crate::lines;
use crate::request::Refused;

/// How many cases are tried until a wrong side has to be found out.
const CASES: usize = 200_000;

/// A side as it should be.
fn right(oracle: &mut Oracle, request: &Request, lent: &mut Lent) -> Reply {
    let (reply, left) = answer(oracle, request);
    let outcome = settled(reply, &left, std::mem::take(lent));
    *lent = outcome.lent;
    outcome.reply
}

/// What a side that is right but for `spoil` is cut down to.
fn found(mut spoil: impl FnMut(&Request, &mut Reply, &mut Lent)) -> Case {
    let mut oracle = Oracle::default();
    let mut soak = Soak::new(|request: &Request, lent: &mut Lent| {
        let mut reply = right(&mut oracle, request, lent);
        spoil(request, &mut reply, lent);
        reply
    });
    let case = soak.run(&mut Random::new(1), CASES, &mut Tally::default());
    let case = soak.cut_down(case.expect("a difference"));
    assert!(!soak.compare(&case).agrees());
    case
}

/// Fails unless a case has this line, with `|` for tabs, and buffers of these lengths.
fn expect(case: Case, line: &str, [scratch, out]: [Length; 2]) {
    let found = lines::line(&case.request).replace('\t', "|");
    assert_eq!(
        (found.as_str(), case.room.scratch, case.room.out),
        (line, scratch, out)
    );
}

const EXACT: [Length; 2] = [Length::Exact; 2];

/// Whether the first or only blob is of a kind.
fn is(request: &Request, kind: Kind) -> bool {
    Kind::of(request.parts()[0]) == Some(kind)
}

/// The refusal of a reply, if it has this number.
fn refusal(reply: &mut Reply, number: u8) -> Option<&mut Refused> {
    let refused = reply.as_mut().err();
    refused.filter(|refused| refused.refusal.number == number)
}

fn zeros(bytes: usize) -> String {
    "00".repeat(bytes)
}

#[test]
fn the_right_side_does_not_differ() {
    let mut oracle = Oracle::default();
    let mut soak =
        Soak::new(|request: &Request, lent: &mut Lent| right(&mut oracle, request, lent));
    let mut tally = Tally::default();
    assert_eq!(soak.run(&mut Random::new(1), CASES, &mut tally), None);
    assert_eq!(tally.requests(), CASES as u64);
    let counts = tally.words.iter().flatten();
    let counts = counts.chain(tally.conversions.iter().flatten());
    assert!(counts.min() > Some(&500), "{tally}");
    // 1 takes a blob at a limit
    assert!(tally.refusals[2..].iter().min() > Some(&0), "{tally}");
    assert_eq!(tally.refusals[0], 0);
}

#[test]
fn a_wrong_sign_of_zero() {
    let case = found(|request, reply, _| match reply {
        Ok(Answer::Measured(measured)) if measured.readings == [0, 0] => {
            let dot = request.word() == "dot";
            measured.bits ^= u64::from(dot) << 63;
        }
        _ => {}
    });
    expect(case, "dot||", EXACT);
}

#[test]
fn a_wrong_bit_of_a_distance() {
    let case = found(|request, reply, _| match reply {
        Ok(Answer::Nearer(nearer)) if nearer.readings >= 5 => {
            let dense = is(request, Kind::Float32Dense);
            nearer.bits ^= u64::from(dense);
        }
        _ => {}
    });
    let five = zeros(20);
    expect(case, &format!("near|cos|{five}|{five}|{five}"), EXACT);
}

#[test]
fn a_wrong_number() {
    let case = found(|_, reply, _| {
        if let Some(refused) = refusal(reply, 14) {
            refused.refusal.number = 13;
        }
    });
    expect(case, "l2|000803|000803", EXACT);
}

#[test]
fn a_wrong_blob() {
    let case = found(|_, reply, _| {
        if let Some(name @ Some('b')) = refusal(reply, 2).map(|refused| &mut refused.blob) {
            *name = Some('a');
        }
    });
    expect(case, "cos||05", EXACT);
}

#[test]
fn a_wrong_entry() {
    let case = found(|_, reply, _| {
        if let Some(Refused { refusal, .. }) = refusal(reply, 10) {
            refusal.carried = refusal.carried.map(|entry| entry - 1);
        }
    });
    expect(case, &format!("strict|{}0100000009", zeros(16)), EXACT);
    let case = found(|_, reply, _| match refusal(reply, 8) {
        Some(Refused { refusal, blob }) if *blob == Some('p') => refusal.carried = Some(7),
        _ => {}
    });
    expect(case, &format!("near|cos|{}09||", zeros(12)), EXACT);
}

#[test]
fn a_wrong_count() {
    let case = found(|request, reply, _| match reply {
        Ok(Answer::Converted(view)) if is(request, Kind::Float32Dense) => view.readings = view.dims,
        _ => {}
    });
    expect(case, "conv|9|00000000", EXACT);
    let case = found(|request, reply, _| match reply {
        Ok(Answer::Measured(measured)) if is(request, Kind::Float32Sparse) => {
            let [first, _] = &mut measured.readings;
            *first = (*first).min(1);
        }
        _ => {}
    });
    let two = zeros(16);
    expect(case, &format!("cos|{two}0100000009|0100000009"), EXACT);
}

/// Of all entries the one at place 5 is left, with its own index.
#[test]
fn a_wrong_reading() {
    let case = found(|request, reply, _| match reply {
        Ok(Answer::Converted(view)) if is(request, Kind::Float32Sparse) => {
            let dense = view.kind == Kind::Float32Dense;
            if dense && view.body.get(23).is_some_and(|&byte| byte > 0) {
                view.body[20] ^= 1;
            }
        }
        _ => {}
    });
    expect(case, "conv|1|00000001050000000600000009", EXACT);
}

/// Of all kinds the one that has three dims in the fewest bytes.
#[test]
fn a_wrong_body_of_any_kind() {
    let case = found(|_, reply, _| match reply {
        Ok(Answer::Converted(view)) if view.kind == Kind::Float8 && view.dims == 3 => {
            view.body[3] ^= 1;
        }
        _ => {}
    });
    expect(case, "conv|4|000d03", EXACT);
}

/// Far from any small request: of all kinds the one that has 60,000 readings in the fewest bytes.
#[test]
fn a_wrong_count_at_a_limit() {
    let case = found(|_, reply, _| match reply {
        Ok(Answer::Read(view)) if view.readings >= 60_000 => view.readings -= 1,
        _ => {}
    });
    expect(case, &format!("read|{}0803", zeros(7_501)), EXACT);
}

#[test]
fn scratch_is_looked_at_before_the_output() {
    let buffers = |byte, scratch, out| Lent {
        scratch: vec![byte; scratch],
        out: vec![byte; out],
    };
    let left = buffers(1, 4, 2);
    let end = || Ok(Answer::Found(None));
    let too_short = |number, need| Err(Refusal::carrying(number, need).into());
    for (lent, reply) in [
        (buffers(9, 3, 1), too_short(17, 4)),
        (buffers(9, 3, 2), too_short(17, 4)),
        (buffers(9, 4, 1), too_short(15, 2)),
    ] {
        let outcome = settled(end(), &left, lent.clone());
        assert_eq!(outcome, Outcome { reply, lent });
    }
    let outcome = settled(end(), &left, buffers(9, 5, 3));
    assert_eq!(outcome.reply, end());
    assert_eq!(outcome.lent.scratch, [1, 1, 1, 1, 9]);
    assert_eq!(outcome.lent.out, [1, 1, 9]);
}

#[test]
fn a_byte_past_the_result() {
    let case = found(|_, reply, lent| match reply {
        Ok(Answer::Written(blob)) if lent.out.len() > blob.len() => lent.out[blob.len()] ^= 1,
        _ => {}
    });
    expect(case, "write|1|0|", [Length::Exact, Length::LongerBy(1)]);
}

#[test]
fn a_byte_of_scratch() {
    let case = found(|request, _, lent| match request {
        Request::Convert { target, .. } if *target == Kind::Float32Dense => {
            lent.scratch.iter_mut().for_each(|byte| *byte ^= 1);
        }
        _ => {}
    });
    expect(case, "conv|1|", [Length::LongerBy(1), Length::Exact]);
    // the dense body is to be there
    let case = found(|request, reply, lent| match reply {
        Ok(Answer::Converted(view))
            if is(request, Kind::Float32Sparse)
                && (view.kind, view.dims) == (Kind::Float1Bit, 1) =>
        {
            lent.scratch[3] ^= 1;
        }
        _ => {}
    });
    expect(case, "conv|3|0100000009", EXACT);
}

#[test]
fn a_refusal_that_changes_a_byte() {
    let case = found(|request, reply, lent| {
        if request.word() == "bvecs" && refusal(reply, 15).is_some() {
            lent.out[0] ^= 1;
        }
    });
    let short = [Length::Exact, Length::OneShort];
    expect(case, "bvecs|0|0100000000", short);
}

#[test]
fn a_wrong_need_and_a_wrong_order() {
    let case = found(|request, reply, _| match refusal(reply, 15) {
        Some(refused) if request.word() == "bvecs" => refused.refusal.carried = Some(3),
        _ => {}
    });
    let short = [Length::Exact, Length::OneShort];
    expect(case, "bvecs|0|0100000000", short);
    let case = found(|_, reply, _| {
        if let Some(refused) = refusal(reply, 17) {
            refused.refusal.number = 15;
        }
    });
    let short = [Length::OneShort, Length::Exact];
    expect(case, "conv|3|0100000009", short);
}

#[test]
fn a_wrong_place() {
    let case = found(|_, reply, _| {
        if let Some(refused) = refusal(reply, 19) {
            refused.refusal.carried = None;
        }
    });
    expect(case, "fvecs|0|00", EXACT);
}

#[test]
fn a_wrong_append() {
    let case = found(|_, reply, lent| {
        if let Ok(Answer::Appended { fill, .. }) = reply {
            lent.out[*fill - 1] ^= 1;
        }
    });
    expect(case, "append|0|00000000|", EXACT);
}

#[test]
fn a_panic() {
    let case = found(|request, _, _| {
        let blob = request.parts()[0];
        assert_ne!(blob.last(), Some(&3), "no kind has this byte");
    });
    expect(case, "read|03", EXACT);
}

/// Where the Rust parts from the rules both sides reply the same, and yet it is a difference.
#[test]
fn a_finding() {
    let mut oracle = Oracle::default();
    let mut soak =
        Soak::new(|request: &Request, lent: &mut Lent| right(&mut oracle, request, lent));
    let case = Random::new(1).case();
    let mut compared = soak.compare(&case);
    assert!(compared.agrees());
    compared.findings.push("they part".to_string());
    assert!(!compared.agrees());
    assert!(compared.report(&case).ends_with("\nfinding: they part"));
}

#[test]
fn a_report_has_the_line_and_both_sides() {
    let case = Case {
        request: Request::Convert {
            target: Kind::Float1Bit,
            blob: vec![1, 0, 0, 0, 9],
        },
        room: Room {
            byte: 0x5a,
            scratch: Length::Exact,
            out: Length::LongerBy(1),
        },
    };
    let mut soak = Soak::new(|_: &Request, _: &mut Lent| Err(Refusal::carrying(17, 5).into()));
    let report = "a line of vecprobe:\n\
                  conv\t3\t0100000009\n\
                  lent: 4 bytes of scratch, 2 of output, each 5a\n\
                  oracle: C\t3\t1\t00\t1, scratch 00000000, output 005a\n\
                  ours:   R\t17\t5, scratch 5a5a5a5a, output 5a5a";
    assert_eq!(soak.compare(&case).report(&case), report);
}
