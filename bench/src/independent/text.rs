//! The printed lines.
use super::bits;
use super::judge::Mark;
use super::planner::Reply;

pub fn reply(out: &mut Vec<u8>, reply: &Reply) {
    let sums = match reply {
        Reply::Refused(refusal) => return line(out, b"REFUSED", &[refusal.rule, refusal.place]),
        Reply::None(sums) => {
            line(out, b"NONE", &[]);
            sums
        }
        Reply::Plan(plan, sums) => {
            line(out, b"PLAN", &[plan.steps() as u64, plan.cost]);
            bits(plan.open).for_each(|link| line(out, b"OPEN", &[link as u64]));
            bits(plan.close).for_each(|link| line(out, b"CLOSE", &[link as u64]));
            sums
        }
    };
    line(out, b"LOAD", &[sums.fed, sums.dark, sums.lost]);
}

pub fn mark(out: &mut Vec<u8>, mark: &Mark) {
    match *mark {
        Mark::Refused(refusal) => line(out, b"REFUSED", &[refusal.rule, refusal.place]),
        Mark::Broken { step, reason } => line(out, b"BROKEN", &[step, reason]),
        Mark::Short { element } => line(out, b"SHORT", &[element]),
        Mark::Valid { cost, excess } => line(out, b"VALID", &[cost, excess]),
    }
}

fn line(out: &mut Vec<u8>, name: &[u8], numbers: &[u64]) {
    out.extend_from_slice(name);
    for &number in numbers {
        out.push(b' ');
        decimal(out, number);
    }
    out.push(b'\n');
}

fn decimal(out: &mut Vec<u8>, mut number: u64) {
    let mut digits = [0; 20];
    let mut at = digits.len();
    loop {
        at -= 1;
        digits[at] = b'0' + (number % 10) as u8;
        number /= 10;
        if number == 0 {
            break;
        }
    }
    out.extend_from_slice(&digits[at..]);
}
