//! Document 01's sample.

mod common;

use common::{output, program};
use compare::limited::Limits;

const INPUT: &str = "open,0
take,7,2,64,64,1,1,0,1,10
plan,7,-,0,0,0
retire,7,900,10
write,7,0,0,20,5,10,10
pop,10
park,0,11
take,7,2,64,64,1,1,0,1,11
plan,7,0,0,0,0
";

const OUTPUT: &str = "1,0
2,0,-,-
3,0,1
3,0,0,-,-,-,-
4,0
5,0
6,0,7,900
7,0
8,0,900,0
9,0,1
9,0,0,16,0,16,16
";

#[test]
fn sample() {
    assert_eq!(
        output(&mut program(Limits::default()), INPUT.as_bytes()),
        OUTPUT
    );
}

#[test]
fn the_last_line_may_lack_its_line_feed() {
    let input = INPUT.trim_end().as_bytes();
    assert_eq!(output(&mut program(Limits::default()), input), OUTPUT);
}
