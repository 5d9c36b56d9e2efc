//! The order of the calls that encode a function type: a call out of turn panics or, with `try_`,
//! fails, and writes nothing.

use crate::panics;
use wenc::{
    ComponentBuilder, ComponentFuncTypeEncoder, ComponentTypeSection, Error, PrimitiveValType,
};
use wenc_calls::encoded::encoded;

const PARAMS: [(&str, PrimitiveValType); 1] = [("a", PrimitiveValType::U8)];

/// Makes this call, and the one with upstream's name if it is out of turn. Returns whether the call
/// is in turn.
fn is_in_turn(ty: &mut ComponentFuncTypeEncoder<'_>, call: u32) -> bool {
    let answer = match call {
        0 => ty.try_async(true).map(drop),
        1 => ty.try_params(PARAMS).map(drop),
        _ => ty.try_result(None).map(drop),
    };
    if answer.is_err() {
        assert_eq!(answer, Err(Error::OutOfTurn));
        assert!(panics(|| match call {
            0 => _ = ty.async_(false),
            1 => _ = ty.params(PARAMS),
            _ => _ = ty.result(None),
        }));
    }
    answer.is_ok()
}

/// Five calls in each order: `async_` or not, `params`, then `result`.
#[test]
fn each_order() {
    let mut ended = 0;
    for order in 0..3_u32.pow(5) {
        let mut types = ComponentTypeSection::new();
        types.defined_type().own(0);
        let mut ty = types.function();
        let (mut is_async, mut next) = (false, 0);
        for at in 0..5 {
            let call = order / 3_u32.pow(at) % 3;
            let wanted = call == next || (call, next) == (1, 0);
            assert_eq!(is_in_turn(&mut ty, call), wanted, "{order}, {at}");
            if wanted {
                is_async |= call == 0;
                next = call + 1;
            }
        }
        assert_eq!(types.is_finished(), next == 3);
        if next < 3 {
            assert!(types.discard_unfinished());
            assert_eq!(encoded(&types), [3, 1, 0x69, 0]);
        } else {
            let lead = if is_async { 0x43 } else { 0x40 };
            assert_eq!(encoded(&types), [10, 2, 0x69, 0, lead, 1, 1, b'a', 0x7d, 1, 0]);
            ended += 1;
        }
    }
    // Those with a call of `params` and a later call of `result`.
    assert_eq!(ended, 131);
}

#[test]
#[should_panic = "out of turn: a function's type is encoded by"]
fn the_message_says_the_order() {
    ComponentTypeSection::new().function().result(None);
}

/// rustc warns of an encoder that isn't used.
#[test]
#[deny(unfulfilled_lint_expectations)]
fn forgotten() {
    let (mut types, mut b) = (ComponentTypeSection::new(), ComponentBuilder::default());
    #[expect(unused_must_use)]
    types.function();
    #[expect(unused_must_use)]
    b.type_function(None);
    assert!(types.discard_unfinished() && b.discard_unfinished());
}
