use reference::lists::Call;

/// "A call is on the smoke whose number it names", a wind call, a wind import
/// or file writing on none. A poke, which is no call, is struck with its smoke.
pub fn smoke_of(call: &Call) -> Option<usize> {
    match call {
        Call::Wind(..) | Call::Import(_) | Call::Write => None,
        Call::Load(s, _) | Call::Step(s) | Call::Total(s) | Call::Map(s) => Some(*s),
        Call::Mass(s, _, _) | Call::Poke(s, _, _) => Some(*s),
        Call::Emission(s, _, _, _) | Call::Withdrawal(s, _, _, _) => Some(*s),
    }
}
