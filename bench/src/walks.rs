//! A trace walked event by event, through any reader or writer.

/// Hands each event to `each`.
pub fn read_all(
    bytes: &[u8],
    read: impl Fn(&[u8], &mut [u32]) -> u64,
    mut each: impl FnMut(&[u32; 3]),
) {
    let (mut at, mut event) = (0, [0; 3]);
    loop {
        let answer = read(&bytes[at..], &mut event);
        if answer >> 32 != 205 {
            return;
        }
        each(&event);
        at += answer as u32 as usize;
    }
}

/// Puts one event after the other.
pub fn write_all(
    room: &mut [u8],
    events: &[[u32; 3]],
    write: impl Fn(&mut [u8], u32, u32, u32) -> u64,
) {
    let mut used = 0;
    for &[kind, ticket, record] in events {
        used += write(&mut room[used..], kind, ticket, record) as u32 as usize;
    }
}
