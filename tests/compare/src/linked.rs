//! The real C calls, linked from `libaskvimur.a` and `libaskvimur_service.a`, behind functions over slices.

use crate::library::Libraries;

#[link(name = "askvimur", kind = "static")]
extern "C" {
    fn askvimur_network(
        ground: *const u8,
        ground_len: usize,
        network: *mut u8,
        network_len: usize,
    ) -> u32;
}

#[link(name = "askvimur_service", kind = "static")]
extern "C" {
    fn askvimur_lakes(
        ground: *const u8,
        ground_len: usize,
        lakes: *mut u8,
        lakes_len: usize,
    ) -> u32;

    fn askvimur_network_by(
        neighbours: u32,
        manner: u32,
        ground: *const u8,
        ground_len: usize,
        network: *mut u8,
        network_len: usize,
    ) -> u32;
}

// SAFETY: `handed_over` gives each call pointers that hold for the lengths beside them, for the whole call.
pub const LIBRARIES: Libraries = Libraries {
    description: "the C calls of libaskvimur.a and libaskvimur_service.a",
    askvimur_network: |ground, network| {
        handed_over(
            ground,
            network,
            |ground, ground_len, network, network_len| unsafe {
                askvimur_network(ground, ground_len, network, network_len)
            },
        )
    },
    askvimur_lakes: |ground, lakes| {
        handed_over(
            ground,
            lakes,
            |ground, ground_len, lakes, lakes_len| unsafe {
                askvimur_lakes(ground, ground_len, lakes, lakes_len)
            },
        )
    },
    askvimur_network_by: |neighbours, manner, ground, network| {
        handed_over(
            ground,
            network,
            |ground, ground_len, network, network_len| unsafe {
                askvimur_network_by(neighbours, manner, ground, ground_len, network, network_len)
            },
        )
    },
};

/// Hands both slices over as the headers ask: never null, and never overlapping.
fn handed_over(
    ground: &[u8],
    room: &mut [u8],
    call: impl FnOnce(*const u8, usize, *mut u8, usize) -> u32,
) -> u32 {
    // An empty slice may point at no memory at all, so a byte of our own stands in for it.
    let mut nothing = [0_u8; 2];
    let (nothing_in, nothing_out) = nothing.split_at_mut(1);
    let ground_start = match ground.is_empty() {
        true => nothing_in.as_ptr(),
        false => ground.as_ptr(),
    };
    let room_start = match room.is_empty() {
        true => nothing_out.as_mut_ptr(),
        false => room.as_mut_ptr(),
    };
    call(ground_start, ground.len(), room_start, room.len())
}
