//! Document 01's stand-ins, step by step, for the copy of the original that ours is held to.

/// "exp of t in [−60, 0]"
pub fn exp(t: f32) -> f32 {
    let (mut t, mut k) = (t, 0);
    while t <= -1.0 {
        t += 1.0;
        k += 1;
    }
    let r = t / 8.0;
    let mut q = 1.0 + r / 4.0;
    q = 1.0 + (r / 3.0) * q;
    q = 1.0 + (r / 2.0) * q;
    q = 1.0 + r * q;
    for _ in 0..3 {
        q *= q;
    }
    for _ in 0..k {
        q *= f32::from_bits(0x3EBC_5AB2);
    }
    q
}
