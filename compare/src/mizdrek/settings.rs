//! The quantizer's settings beside its step.

#[derive(Clone, Copy, Debug)]
pub struct Settings {
    /// From 1/1024 to 1024.
    pub factor: f32,
    /// From 0 to 1,048,576.
    pub threshold: f32,
    /// From 0 to 0.5.
    pub dead_zone: f32,
}
