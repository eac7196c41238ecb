// Stands in for surface/checked.rs, which docs/src does not have. Nothing calls it.
pub enum SurfaceCheckError {}
pub fn compile_and_check_surface() {}
