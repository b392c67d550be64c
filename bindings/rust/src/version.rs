/// The version of the library's boundary that this crate is written for.
///
/// It is raised whenever a signature or an answer of the library changes. The build script reads this very file, asks
/// the library for its own version, and stops the build where the two differ; no call tests it again.
///
/// ```
/// assert_eq!(migthumo::ffi::version(), migthumo::VERSION);
/// ```
pub const VERSION: u32 = 2;
