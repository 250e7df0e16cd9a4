//! Links the archive of the entries over a device in memory, and for captures
//! the one that their judge stands in.

include!("../archive.rs");

fn main() {
    link(
        "direct",
        &[
            "kp_device_fresh",
            "kp_device_read",
            "kp_device_write",
            "kp_device_inputs",
            "kp_device_pending",
            "kp_device_run",
            "kp_device_service",
            "kp_device_acknowledge",
            "kp_device_take_back",
            "kp_device_save",
            "kp_device_load",
        ],
    );
    if env::var_os("CARGO_FEATURE_CAPTURE").is_some() {
        link("entries", &["kp_capture"]);
    }
}
