//! Links the archive of the entries over an image.

include!("../archive.rs");

fn main() {
    link(
        "entries",
        &[
            "kp_fresh",
            "kp_read",
            "kp_write",
            "kp_inputs",
            "kp_pending",
            "kp_run",
            "kp_service",
            "kp_acknowledge",
            "kp_take_back",
        ],
    );
}
