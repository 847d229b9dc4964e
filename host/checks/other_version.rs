//! A program whose library of the driver service has another version of the interface: its own function stands in for that of the
//! library. Start says so and does nothing else. tests/41-host-lib.sh links it and runs it.
use widosha::*;

#[no_mangle]
pub extern "C" fn widosha_abi_version() -> u32 {
    ffi::ABI_VERSION + 1
}

fn main() {
    let settings = Settings {
        headroom: 0,
        tailroom: 0,
        fcs_length: FcsLength::Two,
        hardware_addr: 1,
        pan_id: 0x1234,
        implicit_broadcast: false,
        ack_buffer: 0,
        spare_buffer: 1,
    };
    let mut pool = Pool::<3>::new();
    let error = DriverService::start(settings, &mut pool).err().expect("start is not called");
    assert_eq!(error, Error::AbiVersion { library: 2 });
    assert_eq!(pool, Pool::new(), "no byte was written");
    println!("start: {error}");
}
