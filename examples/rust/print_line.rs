//! Prints a line. Build it with the library in out/library:
//!
//!     rustc -L out/library -C link-arg=-Wl,-rpath,$PWD/out/library -o out/print_line examples/rust/print_line.rs

use std::{ffi::c_void, ptr};

#[repr(C)]
struct Site { mark: u64, at: *mut c_void }
#[repr(C)]
struct Room { in_flight: u32, held: u32 }
#[repr(C)]
#[derive(Default)]
struct Served { posts: u64, commands: u32, ended: u32 }
#[repr(C)]
#[derive(Default)]
struct Post {
    number: u64, address: u32, base: u32, length: u32, residual: u16, sense: u16, unit: u16, task: u16, dcb: u16,
    code: u8, unit_status: u8, channel_status: u8,
}

#[link(name = "excp")]
extern "C" {
    fn excp_site_new(site: *mut Site, tasks: u16, post_room: u32) -> i32;
    fn excp_site_free(site: *mut Site) -> i32;
    fn excp_mount_printer(site: *mut Site, lines: u64, pages: u64, room: *const Room, unit: *mut u16) -> i32;
    fn excp_open(site: *mut Site, unit: u16, method: u8, extents: *const u8, length: usize, dcb: *mut u16) -> i32;
    fn excp_issue(
        site: *mut Site, task: u16, unit: u16, dcb: u16, iob: u32, base: u32, storage: *const u8, length: usize, number: *mut u64,
    ) -> i32;
    fn excp_serve(site: *mut Site, unit: u16, max_commands: u32, served: *mut Served) -> i32;
    fn excp_next_post(site: *mut Site, task: u16, post: *mut Post, storage: *mut u8, room: usize) -> i32;
}

fn main() {
    // an unrelated IOB, an ECB and a CCW that prints the five bytes after it: HELLO in EBCDIC
    let mut storage = [0; 0x3D];
    storage[0] = 0x02;
    storage[5..8].copy_from_slice(&[0x00, 0x10, 0x28]);
    storage[17..20].copy_from_slice(&[0x00, 0x10, 0x30]);
    storage[23] = 1;
    storage[0x30..].copy_from_slice(&[0x09, 0x00, 0x10, 0x38, 0, 0, 0, 5, 0xC8, 0xC5, 0xD3, 0xD3, 0xD6]);
    let (mut site, room) = (Site { mark: 0, at: ptr::null_mut() }, Room { in_flight: 1, held: 1 });
    let (mut unit, mut dcb, mut number, mut served, mut post) = (0, 0, 0, Served::default(), Post::default());
    // SAFETY: the structs are those of excp.h, and each pointer is to a value of its type that lives through the call
    unsafe {
        assert_eq!(0, excp_site_new(&mut site, 1, 1));
        assert_eq!(0, excp_mount_printer(&mut site, 10, 1, &room, &mut unit));
        assert_eq!(0, excp_open(&mut site, unit, 1, ptr::null(), 0, &mut dcb));
        assert_eq!(0, excp_issue(&mut site, 0, unit, dcb, 0x1000, 0x1000, storage.as_ptr(), storage.len(), &mut number));
        assert_eq!(0, excp_serve(&mut site, unit, u32::MAX, &mut served));
        assert_eq!(0, excp_next_post(&mut site, 0, &mut post, storage.as_mut_ptr(), storage.len()));
        assert_eq!(0, excp_site_free(&mut site));
    }
    println!("request {} of DCB {} at unit {}: code {:02X} at {:06X}", post.number, post.dcb, post.unit, post.code, post.address);
    println!("posts {}, commands {}, ECB {:02X}", served.posts, served.commands, storage[0x28]);
}
