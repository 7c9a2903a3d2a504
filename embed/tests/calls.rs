// Calls from Rust over the bytes of a file of Grid 3-3: calls FILE.
#[repr(C)]
#[derive(Clone, Copy)]
struct View {
    bytes: *const u8,
    len: usize,
}

#[repr(C)]
#[derive(Default, PartialEq, Debug)]
struct Value {
    kind: u16,
    depth: u16,
}

unsafe extern "C" {
    fn morris_digest(file: *const View) -> i32;
    fn morris_lookup(board: u32, files: *const View, n: usize, words: *const u32, m: usize, own: u32, other: u32, out: *mut Value) -> i32;
}

fn main() {
    let bytes = std::fs::read(std::env::args().nth(1).expect("no file")).expect("no such file");
    let view = View { bytes: bytes.as_ptr(), len: bytes.len() };
    let (words, mut value) = ([0u32; 1], Value::default());
    assert_eq!(unsafe { morris_digest(&view) }, 0);
    // Three in a row in one move: XX...X... with O on 3, 4, 7.
    let status = unsafe { morris_lookup(1, &view, 1, words.as_ptr(), 0, 0b000_100_011, 0b010_011_000, &mut value) };
    assert_eq!((status, value), (0, Value { kind: 1, depth: 1 }));
    let status = unsafe { morris_lookup(1, &view, 1, words.as_ptr(), 0, 0b1111, 0b111 << 4, &mut Value::default()) };
    assert_eq!(status, 5);
    println!("all right");
}
