//! What tells layouts in Rust, and what compares them with those of C.
use std::env;
use std::process::Command;

/// The alignment of a value that isn't made.
pub fn align_of<T>(_: *const T) -> usize {
    std::mem::align_of::<T>()
}

/// The size of a member, by a pointer to it.
pub fn size_of_member<T>(_: *const T) -> usize {
    std::mem::size_of::<T>()
}

/// Tells each struct and each of its members, a line each.
macro_rules! structs {
    ($told:ident; $($name:ident { $($member:ident,)* })*) => {$({
        let it = MaybeUninit::<$name>::uninit();
        let at = it.as_ptr();
        writeln!($told, "{} {} {}", stringify!($name), size_of::<$name>(), align_of(at)).unwrap();
        $({
            // Safety: the place of a member is told, and nothing is read.
            let member = unsafe { addr_of!((*at).$member) };
            let offset = member as usize - at as usize;
            let size = size_of_member(member);
            writeln!($told, "{}.{} {} {}", stringify!($name), stringify!($member), offset, size).unwrap();
        })*
    })*};
}
pub(crate) use structs;

fn output(command: &mut Command) -> String {
    let done = command.output().expect("the command starts");
    assert!(
        done.status.success(),
        "{}",
        String::from_utf8_lossy(&done.stderr)
    );
    String::from_utf8(done.stdout).expect("UTF-8")
}

/// Compares with what the program `layout.c` prints, built over the header that is installed.
pub fn same_as_in_c(told: &str) {
    let source = concat!(env!("CARGO_MANIFEST_DIR"), "/../../layout.c");
    let program = concat!(env!("CARGO_TARGET_TMPDIR"), "/layout");
    let flags = output(Command::new("pkg-config").args(["--cflags", "mezulobu"]));
    let compiler = env::var("CC").unwrap_or_else(|_| "cc".to_owned());
    let words = [
        "-std=c11", "-Wall", "-Wextra", "-Werror", source, "-o", program,
    ];
    output(
        Command::new(compiler)
            .args(flags.split_whitespace())
            .args(words),
    );
    let in_c = output(&mut Command::new(program));
    for (ours, theirs) in told.lines().zip(in_c.lines()) {
        assert_eq!(ours, theirs);
    }
    assert_eq!(told.lines().count(), in_c.lines().count());
}
