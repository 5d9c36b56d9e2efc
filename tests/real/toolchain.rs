//! The linker of Rust's toolchain, where there is one: it links core modules to components, decodes
//! worlds, and validates.

use crate::corpus;
use std::ffi::OsStr;
use std::io::Write;
use std::path::{Path, PathBuf};
use std::process::Command;
use std::sync::atomic::{AtomicU32, Ordering};
use std::sync::{LazyLock, OnceLock};

pub struct Linker {
    program: PathBuf,
    folder: PathBuf,
}

/// What `rustc` says, in lines.
fn rustc(args: &[&str]) -> Option<String> {
    let told = Command::new("rustc").args(args).output().ok()?;
    String::from_utf8(told.stdout).ok()
}

/// The path of the linker.
fn program() -> Option<PathBuf> {
    let version = rustc(&["-vV"])?;
    let host = version.lines().find_map(|line| line.strip_prefix("host: "))?;
    let sysroot = rustc(&["--print", "sysroot"])?;
    let tools = Path::new(sysroot.trim()).join("lib/rustlib").join(host).join("bin");
    let program = tools.join(format!("wasm-component-ld{}", std::env::consts::EXE_SUFFIX));
    program.exists().then_some(program)
}

/// The linker. Without one, standard error says that this is left out.
pub fn linker(left_out: &str) -> Option<Linker> {
    static PROGRAM: LazyLock<Option<PathBuf>> = LazyLock::new(program);
    let Some(program) = PROGRAM.clone() else {
        // past the harness, which keeps what a test that passes prints
        let word = format!("left out: {left_out}: rustc has no wasm-component-ld\n");
        std::io::stderr().write_all(word.as_bytes()).expect("it is told");
        return None;
    };
    let folder = Path::new(env!("CARGO_TARGET_TMPDIR")).join("real");
    std::fs::create_dir_all(&folder).expect("there is a place for files");
    Some(Linker { program, folder })
}

impl Linker {
    /// A file that no other call uses, with these bytes.
    fn file(&self, bytes: &[u8]) -> PathBuf {
        static COUNT: AtomicU32 = AtomicU32::new(0);
        let count = COUNT.fetch_add(1, Ordering::Relaxed);
        let path = self.folder.join(format!("{}-{count}", std::process::id()));
        std::fs::write(&path, bytes).expect("the file is written");
        path
    }

    /// The component of this object, which holds its world, or what the linker says.
    pub fn link(&self, object: &[u8]) -> Result<Vec<u8>, String> {
        self.linked(object, &[])
    }

    /// The component of this object and the text of a world in the corpus, which may say what else
    /// the linker is told.
    pub fn link_text(&self, object: &[u8], world: &str) -> Result<Vec<u8>, String> {
        let text = corpus::text(world);
        let flags = text.lines().find_map(|line| line.strip_prefix("//# flags "));
        let world = corpus::path(world);
        let mut args = vec![OsStr::new("--component-type"), world.as_os_str()];
        args.extend(flags.into_iter().flat_map(str::split_whitespace).map(OsStr::new));
        self.linked(object, &args)
    }

    fn linked(&self, object: &[u8], args: &[&OsStr]) -> Result<Vec<u8>, String> {
        let (object, out) = (self.file(object), self.file(b""));
        let mut command = Command::new(&self.program);
        command.args(["--no-entry", "--validate-component", "true"]).args(args);
        let told = command.arg(&object).arg("-o").arg(&out).output().expect("it is run");
        let linked = std::fs::read(&out).expect("the file is there");
        for file in [object, out] {
            std::fs::remove_file(file).expect("the file is removed");
        }
        if told.status.success() { Ok(linked) } else { Err(lossy(&told.stderr)) }
    }

    /// The component of this object and an encoded world.
    pub fn link_encoded(&self, object: &[u8], world: &[u8]) -> Result<Vec<u8>, String> {
        self.link_world(object, world, &[])
    }

    fn link_world(&self, object: &[u8], world: &[u8], args: &[&OsStr]) -> Result<Vec<u8>, String> {
        let file = self.file(world);
        let of_world = ["--component-type".as_ref(), file.as_os_str()];
        let linked = self.linked(object, &[&of_world, args].concat());
        std::fs::remove_file(file).expect("the file is removed");
        linked
    }

    /// Why upstream's validator rejects this component, if it does. The linker validates it as it
    /// would a world, and then fails, since it is none. Most of the time would be that of
    /// `wasm-ld`, in place of which a script copies a core module that is linked already.
    pub fn refuses(&self, component: &[u8]) -> Option<String> {
        static MODULE: OnceLock<Vec<u8>> = OnceLock::new();
        let empty = || corpus::read("o/29-empty.o");
        let told = if cfg!(unix) {
            let skip = || self.linked(&empty(), &["--skip-wit-component".as_ref()]);
            let module = MODULE.get_or_init(|| skip().expect("it is linked"));
            let copy = corpus::path("copy");
            self.link_world(module, component, &["--wasm-ld-path".as_ref(), copy.as_os_str()])
        } else {
            self.link_encoded(&empty(), component)
        };
        let told = told.err()?;
        let cause = told.split("Caused by:").last().expect("there is one");
        let cause: Vec<&str> = cause.split_whitespace().collect();
        let cause = cause.join(" ");
        let cause = cause.trim_start_matches("0: ");
        cause.contains("at offset").then(|| cause.to_owned())
    }

    /// The version of wit-component in it.
    pub fn version(&self) -> String {
        let linked = self.link_text(&corpus::read("o/29-empty.o"), "wit/29-empty.wit");
        let linked = linked.expect("it is linked");
        let tool = b"wit-component";
        let at = linked.windows(tool.len()).rposition(|bytes| bytes == tool).expect("its maker");
        let [size, rest @ ..] = &linked[at + tool.len()..] else { panic!("a version") };
        lossy(&rest[..usize::from(*size)])
    }
}

fn lossy(bytes: &[u8]) -> String {
    String::from_utf8_lossy(bytes).into_owned()
}

#[test]
fn what_is_valid_is_accepted_and_what_is_invalid_refused() {
    let Some(linker) = linker("the validator") else { return };
    for (name, bytes) in corpus::components() {
        assert_eq!(linker.refuses(&bytes), None, "{name}");
    }
    let import = b"\0asm\x0d\0\x01\0\x0a\x06\x01\0\x01f\x01\0";
    let told = linker.refuses(import).expect("there is no type 0");
    assert!(told.contains("unknown type 0"), "{told}");
    let told = linker.refuses(&import[..13]).expect("it is cut off");
    assert!(told.contains("unexpected end"), "{told}");
}
