//! What is written of exports: a header, the texts of statuses, and a module of JavaScript.
use eraser::interface::Interface;
use std::fs;
use std::path::{Path, PathBuf};

const PLAIN: &str = "
/// Done; what is found was written.
pub const DONE: u32 = 0;

// A remark that isn't for C.
/// An array is too short.
pub const SHORT: u32 = 2;

/// Each.
pub const KIND: u32 = 3;

pub const MOST: u32 = 4_294_967_295;

/// A size, by `width` first.
#[repr(C)]
#[derive(Clone, Copy)]
pub struct PlainOneSize {
    /// In pixels.
    pub width: i32,
    pub area: u64,
    pub at: usize,
}
";

const CALLS: &str = "
/// A place: it holds one.
#[repr(C)]
pub struct ThingHandle {
    at: *mut u8,
    pub ghost kept: { Option (List ℕ), more },
}

#[repr(C)]
pub struct ThingReader {
    at: *const u8,
    pub ghost kept: { Option ℕ },
}

/// Lists `found`.
///
/// `DONE`; `SHORT`, as `guillotiere_none` says.
#[unsafe(no_mangle)]
pub extern \"C\" fn guillotiere_thing_list(
    alloc: Global,
    thing: &ThingReader,
    found: &mut [PlainOneSize],
    count: &mut usize,
) -> u32
    ensures { result ≡ 0 }
{
    0
}

/// Frees.
#[unsafe(no_mangle)]
pub extern \"C\" fn guillotiere_thing_free(thing: &mut ThingHandle, ids: &[u32]) {}

/// None.
#[unsafe(no_mangle)]
pub extern \"C\" fn guillotiere_none() -> bool {
    true
}
";

const TEMPLATE: &str = "\
@ A remark.
@checked thing_list
/* By hand. */
@statuses guillotiere_status
@kinds KIND
@numbers MOST
@structs calls plain
@functions calls
";

const HEADER: &str = "\
/* Written by rust/erase from guillotiere.h.in and from the exports of crates/guillotiere_c: don't edit. */
/* By hand. */
enum guillotiere_status {
    GUILLOTIERE_DONE = 0, /* done; what is found was written */
    GUILLOTIERE_SHORT = 2 /* an array is too short */
};
enum {
    GUILLOTIERE_KIND = 3 /* each */
};
#define GUILLOTIERE_MOST 4294967295u
/* A place: it holds one. */
typedef struct guillotiere_thing {
    void *at;
} guillotiere_thing;

/* A size, by `width` first. */
typedef struct guillotiere_one_size {
    int32_t width; /* in pixels */
    uint64_t area;
    size_t at;
} guillotiere_one_size;
/* Lists `found`.
 *
 * DONE; SHORT, as guillotiere_none says. */
GUILLOTIERE_CHECKED
uint32_t guillotiere_thing_list(const guillotiere_thing *thing, guillotiere_one_size *found, size_t found_len,
                                size_t *count);

/* Frees. */
void guillotiere_thing_free(guillotiere_thing *thing, const uint32_t *ids, size_t ids_len);

/* None. */
bool guillotiere_none(void);
";

/// The interface of these sources, and the folder where they stand.
fn read(name: &str, plain: &str, calls: &str, template: &str) -> (Interface, PathBuf) {
    let root = std::env::temp_dir().join(format!("interface_{}_{}", name, std::process::id()));
    let sources = root.join("crates/guillotiere_c/src");
    fs::create_dir_all(&sources).expect("a folder");
    fs::create_dir_all(root.join("bindings/c")).expect("a folder");
    fs::write(sources.join("plain.rt"), plain).expect("a file");
    fs::write(sources.join("calls.rt"), calls).expect("a file");
    fs::write(root.join("bindings/c/guillotiere.h.in"), template).expect("a file");
    (Interface::read(&root).expect("an interface"), root)
}

#[test]
fn what_is_written_of_exports() {
    let (interface, root) = read("all", PLAIN, CALLS, TEMPLATE);
    let (files, texts) = interface.files(&root).expect("files");
    let file = |path: &str| &files[Path::new("..").join(path).as_path()];
    assert_eq!(file("bindings/c/guillotiere.h"), HEADER);
    assert_eq!(file("c/guillotiere.h"), HEADER);
    assert_eq!(
        texts,
        "    0 => \"done\",\n    2 => \"an array is too short\",\n    _ => \"no status\",\n"
    );
    assert!(file("bindings/c/status_text.c").contains(
        "    case 2: return \"an array is too short\";\n    default: return \"no status\";\n"
    ));
    let script = file("web/src/interface.js");
    for line in [
        "  'none', 'thing_free', 'thing_list',",
        "  'DONE', '', 'SHORT',",
        "export const KIND = 3;",
        // A number of 64 bits begins at a multiple of 8 bytes, and so does the struct behind.
        "export const oneSizeAt = { width: 0, area: 2, at: 4, words: 6 };",
        "export const thingAt = { at: 0, words: 1 };",
    ] {
        assert!(
            script.lines().any(|each| each == line),
            "{}\n{}",
            line,
            script
        );
    }
    fs::remove_dir_all(root).expect("the folder goes");
}

#[test]
fn what_programs_are_compiled_by() {
    let (interface, root) = read("lines", PLAIN, CALLS, TEMPLATE);
    let wanted = "\
function bool guillotiere_none()
function uint32_t guillotiere_thing_list(const guillotiere_thing *, guillotiere_one_size *, size_t, size_t *)
function void guillotiere_thing_free(guillotiere_thing *, const uint32_t *, size_t)
number GUILLOTIERE_DONE 0
number GUILLOTIERE_KIND 3
number GUILLOTIERE_MOST 4294967295
number GUILLOTIERE_SHORT 2
struct guillotiere_one_size: int32_t width, uint64_t area, size_t at
struct guillotiere_thing: void * at";
    assert_eq!(interface.lines(), wanted);
    fs::remove_dir_all(root).expect("the folder goes");
}

#[test]
fn what_a_template_forgets_or_invents_is_told() {
    for (name, from, to, told) in [
        (
            "forgotten",
            "@functions calls\n",
            "",
            "it doesn't name all modules that have exports or structs",
        ),
        (
            "module",
            "@functions calls",
            "@functions cells",
            "the module cells has nothing for C",
        ),
        (
            "number",
            "@kinds KIND",
            "@kinds MIND",
            "there is no number MIND",
        ),
        (
            "checked",
            "@checked thing_list",
            "@checked thing",
            "there is no export guillotiere_thing",
        ),
    ] {
        let (interface, root) = read(name, PLAIN, CALLS, &TEMPLATE.replace(from, to));
        let fault = interface.files(&root).expect_err(name);
        assert!(fault.0.ends_with(told), "{}", fault);
        fs::remove_dir_all(root).expect("the folder goes");
    }
}
