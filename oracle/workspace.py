"""The workspace in which the Rust's own functions are built behind a driver of ours."""

import collections
import hashlib
import os
import re
import shutil
import subprocess
import sys

HERE = os.path.dirname(os.path.abspath(__file__))
REGISTRY = "/usr/share/cargo/registry"  # where Debian puts the sources of crates

# Debian package and the crate it brings.
PACKAGES = [
    ("librust-backtrace-dev", "backtrace"),
    ("librust-codespan-reporting-dev", "codespan-reporting"),
    ("librust-libc-dev", "libc"),
    ("librust-quick-xml-dev", "quick-xml"),
    ("librust-termcolor-dev", "termcolor"),
    ("librust-thiserror-dev", "thiserror"),
]

# Taken from compile.rs, in its own order: the first words of each item.
ITEMS = [
    "fn find_cycles_or_bad_types(",
    "fn generate_type_no_parent_errors(",
    "pub fn get_synthetic_resource_name(",
    "fn create_synthetic_resource(",
    "fn make_duplicate_associate_error(",
    "fn interpret_associate(",
    "type AssociateExprs ",
    "struct InheritedAnnotation<",
    "impl<'a> InheritedAnnotation<",
    "fn dedup_inherited_annotations(",
    "fn dedup_inherited_annotations_one<",
    "fn interpret_inherited_annotations<",
    "fn inherit_annotations<",
    "pub fn apply_associate_annotations(",
    "fn organize_type_map(",
]

# The variants of the Rust: what is replaced in each, (file, item, replacement).
EQUALITY = ("ast.rs", "impl PartialEq for TypeDecl {", "eq_01.rs")
DUPLICATE = ("compile.rs", "fn make_duplicate_associate_error(", "duplicate_row.rs")
VARIANTS = {
    "cascade_rust": [],
    "cascade_01": [EQUALITY],
    "cascade_rust_rows": [DUPLICATE],
    "cascade_01_rows": [EQUALITY, DUPLICATE],
}

# What is built: the folder of the driver here, the further items of compile.rs, the `use` lines that these need, and
# the variants by name.
Plan = collections.namedtuple("Plan", "driver items uses variants")


def stop(*lines):
    """Ends with these lines."""
    sys.exit("\n".join((f"oracle/{os.path.basename(sys.argv[0])}: " + lines[0],) + lines[1:]))


def read(path):
    """The text of a file, its line ends as they are."""
    with open(path, encoding="utf-8", newline="") as source:
        return source.read()


def write(path, text):
    """Writes only what changed, so that nothing is compiled twice."""
    if not os.path.exists(path) or read(path) != text:
        with open(path, "w", encoding="utf-8", newline="") as target:
            target.write(text)


def checked_sources(src):
    """The texts of the Rust's files, each as the list of sums has it."""
    texts, bad = {}, []
    for line in read(os.path.join(HERE, "SHA256SUMS")).splitlines():
        want, name = line.split()
        path = os.path.join(src, name)
        if not os.path.isfile(path):
            bad.append(f"  {name}: missing")
            continue
        with open(path, "rb") as source:
            data = source.read()
        if hashlib.sha256(data).hexdigest() != want:
            bad.append(f"  {name}: not the text of commit 8a40a61748 (SHA-256 differs)")
        texts[os.path.basename(name)] = data.decode("utf-8")
    if bad:
        stop(f"sources in {src}:", *bad)
    return texts


def span(text, start_words):
    """Where the item begins and ends; it starts and closes at a line's first column."""
    starts = [m.start() for m in re.finditer("^" + re.escape(start_words), text, re.M)]
    if len(starts) != 1:
        stop(f"`{start_words}` stands {len(starts)} times, not once")
    first_line = text[starts[0]:text.index("\n", starts[0]) + 1]
    if first_line.endswith(";\n"):
        return starts[0], starts[0] + len(first_line)
    return starts[0], text.index("\n}\n", starts[0]) + 3


def with_attributes(text, begin):
    """The place moved up over the attributes above it."""
    while True:
        above = text.rfind("\n", 0, begin - 1) + 1
        if not text[above:begin].startswith("#["):
            return begin
        begin = above


def extracted(text, items):
    """These items of compile.rs, their text unchanged."""
    out = []
    for item in items:
        begin, end = span(text, item)
        out.append(text[with_attributes(text, begin):end])
    return "\n".join(out)


def check_tools():
    """Ends where cargo is missing."""
    missing = [tool for tool in ("cargo", "rustc") if not shutil.which(tool)]
    if missing:
        stop("missing: " + ", ".join(missing))


def crate_is_there(name):
    """Whether Debian's sources of a crate are installed."""
    if not os.path.isdir(REGISTRY):
        return False
    return any(re.fullmatch(re.escape(name) + r"-\d.*", entry) for entry in os.listdir(REGISTRY))


def get_packages():
    """Installs the Debian packages whose crates are not there."""
    wanted = [package for package, crate in PACKAGES if not crate_is_there(crate)]
    if not wanted:
        return
    print("installing " + " ".join(wanted), flush=True)
    if shutil.which("apt-get"):
        quiet = {"stdout": subprocess.DEVNULL, "stdin": subprocess.DEVNULL}
        subprocess.run(["apt-get", "update"], check=False, **quiet)
        for package in wanted:
            subprocess.run(["apt-get", "install", "-y", "--no-install-recommends", package],
                           check=False, env=dict(os.environ, DEBIAN_FRONTEND="noninteractive"),
                           **quiet)
    missing = [package for package, crate in PACKAGES if not crate_is_there(crate)]
    if missing:
        stop("Debian packages that cannot be had:", *("  " + package for package in missing))


def copy_crate(name, folder):
    """A crate of ours, from its folder here."""
    os.makedirs(os.path.join(folder, "src"), exist_ok=True)
    files = [os.path.join("src", file) for file in os.listdir(os.path.join(HERE, name, "src"))]
    for file in ["Cargo.toml", *files]:
        write(os.path.join(folder, file), read(os.path.join(HERE, name, file)))


def rust_files(texts, plan):
    """The files of the Rust that a variant starts from."""
    stubs = os.path.join(HERE, "stubs", "cascade")
    out = {name: read(os.path.join(stubs, name)) for name in ("lib.rs", "functions.rs", "util.rs")}
    compiled = read(os.path.join(stubs, "compile_head.rs")) + "\n" + extracted(texts["compile.rs"], ITEMS + plan.items)
    return texts | out | {"compile.rs": compiled + plan.uses}


def write_variant(name, files, replacements, folder):
    """The Rust with what a variant replaces."""
    stubs, own = os.path.join(HERE, "stubs", "cascade"), dict(files)
    for file, item, replacement in replacements:
        begin, end = span(own[file], item)
        own[file] = own[file][:begin] + read(os.path.join(stubs, replacement)) + own[file][end:]
    os.makedirs(os.path.join(folder, "src"), exist_ok=True)
    write(os.path.join(folder, "Cargo.toml"), read(os.path.join(stubs, "Cargo.toml")).replace("@NAME@", name))
    for file, text in own.items():
        write(os.path.join(folder, "src", file), text)


def lay_out(texts, work, plan):
    """Writes the workspace: driver, stubs, and the Rust once for each variant."""
    copy_crate(plan.driver, os.path.join(work, "driver"))
    for name in ("sexp", "lalrpop-util"):
        copy_crate(os.path.join("stubs", name), os.path.join(work, name))
    files = rust_files(texts, plan)
    for name, replacements in plan.variants.items():
        write_variant(name, files, replacements, os.path.join(work, name))
    os.makedirs(os.path.join(work, ".cargo"), exist_ok=True)
    write(os.path.join(work, ".cargo", "config.toml"),
          '[source.crates-io]\nreplace-with = "debian"\n\n'
          f'[source.debian]\ndirectory = "{REGISTRY}"\n')
    members = ["driver", "sexp", "lalrpop-util", *plan.variants]
    write(os.path.join(work, "Cargo.toml"),
          "[workspace]\nresolver = \"2\"\nmembers = ["
          + ", ".join(f'"{member}"' for member in members) + "]\n\n"
          "[profile.release]\nstrip = true\n")


def build(src, out, work, plan, *options):
    """Builds what is planned in the folder `work` of `out`; gives the folder of the binaries."""
    work, texts = os.path.join(out, work), checked_sources(src)
    check_tools()
    get_packages()
    os.makedirs(work, exist_ok=True)
    lay_out(texts, work, plan)
    target = os.path.join(out, "cargo")
    done = subprocess.run(["cargo", "build", "--release", "--offline", *options, "--target-dir", target],
                          cwd=work, check=False)
    if done.returncode:
        stop("cargo failed, see above")
    return os.path.join(target, "release")
