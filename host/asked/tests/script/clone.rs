//! A folder as it was just cloned, with the script and what it looks for.

use std::env;
use std::fs::{self, File, Permissions};
use std::os::unix::fs::PermissionsExt;
use std::path::{Path, PathBuf};
use std::process::{self, Command, Stdio};
use std::time::{Duration, SystemTime};

/// What the first run says.
pub const PROVING: &str =
    "annex: proving and building the library, once; this takes about 5 minutes\n";

/// Proves nothing: says what the kit says, and leaves the archive. It takes what it
/// finds on standard input, which is not meant for it.
const STATICLIB: &str = "#!/bin/sh
top=$(dirname \"$0\")/..
cat
echo proof >>\"$top/log\"
echo 'rt: lines proved (0 s)'
if [ -e \"$top/broken\" ]; then echo 'rt: rules refused'; exit 1; fi
while [ -e \"$top/slow\" ]; do sleep 0.1; done
echo 'rt: rules proved (0 s)'
echo 'rt: ok, 3 crates proved'
echo 'rt: lines proved (unchanged since it was last proved)'
: >\"$top/native/libhornbeamlet.a\"
";

/// Builds nothing: leaves the real `asked`, and an `annex` that says what it was
/// given. Several may do so at once, so what another one runs is not written over.
/// It too takes what it finds on standard input.
const CARGO: &str = "#!/bin/sh
cat
while [ $# -gt 0 ]; do
    case $1 in
    --package) package=$2 ;;
    --target-dir) target=$2 ;;
    esac
    shift
done
mkdir -p \"$target/release\"
echo \"cargo $package\" >>\"$target/../../log\"
if [ \"$package\" = asked ]; then
    cp \"$REAL_ASKED\" \"$target/release/asked.$$\"
    mv \"$target/release/asked.$$\" \"$target/release/asked\"
    exit
fi
printf '%s\\n' '#!/bin/sh' 'echo \"compared: $*\"' 'if [ \"$1\" != a.fa ]; then cat; fi' \\
    >\"$target/release/annex\"
chmod +x \"$target/release/annex\"
";

/// The folder. It stands outside the checkout, where the kit would take its crates
/// for ones to be checked, and is removed at the end.
pub struct Clone {
    pub top: PathBuf,
}

impl Drop for Clone {
    fn drop(&mut self) {
        let _ = fs::remove_dir_all(&self.top);
    }
}

/// What came of a run.
pub struct Run {
    pub status: i32,
    pub output: String,
    pub complaints: String,
}

impl Clone {
    pub fn new(test: &str) -> Clone {
        let top = env::temp_dir().join(format!("hornbeamlet-{}-{test}", process::id()));
        let _ = fs::remove_dir_all(&top);
        let clone = Clone { top };
        let real = Path::new(env!("CARGO_MANIFEST_DIR")).join("../..");
        clone.write("annex", &fs::read_to_string(real.join("annex")).unwrap());
        clone.write(
            "crates.txt",
            "# of three\nlines:\nother: lines\nrules: lines\nhornbeamlet: rules\n",
        );
        clone.write(
            "host/asked/src/help.txt",
            include_str!("../../src/help.txt"),
        );
        for file in [
            "crates/lines/src/lib.rt",
            "host/Cargo.toml",
            "host/.cargo/config.toml",
            "host/settings/src/lib.rs",
            "host/annex/src/main.rs",
            "host/hornbeamlet/src/lib.rs",
            "host/hornbeamlet/build.rs",
        ] {
            clone.write(file, "");
        }
        clone.write("tools/staticlib", STATICLIB);
        clone.write("bin/cargo", CARGO);
        clone.write("bin/rt", "");
        clone.write("a.fa", ">a\nACGT\n");
        clone.write("b.fa", ">b\nACGT\n");
        clone.write("many.fa", ">1\nA\n>2\nA\n");
        clone
    }

    /// Writes a file that may be run. All are an hour old, so that what is built
    /// now is newer.
    fn write(&self, name: &str, text: &str) {
        let path = self.top.join(name);
        fs::create_dir_all(path.parent().unwrap()).unwrap();
        fs::write(&path, text).unwrap();
        fs::set_permissions(&path, Permissions::from_mode(0o755)).unwrap();
        let earlier = SystemTime::now() - Duration::from_secs(3_600);
        File::open(&path).unwrap().set_modified(earlier).unwrap();
    }

    /// As if a file were changed now, after all that was built.
    pub fn touch(&self, name: &str) {
        let soon = SystemTime::now() + Duration::from_millis(10);
        let file = File::open(self.top.join(name)).unwrap();
        file.set_modified(soon).unwrap();
        std::thread::sleep(Duration::from_millis(50));
    }

    /// What was proved and built, in its order.
    pub fn log(&self) -> String {
        fs::read_to_string(self.top.join("log")).unwrap_or_default()
    }

    /// The PATH on which the stand-ins come first.
    pub fn path(&self) -> String {
        let path = env::var("PATH").unwrap_or_default();
        format!("{}:{path}", self.top.join("bin").display())
    }

    /// A program with these words, in this folder.
    pub fn command(&self, line: &str, program: &Path) -> Command {
        let mut command = Command::new(program);
        command.current_dir(&self.top).args(line.split_whitespace());
        command.env("PATH", self.path());
        command.env("REAL_ASKED", env!("CARGO_BIN_EXE_asked"));
        command.stdin(Stdio::null());
        command
    }

    /// The script with these words.
    pub fn run(&self, line: &str) -> Run {
        let output = self
            .command(line, &self.top.join("annex"))
            .output()
            .unwrap();
        Run {
            status: output.status.code().unwrap(),
            output: String::from_utf8(output.stdout).unwrap(),
            complaints: String::from_utf8(output.stderr).unwrap(),
        }
    }
}
