# make: prove every crate, make the archives for Rust and C, and print the sheet of the small event. make test: the gate. make help: all targets.
.PHONY: all sheet test bench definitions doc desk help kit

define HELP
make               proves every crate, makes the archives for Rust and C, and prints the sheet of the paper's small event.
                   target/archive has the archives, a folder for each processor; target/log has what the kit says.
                   Some 22 minutes on two cores; with nothing changed, half a minute.
make sheet <FILE   prints the ends on offer and the pick for a table, a marking and guards. Seconds, once all is proved.
make test          the gate: `rt ci` (layout, every proof from nothing, must-fail edits, the programs' output), both archives, and
                   the tests and lints of the Rust side. target/log has what each part says; the last line is 'N passed, 0 failed'.
                   Not timed on fewer than four processors: 21 there for the proofs and edits from nothing, so 30 or more
                   minutes on two cores; where rt ci passed the same files on the machine before, 4 on four.
make bench         prints how long the seven operations take beside the plain reading, and how much stack.
                   Half a minute, once the archives are made.
make definitions   tries the definitions on 600 outside calls, by computation (tools/try-definitions --help says which);
                   target/definitions has the theorems, as text. A minute.
make doc           the Rust crate's documentation, rust/target/doc/keshmirun/index.html. Seconds, with the archives made.
make desk          the desk, rust/target/release/desk. Seconds, with the archives made.
make help          prints this.

All but doc, desk and help need the Rattle kit, its command rt on the PATH. What else is needed is installed where it is missing,
from Debian's packages.
endef

define NO_KIT
The proofs need the Rattle kit: put its command rt on the PATH. An app needs only the archives, which `make` writes to target/archive where the kit \
is: with these in target/archive here, or in the folder that KESHMIRUN_ARCHIVE names, `tools/cargo build` and `tools/cargo test -- --skip program::` \
run without it.
endef

all: kit
	@tools/progress target/log/check rt all check
	@tools/archive
	@tools/run sheet <crates/sheet/stdin

# the sheet of any other input: make sheet <FILE
sheet: kit
	@tools/run sheet

test: kit
	@tools/gate

# the seven operations timed beside the plain reading, on this machine's own processor
bench: kit
	@tools/archive
	@tools/cargo run --release --example bench

# tries the definitions on outside calls, by computation; run it before a definition moves
definitions: kit
	tools/try-definitions

doc:
	@tools/cargo doc --no-deps
	@echo "to read: rust/target/doc/keshmirun/index.html"

desk:
	@tools/cargo build --release --manifest-path desk/Cargo.toml
	@echo "to run: rust/target/release/desk"

help: export TEXT = $(HELP)
help:
	@printf '%s\n' "$$TEXT"

# what needs the kit says so where there is none
kit: export TEXT = $(NO_KIT)
kit:
	@command -v rt >/dev/null || { printf '%s\n' "$$TEXT" >&2; exit 1; }
