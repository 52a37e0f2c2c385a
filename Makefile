# `make demo` converts two samples by the proved library; `make build` proves and builds the library and the program; `make test` is the gate;
# `make install` installs the library; `make tables` builds the tables; `make bench` times the library
# beside the build before and beside rivals.
.PHONY: demo build test install tables bench fmt

demo:
	@bash examples/demo.sh

build:
	@bash .ci/build

test:
	@bash .ci/run

# The library, where it is not there yet.
target/staticlib/libcobbletwill.a:
	@bash .ci/build

# The library, its header and a file for pkg-config, below $(DESTDIR)$(PREFIX). The library is the one that was proved from these sources; where it
# is not, it is proved first.
PREFIX ?= /usr/local
install:
	bash .ci/proved . target/staticlib/libcobbletwill.a || bash .ci/build
	install -d "$(DESTDIR)$(PREFIX)/include" "$(DESTDIR)$(PREFIX)/lib/pkgconfig"
	install -m 644 include/cobbletwill.h "$(DESTDIR)$(PREFIX)/include"
	install -m 644 target/staticlib/libcobbletwill.a "$(DESTDIR)$(PREFIX)/lib"
	version=$$(sed -n 's/^#define COBBLETWILL_VERSION "\(.*\)"$$/\1/p' include/cobbletwill.h) && \
	    sed -e "s,@PREFIX@,$(PREFIX)," -e "s,@VERSION@,$$version," include/cobbletwill.pc.in > "$(DESTDIR)$(PREFIX)/lib/pkgconfig/cobbletwill.pc"

# The examples in C, station and chain.
target/examples/%: examples/c/%.c examples/c/text.h include/cobbletwill.h target/staticlib/libcobbletwill.a
	@mkdir -p $(@D)
	cc -std=c11 -Wall -Wextra -Werror -O2 -Iinclude -o $@ $< target/staticlib/libcobbletwill.a

# The tables of tables/ from their sources.
tables: target/staticlib/libcobbletwill.a
	@cargo build --release --offline --locked --quiet --manifest-path tools/Cargo.toml --target-dir target/cargo
	@for folder in tables/*/; do \
	    echo "$$folder" && target/cargo/release/build_table "$$folder/rules.txt" "$$folder/rules.tab" || exit 1; \
	done

# The library, proved, beside that of an earlier commit, proved too, and beside rivals; prints the tables of docs/PERFORMANCE.md. BEFORE is the landing
# before this one, and each landing sets it anew; here it is the first commit whose library this kit builds, since it reads no landing before. The
# tables of the page were made with the kits of their time, of BEFORE=f79dcd3, but for that of chains.
BEFORE ?= 04238c8
bench:
	@command -v flex > /dev/null || { echo 'bench: flex is missing; apt-get install flex' >&2; exit 1; }
	@bash .ci/build
	@bash compare/before.sh $(BEFORE)
	cargo run --release --offline --locked --quiet --manifest-path compare/Cargo.toml --target-dir target/cargo --features before,flex --bin bench

# The layout of every crate's files; the gate refuses another.
fmt:
	@for folder in crates/*/; do (cd "$$folder" && rt fmt) || exit 1; done
