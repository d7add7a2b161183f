# make run     runs a script and prints its answers: the stored one, or SCRIPT=path, by the words of WORDS. The program is built
#              without proof, and stays in build/unproved
# make test    the gate: whether generated pages are up to date, and links and examples of all pages hold; what crates name of each other,
#              every proof from nothing, the must-fail edits, the tests and the program; then tools/openings, what `make rows`, `make memory` and `make large` do, and
#              the library from C, C++, Python and Rust
# make fkv     proves the program, says at which crate it is, and leaves it at build/fkv
# make face    proves the library for C, C++, Python and Rust, says at which crate it is, and leaves it at build/libfkv.a and build/libfkv.so.0, with
#              build/fkv.h and build/fkv_posix.h. With QUICK=1 it builds the same without proof, in a minute, and leaves it in build/unproved
# make install PREFIX=/usr/local DESTDIR=   installs what is built: the library of `make face`, or with QUICK=1 that without proof, its headers,
#              its packages for pkg-config and CMake, man pages, and those of the three programs that are in build/
# make fkv_renew  proves the program that renews a store, and leaves it at build/fkv_renew
# make fkv_look  proves the program that shows what a store's file holds, and leaves it at build/fkv_look
# make rows    runs the built program on whole scripts, and compares what it writes
# make renewing   renews stored files by that program, and compares what fkv says of the old and of the new ones
# make memory  runs stored scripts, a store's creation and its opening, a commit's copy and the options' words, with each request for memory refused in turn
# make large   plays scripts of 2^20 keys over a living store of large sizes, in a file and in memory, and compares with a plain map
# make bench   times the proved program on scripts of up to 65,536 lines, and recovery of images of up to 2^20 records
# make bench-peers  plays the same calls over the library of `make face` and over other maps and stores, and writes docs/BENCH.md with
#              pictures, in twenty-five minutes; with QUICK=1 fewer of them, in a minute
# make hammer  runs lives of stores that four threads share, each ended by a crash, for a minute or SECONDS
# make endless  runs the library of `make face`, or with QUICK=1 that without proof, over one file with a commit each 5 milliseconds, and kills it now and
#              then, for half an hour or SECONDS
# make trimming  runs the library of `make face`, or with QUICK=1 that without proof, over files whose log is given back at its front, beside such that keep it,
#              says how calls, file and rate fare, and kills it again and again, for eleven minutes or SECONDS and a tenth more
# make stream  counts by key from partitions of a log, over Redis, with workers that are killed and partitions that move: docs/STREAM.md
# make gate    runs the gate, and writes the processor time of each crate into docs/GATE.md
# make audit   tries the wrong bodies that the gate leaves out, those of crates/*/audit, or of the crates in CRATES
# make near    tries a change of the crates in CRATES, or of those that differ from the last commit, in minutes: their proof, their wrong bodies,
#              tests and the program without proof. It ends with what the gate will take for them
# make impact  says what other crates can see of what differs from the last commit, or from BASE, and which of their files name it
# make warm    gives the libraries that the gate's `rt ci` has left the stamps by which `rt check` takes them; FROM=clone takes those of another clone
# make docs    writes docs/CRATES.md and docs/STATEMENT.md anew, from crates.txt, the heads of the crates and the specs; and from docs/GATE.md's
#              table the longest chain of checks there, and what a change costs into CONTRIBUTING.md
#
# Each of them but `make docs`, `make impact` and `make install` needs the Rattle toolchain, the command rt. Where the program ends with a status other than 0 make run fails,
# and says which it was.

SCRIPT ?= crates/fkv/stdin
# The words behind the program's name, as WORDS="--check --torn 165".
WORDS ?=
# How long `make hammer` runs.
SECONDS ?= 60
# Where `make install` puts what is built.
PREFIX ?= /usr/local
DESTDIR ?=
# Another clone, whose libraries `make warm` takes where they are of the same sources.
FROM ?=
# The crates that `make near` tries, and whose wrong bodies `make audit` tries, as CRATES="fkv_log fkv_ops"; where nothing is said, those that
# differ, and all.
CRATES ?=
# The commit that `make impact` compares with.
BASE ?=

.PHONY: run test fkv face face-proved install fkv_renew fkv_look rows renewing memory large bench bench-peers hammer endless trimming stream gate near impact warm audit docs toolchain

run: toolchain
	@tools/script/run "$(SCRIPT)" $(WORDS)

test: toolchain
	tools/docs/make --check
	tools/gate/chain --check
	tools/names/check
	@tools/script/check > /dev/null
	@tools/gate/check > /dev/null
	rt ci
	@tools/rows/run crates/fkv/out/fkv > /dev/null
	@tools/openings/run > /dev/null
	@tools/openings/files > /dev/null
	@tools/looking/run crates/fkv_look/out/fkv_look > /dev/null
	@tools/memory/run crates/fkv/out/fkv > /dev/null
	@tools/memory/opening > /dev/null
	@tools/memory/creating > /dev/null
	@tools/memory/keeper > /dev/null
	@tools/memory/options > /dev/null
	@tools/large/run crates/fkv/out/fkv > /dev/null
	@tools/renewing/run crates/fkv/out/fkv crates/fkv_renew/out/fkv_renew > /dev/null
	@tools/face/make
	@tools/face/run > /dev/null
	@tools/face/make --quick
	@tools/face/run --page build/unproved > /dev/null

fkv: toolchain
	@tools/script/prove

face: toolchain
	@tools/face/make $(if $(QUICK),--quick)

face-proved: toolchain
	@tools/face/make

fkv_renew: toolchain
	@tools/script/prove fkv_renew

fkv_look: toolchain
	@tools/script/prove fkv_look

rows: fkv
	tools/rows/run build/fkv

renewing: fkv fkv_renew
	tools/renewing/run build/fkv build/fkv_renew

memory: fkv
	cd crates/fkv_opening_tests && rt test > /dev/null
	cd crates/fkv_image_tests && rt test > /dev/null
	cd crates/fkv_keeper_tests && rt test > /dev/null
	cd crates/fkv_text_tests && rt test > /dev/null
	tools/memory/run build/fkv
	tools/memory/opening
	tools/memory/creating
	tools/memory/keeper
	tools/memory/options

large: fkv
	tools/large/run build/fkv

bench: fkv
	cd crates/fkv_opening_tests && rt test > /dev/null
	tools/bench/run build/fkv
	tools/bench/threads build/fkv
	tools/bench/straight
	tools/bench/recovery

install:
	@tools/face/install $(if $(QUICK),build/unproved,build) "$(PREFIX)" "$(DESTDIR)"

bench-peers: face-proved
	tools/peers/run $(if $(QUICK),--quick)

hammer: toolchain
	tools/hammer/run $(SECONDS)

endless: SECONDS = 1800
endless: face
	tools/endless/run $(SECONDS) $(if $(QUICK),build/unproved,build)

trimming: SECONDS = 600
trimming: face
	tools/trimming/run $(SECONDS) $(if $(QUICK),build/unproved,build)

stream:
	face/examples/stream/run

gate: toolchain
	tools/gate/measure

near: toolchain
	@tools/gate/near $(CRATES)

impact:
	@tools/gate/impact $(BASE)

warm: toolchain
	tools/gate/warm $(FROM)

docs:
	tools/docs/make
	tools/gate/chain --write

audit: toolchain
	tools/audit/run $(CRATES)
	tools/audit/serial

toolchain:
	@command -v rt > /dev/null || { echo "the Rattle toolchain is missing: there is no command rt (README.md, Quick start)" >&2; exit 1; }
