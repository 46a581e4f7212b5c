CFLAGS = -std=c99 -Wall -Wextra -Wpedantic -Werror -O2 -Iinclude
LIB = target/staticlib/libfekhvina.a
PROGRAM = target/bin/narrow_lines
HOSTS = target/hosts
TOOLS = target/tools
CARGO = $(or $(shell command -v cargo),$(HOME)/.cargo/bin/cargo)
HEIGHTS = $(TOOLS)/heights.book $(TOOLS)/heights.mask
FUZZ_SEED = 1
FUZZ_SECONDS = 180

.PHONY: run example form check lib program hosts enumerate lines forms tools fuzz bench test

# The line program on 01's sample.
run: program
	@$(PROGRAM) < crates/narrow_lines/stdin

# The example host: a mask tidied and narrowed, a place asked for, a code tried.
example: $(HOSTS)/example
	@$(HOSTS)/example

# The form in the terminal, on a height field.
form: $(HOSTS)/form $(HEIGHTS)
	@$(HOSTS)/form $(HEIGHTS)

# Proves every crate that changed since it was last proved, and runs the cases.
check:
	@rt all test

# The archive that a C host links, of functions that are proved.
lib:
	@mkdir -p $(HOSTS) $(dir $(LIB))
	@cd crates/fekhvina && rt lib > ../../$(HOSTS)/lib.log 2>&1 || { cat ../../$(HOSTS)/lib.log; exit 1; }
	@cmp -s crates/fekhvina/out/libfekhvina.a $(LIB) || cp crates/fekhvina/out/libfekhvina.a $(LIB)

# The line program, proved.
program:
	@mkdir -p $(HOSTS) $(dir $(PROGRAM))
	@cd crates/narrow_lines && rt run < stdin > ../../$(HOSTS)/program.log 2>&1 || { cat ../../$(HOSTS)/program.log; exit 1; }
	@cmp -s crates/narrow_lines/out/narrow_lines $(PROGRAM) || cp crates/narrow_lines/out/narrow_lines $(PROGRAM)

# The last line of each of the next five is 'N passed, 0 failed'.

# Tries the archive from C.
hosts: $(HOSTS)/test $(HOSTS)/example
	@$(HOSTS)/example | diff - hosts/c/example.out
	@$(HOSTS)/test

# Holds the archive to the meaning, from Rust: every code of small masks is spelled out.
enumerate: lib
	@cd hosts/rust && $(CARGO) build --release --offline --locked --quiet
	@target/rust/release/enumerate

# Tries the line program through pipes.
lines: program $(HOSTS)/lines
	@$(HOSTS)/lines $(PROGRAM)

# Makes the tool that writes records from a text, and tries it.
tools: $(TOOLS)/records $(HOSTS)/tools
	@$(HOSTS)/tools $(TOOLS)/records tools/sample.txt

# Tries the form.
forms: $(HOSTS)/form $(HOSTS)/forms $(HEIGHTS)
	@$(HOSTS)/forms $(HOSTS)/form $(HEIGHTS)

# Compares the C entries with a plain version on damaged and random records, FUZZ_SECONDS long. The same FUZZ_SEED gives the same
# runs; FUZZ_RUN repeats one of them alone. The last line is 'N runs, 0 differences'.
fuzz: $(HOSTS)/fuzz
	@ASAN_OPTIONS=abort_on_error=1 $(HOSTS)/fuzz $(FUZZ_SEED) $(FUZZ_SECONDS) $(FUZZ_RUN)

# Times the product beside the plain narrow and, where they are installed, Gecode; compares their answers first. It takes
# minutes, and is no part of the gate.
bench: program $(HOSTS)/bench $(HOSTS)/plain_lines
	@CC=$(CC) hosts/bench/run $(HOSTS)/bench $(PROGRAM) $(HOSTS)/plain_lines

TEST_C = $(addprefix hosts/c/, test.c test_tidy_try.c test_narrow.c test_list.c narrow_calls.c faults.c list.c record.c random.c \
    lent.c stack.c count.c)
LINES_C = $(addprefix hosts/c/, lines.c lines_records.c lines_streams.c lines_pipes.c faults.c record.c random.c plain.c \
    plain_line.c process.c stream.c count.c)
FUZZ_C = $(addprefix hosts/c/, fuzz.c fuzz_inputs.c fuzz_damage.c fuzz_compare.c list.c record.c random.c plain.c \
    lent.c)
TOOLS_C = $(addprefix hosts/c/, tools.c record.c process.c stream.c count.c)
FORM_C = $(addprefix hosts/c/, form.c keys.c record.c)
FORMS_C = $(addprefix hosts/c/, forms.c forms_keys.c forms_terminal.c keys.c faults.c record.c random.c process.c stream.c \
    temporary.c count.c)
BENCH_C = $(addprefix hosts/bench/, bench.c growth.c narrows.c streams.c timing.c workloads.c) \
    $(addprefix hosts/c/, list.c plain.c plain_line.c process.c random.c record.c stream.c temporary.c)
PLAIN_LINES_C = hosts/bench/plain_lines.c $(addprefix hosts/c/, plain.c plain_line.c stream.c)
HEADERS = $(wildcard hosts/c/*.h hosts/bench/*.h) include/fekhvina.h

# Gecode, where the Debian package libgecode-dev has put it.
ifneq ($(wildcard /usr/include/gecode/int.hh),)
GECODE = $(HOSTS)/gecode.o
GECODE_LIBS = -lgecodeint -lgecodekernel -lgecodesupport -lstdc++
else
GECODE = hosts/bench/gecode_none.c
endif

$(HOSTS)/test: lib $(TEST_C) $(HEADERS)
	@$(CC) $(CFLAGS) -o $@ $(TEST_C) $(LIB)

# What the sanitizers see is the host's side: the archive is not built with them.
$(HOSTS)/fuzz: lib $(FUZZ_C) $(HEADERS)
	@$(CC) $(CFLAGS) -g -fsanitize=address,undefined -fno-sanitize-recover=all -o $@ $(FUZZ_C) $(LIB)

$(HOSTS)/example: lib hosts/c/example.c include/fekhvina.h
	@$(CC) $(CFLAGS) -o $@ hosts/c/example.c $(LIB)

$(HOSTS)/lines: $(LINES_C) $(HEADERS)
	@mkdir -p $(HOSTS)
	@$(CC) $(CFLAGS) -o $@ $(LINES_C)

$(HOSTS)/tools: $(TOOLS_C) $(HEADERS)
	@mkdir -p $(HOSTS)
	@$(CC) $(CFLAGS) -o $@ $(TOOLS_C)

$(HOSTS)/form: lib $(FORM_C) $(HEADERS)
	@$(CC) $(CFLAGS) -o $@ $(FORM_C) $(LIB)

$(HOSTS)/forms: lib $(FORMS_C) $(HEADERS)
	@$(CC) $(CFLAGS) -o $@ $(FORMS_C) $(LIB)

$(TOOLS)/heights.%: tools/heights.%.txt $(TOOLS)/records
	@$(TOOLS)/records < $< > $@ || { rm -f $@; exit 1; }

$(HOSTS)/bench: lib $(BENCH_C) $(GECODE) $(HEADERS)
	@$(CC) $(CFLAGS) -Ihosts/c -o $@ $(BENCH_C) $(GECODE) $(LIB) $(GECODE_LIBS)

$(HOSTS)/gecode.o: hosts/bench/gecode.cc $(HEADERS)
	@mkdir -p $(HOSTS)
	@$(CXX) -std=c++11 -Wall -Wextra -Werror -O2 -Iinclude -Ihosts/c -c -o $@ $<

$(HOSTS)/plain_lines: $(PLAIN_LINES_C) $(HEADERS)
	@mkdir -p $(HOSTS)
	@$(CC) $(CFLAGS) -Ihosts/c -o $@ $(PLAIN_LINES_C)

$(TOOLS)/records: tools/records.c
	@mkdir -p $(TOOLS)
	@$(CC) $(CFLAGS) -o $@ tools/records.c

# The gate, from nothing: proves every crate, tries every must-fail edit, then the hosts' tests. Its last line is
# 'N passed, 0 failed', with all of them counted.
test:
	@hosts/gate
